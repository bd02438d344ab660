# Reads [-n COUNT] [-s SEED|FROM-TO]... [KIND]... into count, seeds and kinds, and goes to the
# repository's root. COUNT is above $least, 0 unless a command sets it; a command with other
# options says so in $options. -u sets unamended: the source as it is stands in for the one with
# the lines that the rules amend. Whatever is none of these ends the command with one line and exit status 2.
cd "$(dirname "${BASH_SOURCE[0]}")/.."
out=target/oracle
least=${least:-0}
command=oracle/${0##*/}

stop() {
    echo "$command: $*" >&2
    exit 2
}

# No more digits than every tool reads.
is_whole() {
    [[ $1 =~ ^[0-9]{1,18}$ ]]
}

read_count() {
    is_whole "$1" && ((10#$1 > least)) ||
        stop "-n $1: COUNT is a whole number above $least"
    count=$((10#$1))
}

read_seeds() {
    local from=${1%%-*} to=${1#*-}
    is_whole "$from" && is_whole "$to" ||
        stop "-s $1: SEED is a whole number, or two with a - between them"
    ((10#$from <= 10#$to)) || stop "-s $1: the first seed is above the last"
    mapfile -t -O ${#seeds[@]} seeds < <(seq "$from" "$to")
}

# check_kinds KNOWN...: stops at a kind that is not known, and takes all that are where none is named.
check_kinds() {
    local kind
    for kind in "${kinds[@]}"; do
        [[ " $* " == *" $kind "* ]] || stop "no kind is called $kind; the kinds are $*"
    done
    [ ${#kinds[@]} -gt 0 ] || kinds=("$@")
}

seeds=()
unamended=
while getopts ":${options-n:s:}" option; do
    case $option in
    n) read_count "$OPTARG" ;;
    s) read_seeds "$OPTARG" ;;
    u) unamended=unamended ;;
    :) stop "-$OPTARG has no value" ;;
    *) stop "there is no option -$OPTARG" ;;
    esac
done
kinds=("${@:OPTIND}")
[ ${#seeds[@]} -gt 0 ] || seeds=(1)
