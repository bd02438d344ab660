#!/usr/bin/env python3
"""follow.py CRATE/EDIT...: gives the answers of a wrong program whose goals have lost their names the new ones.

A goal has its name from the code, as `returns-then-digits-lt100` from `if digits < 100`. Where a wrong program changes such a test, the answer in the
function's file speaks of a goal that is not there, and shows nothing. This reads in the log of `./edits` what the goals are called now, and adds to the
wrong program the lines that rename them: pairs of whole lines, for the function's own files. Read them: a name that does not fit is said."""
import os, re, sys

TEST = r"\b(then|else|if|Then|Else)-"


def renamed(log):
    """For each file of answers the names of tests that are gone, each with the one that stands for it."""
    asked = {}
    for line in log:
        told = re.match(r"help: `Goals` has no `([^`]*)`; rattle asks for (.*?)(;|$)", line)
        if told:
            asked.setdefault(told[1], re.findall(r"`([^`]*)`", told[2]))
    found = {}
    for line in log:
        lost = re.match(r"\./(proofs/\S+\.antt):\d+:\d+: error: `[^`]*`: `goal\.[^`]*`: module `[^`]*` has no `([^`]*)` that can be named", line)
        if lost:
            found.setdefault(lost[1], {})[lost[2]] = asked.get(lost[2], [])
    return found


def pairs(path, lost):
    """The pairs of lines that rename the tests in one file."""
    text = open(path).read()
    known, names = {*re.findall(r"goal\.(\S+)", text)}, {}
    for goal, asked in lost.items():
        kind = re.match(r"(returns-then-|returns-else-)(.*)", goal)
        new = [it for it in asked if kind and it.startswith(kind[1]) and it not in known]
        if new:
            names[kind[2]] = new[0][len(kind[1]) :]
        else:
            print(f"{path}: nothing stands for {goal} among {', '.join(asked) or 'no names'}")
    for line in text.split("\n"):
        changed = line
        for old, new in names.items():
            changed = re.sub(rf"{TEST}{re.escape(old)}(?![\w-])", lambda at: f"{at[1]}-{new}", changed)
        if changed != line and text.count(line) == 1:
            yield f"old: {line}\nnew: {changed}"
        elif changed != line:
            print(f"{path}: this line stands more than once: {line}")


def main():
    os.chdir(os.path.dirname(os.path.dirname(os.path.realpath(__file__))))
    if len(sys.argv) < 2:
        sys.exit(__doc__)
    for name in sys.argv[1:]:
        crate, edit = name.split("/")
        added = []
        for file, lost in renamed(open(f"target/must-fail/{name}.log").read().split("\n")).items():
            of_file = [*pairs(f"crates/{crate}/{file}", lost)]
            added += [f"file: {file}", *of_file] if of_file else []
        if added:
            path = f"crates/{crate}/must-fail/{edit}.edit"
            text = open(path).read().rstrip("\n")
            open(path, "w").write("\n".join([text, "The answers of the changed tests take their names.", *added]) + "\n")
        print(f"{name}: {sum(it.startswith('old') for it in added)} lines of answers renamed")


main()
