//! Plays a call script from the standard input through the source and prints its answers, or with
//! the argument `show` the table that the program of that name prints.

#[allow(dead_code)]
mod limits;
mod lines;
mod rules;
mod script;
mod table;
mod words;

use rules::Answer;
use script::{call, numbers, update_arguments};
use std::io::{self, BufRead, BufWriter, ErrorKind, Write};
use std::process::exit;
use vqf::{math, VQF};

fn main() {
    rules::hush_missing_inverse();
    if let Err(error) = play_script() {
        // A reader that has seen enough may close the pipe.
        if error.kind() != ErrorKind::BrokenPipe {
            eprintln!("oracle: {error}");
        }
        exit(1);
    }
}

/// How a line is answered: as `calls` does it, or as `show` does.
type Answering = fn(u64, &mut VQF, &[&str]) -> Option<String>;

fn play_script() -> io::Result<()> {
    let is_table = std::env::args().nth(1).as_deref() == Some("show");
    let answering: Answering = match is_table {
        true => table_row,
        false => |_, filter, words| answer_line(filter, words),
    };
    let mut input = io::stdin().lock();
    let mut output = BufWriter::with_capacity(1 << 16, io::stdout().lock());
    let mut filter = rules::fresh_house_filter();
    if is_table {
        writeln!(output, "{}", table::HEAD)?;
    }
    let mut line = Vec::new();
    for number in 1u64.. {
        line.clear();
        if input.read_until(b'\n', &mut line)? == 0 {
            break;
        }
        if words::is_silent(&line) {
            continue;
        }
        match words::words(&line).and_then(|words| answering(number, &mut filter, &words)) {
            Some(answer) => writeln!(output, "{answer}")?,
            None => {
                writeln!(output, "bad {number}")?;
                break;
            }
        }
    }
    output.flush()
}

/// What the line prints, or nothing where it is no line of the format.
fn answer_line(filter: &mut VQF, words: &[&str]) -> Option<String> {
    let (word, arguments) = words.split_first()?;
    match (*word, arguments) {
        ("state", []) => Some(lines::state(filter)),
        ("get", []) => Some(lines::answers(filter)),
        ("upd", _) => {
            let (gyr, acc, mag) = update_arguments(arguments)?;
            let [gyr, acc, mag] = rules::update(filter, gyr, acc, mag).map(number_of);
            Some(format!("upd {gyr} {acc} {mag}"))
        }
        _ => match function_value(word, arguments) {
            Some(value) => Some(format!("{word} {}", lines::hex(value))),
            None => {
                let call = call(word, arguments)?;
                Some(format!("{word} {}", number_of(rules::play(filter, &call))))
            }
        },
    }
}

/// The row of the table, or nothing where it is no line of the format.
fn table_row(number: u64, filter: &mut VQF, words: &[&str]) -> Option<String> {
    let (word, arguments) = words.split_first()?;
    let answer = match (*word, arguments) {
        ("state" | "get", []) => "-".to_string(),
        ("upd", _) => {
            let (gyr, acc, mag) = update_arguments(arguments)?;
            rules::update(filter, gyr, acc, mag)
                .map(|answer| table::in_words(number_of(answer)))
                .join(", ")
        }
        _ => match function_value(word, arguments) {
            Some(value) => return Some(table::value(number, word, &lines::hex(value))),
            None => {
                let call = call(word, arguments)?;
                table::in_words(number_of(rules::play(filter, &call))).to_string()
            }
        },
    };
    Some(table::row(number, word, &answer, filter))
}

fn number_of(answer: Answer) -> u8 {
    answer as u8
}

fn function_value(word: &str, arguments: &[&str]) -> Option<f64> {
    let one: Option<fn(f64) -> f64> = match word {
        "sqrt" => Some(math::sqrt),
        "sin" => Some(math::sin),
        "cos" => Some(math::cos),
        "tan" => Some(math::tan_f64),
        "exp" => Some(math::exp),
        "asin" => Some(math::asin),
        "acos" => Some(math::acos),
        _ => None,
    };
    match (one, word) {
        (Some(function), _) => numbers(arguments).map(|[value]| function(value)),
        (None, "atan2") => numbers(arguments).map(|[y, x]| math::atan2(y, x)),
        _ => None,
    }
}
