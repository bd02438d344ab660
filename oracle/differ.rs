//! differ SCRIPT WANTED FOUND: reads a call script and two outputs of it side by side and
//! stops at the first line that differs. FOUND is the one under test.

mod fields;
mod words;

use fields::{fields, Field};
use std::env;
use std::fs::File;
use std::io::{BufRead, BufReader};
use std::process::exit;

/// A call is shown with what it printed this many lines before.
const CALLS_SHOWN: usize = 5;

fn main() {
    let arguments: Vec<String> = env::args().skip(1).collect();
    let [script, wanted, found] = arguments.as_slice() else {
        stop("usage: differ SCRIPT WANTED FOUND");
    };
    let [mut script, mut wanted, mut found] = [script, wanted, found].map(|path| Text::open(path));
    let mut recent: Vec<(u64, String)> = Vec::new();
    let mut compared = 0u64;
    let mut last = String::new();
    while let Some(call) = script.next() {
        if words::is_silent(call.as_bytes()) || last.starts_with("bad ") {
            continue;
        }
        if recent.len() == CALLS_SHOWN {
            recent.remove(0);
        }
        recent.push((script.number, call));
        match (wanted.next(), found.next()) {
            (Some(wanted), Some(found)) if wanted == found => last = wanted,
            (wanted, found) => {
                report(&recent, wanted.as_deref(), found.as_deref());
                exit(1);
            }
        }
        compared += 1;
    }
    for (whose, output) in [("oracle", &mut wanted), ("program", &mut found)] {
        if let Some(extra) = output.next() {
            stop(&format!(
                "after the last call the {whose} printed one more line: {extra}"
            ));
        }
    }
    if compared == 0 {
        stop("nothing was compared");
    }
    let end = if last.starts_with("bad ") {
        ", the last one bad"
    } else {
        ""
    };
    println!("{compared} lines alike{end}");
}

/// Lines with the numbers that they have in their file, each with the newline that ends it.
struct Text<'a> {
    path: &'a str,
    file: BufReader<File>,
    number: u64,
}

impl<'a> Text<'a> {
    fn open(path: &'a str) -> Self {
        let file =
            File::open(path).unwrap_or_else(|error| stop(&format!("cannot read {path}: {error}")));
        Self {
            path,
            file: BufReader::with_capacity(1 << 16, file),
            number: 0,
        }
    }

    fn next(&mut self) -> Option<String> {
        let mut line = Vec::new();
        self.number += 1;
        match self.file.read_until(b'\n', &mut line) {
            Ok(0) => None,
            Ok(_) => Some(String::from_utf8_lossy(&line).into_owned()),
            Err(error) => stop(&format!("{} line {}: {error}", self.path, self.number)),
        }
    }
}

fn report(recent: &[(u64, String)], wanted: Option<&str>, found: Option<&str>) {
    for (back, (number, call)) in recent.iter().rev().enumerate() {
        let call = call.trim_end();
        match back {
            0 => println!("line {number} differs\n  call   {number}: {call}"),
            _ => println!("  before {number}: {call}"),
        }
    }
    match (wanted, found) {
        (Some(wanted), Some(found)) => report_fields(wanted, found),
        (Some(_), None) => println!("  the program under test ended before this line"),
        (None, _) => println!("  the oracle ended before this line"),
    }
}

fn report_fields(wanted: &str, found: &str) {
    if wanted.trim_end() == found.trim_end() {
        println!("  oracle {wanted:?}\n  found  {found:?}");
        return;
    }
    let (wanted, found) = (fields(wanted.trim_end()), fields(found.trim_end()));
    let unlike = wanted.iter().zip(&found).filter(|(w, f)| w.word != f.word);
    for (wanted, found) in unlike.clone().take(1) {
        println!("  field  {}", wanted.name());
        println!("  oracle {}", told(wanted));
        println!("  found  {}", told(found));
    }
    if wanted.len() != found.len() {
        println!("  oracle has {} words, found {}", wanted.len(), found.len());
    }
    let others: Vec<String> = unlike.skip(1).map(|(w, _)| w.name()).collect();
    if !others.is_empty() {
        println!("  also   {}", others.join(" "));
    }
}

fn told(field: &Field) -> String {
    match field.value() {
        Some(value) => format!("{} ({value:?})", field.word),
        None => field.word.to_string(),
    }
}

fn stop(message: &str) -> ! {
    println!("differ: {message}");
    exit(1);
}
