//! expect EXPECTED OUTPUT: checks named fields of an output. A line of EXPECTED is the
//! number of an output line, a field's name, its word, and nothing else; `#` starts a remark.
//! expect found EXPECTED OUTPUT: prints the same fields as they are in the output.

#[allow(dead_code)]
mod fields;

use std::env;
use std::fs;
use std::process::exit;

fn main() {
    let arguments: Vec<String> = env::args().skip(1).collect();
    match arguments.as_slice() {
        [expected, output] => check(&wanted(expected), &lines(output)),
        [found, expected, output] if found == "found" => print(&wanted(expected), &lines(output)),
        _ => stop("usage: expect [found] EXPECTED OUTPUT"),
    }
}

fn check(wanted: &[String], output: &[String]) {
    let mut wrong = 0;
    for line in wanted {
        let found = found(output, line);
        if !line.ends_with(&format!(" {found}")) {
            wrong += 1;
            println!("expected {line}, found {found}");
        }
    }
    println!("{} values expected, {wrong} not found", wanted.len());
    exit(i32::from(wrong != 0 || wanted.is_empty()));
}

fn print(wanted: &[String], output: &[String]) {
    for line in wanted {
        let place = line.rsplit_once(' ').map_or("", |(place, _)| place);
        println!("{place} {}", found(output, line));
    }
}

fn lines(path: &str) -> Vec<String> {
    read(path).lines().map(str::to_string).collect()
}

fn wanted(path: &str) -> Vec<String> {
    let text = |line: &String| line.split('#').next().unwrap_or("").trim().to_string();
    let lines = lines(path);
    lines
        .iter()
        .map(text)
        .filter(|line| !line.is_empty())
        .collect()
}

fn found(output: &[String], line: &str) -> String {
    let words: Vec<&str> = line.split_whitespace().collect();
    let [number, name, _] = words.as_slice() else {
        stop(&format!("not a line of expectations: {line}"));
    };
    let number: usize = number.parse().unwrap_or(0);
    let printed = output.get(number.wrapping_sub(1));
    let fields = printed.map_or(Vec::new(), |line| fields::fields(line));
    let field = fields.iter().find(|field| field.name() == *name);
    field.map_or("nothing".to_string(), |field| field.word.to_string())
}

fn read(path: &str) -> String {
    fs::read_to_string(path).unwrap_or_else(|error| stop(&format!("cannot read {path}: {error}")))
}

fn stop(message: &str) -> ! {
    println!("expect: {message}");
    exit(1);
}
