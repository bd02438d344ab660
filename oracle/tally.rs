//! tally: reads an output of call scripts and counts the answers of each call.

use std::collections::BTreeMap;
use std::io::{self, BufRead};
use std::process::exit;

const ANSWERS: usize = 7;
const UPDATE_PARTS: [&str; 3] = ["upd gyr", "upd acc", "upd mag"];

fn main() -> io::Result<()> {
    let mut counts: BTreeMap<String, [u64; ANSWERS]> = BTreeMap::new();
    for line in io::stdin().lock().lines() {
        let line = line?;
        let words: Vec<&str> = line.split(' ').collect();
        match words.as_slice() {
            ["upd", answers @ ..] => {
                for (part, answer) in UPDATE_PARTS.iter().zip(answers) {
                    count(&mut counts, part, answer);
                }
            }
            ["bad", number] => stop(&format!("line {number} of a script is no call")),
            [word, answer] => count(&mut counts, word, answer),
            _ => (),
        }
    }
    if counts.is_empty() {
        stop("no answer was counted");
    }
    print(&counts);
    Ok(())
}

fn count(counts: &mut BTreeMap<String, [u64; ANSWERS]>, word: &str, answer: &str) {
    let number: usize = answer.parse().unwrap_or(ANSWERS);
    // A function's value has 16 digits.
    if answer.len() == 1 && number < ANSWERS {
        counts.entry(word.to_string()).or_default()[number] += 1;
    }
}

fn print(counts: &BTreeMap<String, [u64; ANSWERS]>) {
    println!("| call | 0 | 1 | 2 | 3 | 4 | 5 | 6 |");
    println!("|---|---|---|---|---|---|---|---|");
    let mut all = [0; ANSWERS];
    for (word, answers) in counts {
        row(word, answers);
        for (sum, answer) in all.iter_mut().zip(answers) {
            *sum += answer;
        }
    }
    row("all", &all);
}

fn row(word: &str, answers: &[u64; ANSWERS]) {
    let cells: Vec<String> = answers.iter().map(u64::to_string).collect();
    println!("| {word} | {} |", cells.join(" | "));
}

fn stop(message: &str) -> ! {
    eprintln!("tally: {message}");
    exit(1);
}
