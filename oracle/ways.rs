//! ways ANSWERS: plays a call script from the standard input through the source and counts why
//! accelerometer steps, biases that are set, and gyro samples are answered as they are. ANSWERS is what
//! the oracle prints for that script; it must have the same answers.
//!
//! The determinants are the source's own, and so is its test of them. That 5 is the answer where
//! one is not finite is told here, apart from the line that is amended in the oracle. So is that 4 is
//! the answer where a bias is beyond the clip: here by the number, in the oracle by the source's gyro step.
//! A gyro sample that is taken is told to answer 0, whatever it turns by.

#[allow(dead_code)]
mod fields;
mod limits;
#[allow(dead_code)]
mod lines;
#[allow(dead_code)]
mod rules;
mod script;
mod words;

use rules::{Answer, Call};
use std::collections::{BTreeMap, BTreeSet};
use std::env;
use std::fs::File;
use std::io::{self, BufRead, BufReader, Read};
use std::process::exit;
use vqf::{DETERMINANT, VQF};

/// Half the angle at 200 rad/s in each place against a bias of PI/2, for one second.
const LARGEST: f64 = 174.5654302800634;

/// What is counted: a call, its answer, and why.
type Step = (&'static str, Answer, String);

fn main() {
    rules::hush_missing_inverse();
    let arguments: Vec<String> = env::args().skip(1).collect();
    let [answers] = arguments.as_slice() else {
        stop("usage: ways ANSWERS");
    };
    let answers = File::open(answers)
        .unwrap_or_else(|error| stop(&format!("cannot read {answers}: {error}")));
    let counts = count(lines_of(answers));
    if counts.is_empty() {
        stop("no accelerometer step and no gyro sample was played, and no bias was set");
    }
    print(&counts);
}

fn count(mut answers: impl Iterator<Item = String>) -> BTreeMap<Step, u64> {
    let mut filter = rules::fresh_house_filter();
    let mut counts = BTreeMap::new();
    for (number, line) in (1u64..).zip(lines_of(io::stdin())) {
        if words::is_silent(line.as_bytes()) {
            continue;
        }
        let answer = answers.next().unwrap_or_default();
        if answer.starts_with("bad ") {
            stop(&format!("line {number} of the scripts is no call"));
        }
        let mut told = answer.split(' ').skip(1);
        for step in play_line(&mut filter, &line).unwrap_or_default() {
            let due = step.1 as u8;
            if told.next() != Some(&due.to_string()) {
                let why = &step.2;
                stop(&format!(
                    "line {number}: {due}, {why}. The oracle has: {answer}"
                ));
            }
            *counts.entry(step).or_default() += 1;
        }
    }
    counts
}

/// Plays a line; what is counted of it, in the order of its answers.
fn play_line(filter: &mut VQF, line: &str) -> Option<Vec<Step>> {
    let words = words::words(line.as_bytes())?;
    let (word, arguments) = words.split_first()?;
    if *word == "upd" {
        let (gyr, acc, mag) = script::update_arguments(arguments)?;
        let steps = vec![play_gyr(filter, gyr, None), play_acc(filter, acc)];
        mag.map(|mag| rules::play(filter, &Call::Mag(mag)));
        return Some(steps);
    }
    let step = match script::call(word, arguments)? {
        Call::Gyr(gyr) => play_gyr(filter, gyr, None),
        Call::GyrWithTs(gyr, ts) => play_gyr(filter, gyr, Some(ts)),
        Call::Acc(acc) => play_acc(filter, acc),
        Call::Bias(bias, sigma) => play_bias(filter, bias, sigma),
        call => {
            rules::play(filter, &call);
            return None;
        }
    };
    Some(vec![step])
}

/// A gyro sample, by half the angle that it turns by. The domain of sine and cosine was 128 once, and
/// 88 is the next whole number above the largest half angle with rates up to 100.
fn play_gyr(filter: &mut VQF, gyr: [f64; 3], ts: Option<f64>) -> Step {
    let bias = filter.state().bias;
    let norm = (0..3).map(|i| gyr[i] - bias[i]).map(|rate| rate * rate);
    let half = norm.sum::<f64>().sqrt() * ts.unwrap_or(filter.coeffs().gyr_ts) / 2.0;
    let call = ts.map_or(Call::Gyr(gyr), |ts| Call::GyrWithTs(gyr, ts));
    rules::play(filter, &call);
    let (answer, why) = if !gyr.iter().all(|rate| limits::GYR.takes(*rate)) {
        (Answer::SampleOutside, "the sample is outside its limits")
    } else if ts.is_some_and(|ts| !limits::INTERVAL.takes(ts)) {
        (
            Answer::IntervalOutside,
            "the interval is outside its limits",
        )
    } else if half <= 88.0 {
        (Answer::Done, "taken, half the angle up to 88")
    } else if half <= 128.0 {
        (Answer::Done, "taken, half the angle up to 128")
    } else if half < LARGEST {
        (Answer::Done, "taken, half the angle beyond 128")
    } else {
        (Answer::Done, "taken, half the angle the largest there is")
    };
    ("gyr", answer, why.to_string())
}

fn play_acc(filter: &mut VQF, acc: [f64; 3]) -> Step {
    let before = *filter;
    DETERMINANT.set(None);
    let answer = rules::play(filter, &Call::Acc(acc));
    match (answer, DETERMINANT.get()) {
        (_, Some(det)) if !det.is_finite() => {
            *filter = before;
            let det = if det.is_nan() { "a NaN" } else { "infinite" };
            let goes_on = answer as u8;
            let why = format!("the determinant is {det}; the source goes on to {goes_on}");
            ("acc", Answer::Singular, why)
        }
        _ => ("acc", answer, acc_reason(answer, before, acc)),
    }
}

fn acc_reason(answer: Answer, before: VQF, acc: [f64; 3]) -> String {
    match answer {
        Answer::Singular => "the determinant is too small".to_string(),
        Answer::NotFinite => not_finite(before, acc),
        Answer::ZeroSample => "the sample is all zero".to_string(),
        Answer::SampleOutside => "the sample is outside its limits".to_string(),
        _ => "taken".to_string(),
    }
}

/// A bias, by where its component that is furthest out lies to the clip of the settings in force.
fn play_bias(filter: &mut VQF, bias: [f64; 3], sigma: Option<f64>) -> Step {
    let clip = limits::bias(filter.params().bias_clip).high;
    rules::play(filter, &Call::Bias(bias, sigma));
    if sigma.is_some_and(|sigma| !limits::BIAS_SIGMA.takes(sigma)) {
        let why = "the standard deviation is outside its limits".to_string();
        return ("bias", Answer::SettingOutside, why);
    }
    let furthest = bias.map(f64::abs).into_iter().fold(0.0, f64::max);
    let (answer, why) = if bias.iter().any(|component| component.is_nan()) {
        (Answer::SettingOutside, "a component is a NaN")
    } else if furthest > clip.next_up() {
        (Answer::SettingOutside, "beyond the clip")
    } else if furthest > clip {
        (Answer::SettingOutside, "the first value beyond the clip")
    } else if furthest == clip {
        (Answer::Done, "the clip itself")
    } else if furthest == clip.next_down() {
        (Answer::Done, "the last value before the clip")
    } else {
        (Answer::Done, "within the clip")
    };
    ("bias", answer, why.to_string())
}

/// The stored quantities of which the source's call leaves a number that is not finite.
fn not_finite(before: VQF, acc: [f64; 3]) -> String {
    let mut after = before;
    after.update_acc(acc);
    let (before, after) = (lines::state(&before), lines::state(&after));
    let names: BTreeSet<String> = fields::fields(&before)
        .iter()
        .zip(fields::fields(&after))
        .filter(|(before, after)| {
            // The source marks averaging by a NaN, so memories that become one read as averaging.
            (before.word, after.word) == ("R", "A")
                || after.value().is_some_and(|value| !value.is_finite())
        })
        .map(|(_, after)| format!("`{}`", after.quantity))
        .collect();
    let names: Vec<String> = names.into_iter().collect();
    names.join(", ")
}

fn print(counts: &BTreeMap<Step, u64>) {
    println!("| call | answer | why | how often |");
    println!("|---|---|---|---|");
    for ((call, answer, why), count) in counts {
        println!("| {call} | {} | {why} | {count} |", *answer as u8);
    }
}

fn lines_of(input: impl Read) -> impl Iterator<Item = String> {
    BufReader::with_capacity(1 << 16, input)
        .lines()
        .map(|line| line.unwrap_or_else(|error| stop(&format!("cannot read: {error}"))))
}

fn stop(message: &str) -> ! {
    eprintln!("ways: {message}");
    exit(1);
}
