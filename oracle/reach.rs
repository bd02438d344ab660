//! reach: plays call scripts from the standard input through the source, with the lines that the
//! rules amend, and tells how near it came to each bound. A line `== NAME` begins a row of the table,
//! a line `-- NAME` a script. A bound that is passed ends it with exit status 1.

#[allow(dead_code)]
mod limits;
#[allow(dead_code)]
mod rules;
mod script;
mod words;

use rules::{Answer, Call};
use std::f64::consts::PI;
use std::io::{self, BufRead, BufReader};
use std::process::exit;
use vqf::{GAIN, VQF};

/// The words of lines that play nothing.
const ASKING: [&str; 10] = [
    "state", "get", "sqrt", "sin", "cos", "tan", "exp", "asin", "acos", "atan2",
];

/// The furthest of each quantity.
#[derive(Default)]
struct Reach {
    calls: u64,
    /// Magnetometer samples that were taken, and those of them with a gain of 0.
    taken: u64,
    without_gain: u64,
    delta: f64,
    disagreement: f64,
    gain: f64,
    /// In parts of the clip.
    bias: f64,
    /// In parts of the longest time and an interval.
    reject_t: f64,
    /// The largest number of the covariance in size, and its least variance.
    covariance: f64,
    variance: f64,
}

impl Reach {
    fn widen(&mut self, other: &Reach) {
        self.calls += other.calls;
        self.taken += other.taken;
        self.without_gain += other.without_gain;
        for (most, value) in [
            (&mut self.delta, other.delta),
            (&mut self.disagreement, other.disagreement),
            (&mut self.gain, other.gain),
            (&mut self.bias, other.bias),
            (&mut self.reject_t, other.reject_t),
            (&mut self.covariance, other.covariance),
        ] {
            *most = most.max(value);
        }
        self.variance = self.variance.min(other.variance);
    }

    fn row(&self, name: &str) {
        println!(
            "| {name} | {} | {} | {} | {:?} | {:?} | {:?} | {:?} | {:?} | {:.3e} | {:.3e} |",
            self.calls,
            self.taken,
            self.without_gain,
            self.delta,
            self.disagreement,
            self.gain,
            self.bias,
            self.reject_t,
            self.covariance,
            self.variance,
        );
    }
}

fn main() {
    rules::hush_missing_inverse();
    println!("| scripts | calls | magnetometer samples taken | with gain 0 | \\|delta\\| | \\|last_mag_dis_angle\\| | gain used | \\|bias\\| / clip | mag_reject_t / limit | \\|covariance\\| | least variance |");
    println!("|---|---|---|---|---|---|---|---|---|---|---|");
    let mut all = Reach::default();
    let mut row: Option<(String, Reach)> = None;
    let mut filter = rules::fresh_house_filter();
    let (mut script, mut number) = (String::new(), 0u64);
    for line in BufReader::with_capacity(1 << 16, io::stdin()).lines() {
        let line = line.unwrap_or_else(|error| stop(&format!("cannot read: {error}")));
        number += 1;
        if let Some(name) = line.strip_prefix("== ") {
            end_row(row.replace((name.to_string(), Reach::default())), &mut all);
        } else if let Some(name) = line.strip_prefix("-- ") {
            (script, number) = (name.to_string(), 0);
            filter = rules::fresh_house_filter();
        } else if !words::is_silent(line.as_bytes()) {
            let Some((_, reach)) = &mut row else {
                stop("the first line is no == NAME");
            };
            play_line(&mut filter, &line)
                .map(|seen| reach.widen(&seen))
                .unwrap_or_else(|what| stop(&format!("{script}, line {number}: {what}")));
        }
    }
    end_row(row, &mut all);
    if all.calls == 0 {
        stop("no call was played");
    }
    all.row("all");
}

/// A row is printed once its scripts are played, so that one sees how far it is.
fn end_row(row: Option<(String, Reach)>, all: &mut Reach) {
    if let Some((name, reach)) = row {
        reach.row(&name);
        all.widen(&reach);
    }
}

fn play_line(filter: &mut VQF, line: &str) -> Result<Reach, &'static str> {
    let mut reach = Reach::default();
    for call in calls_of(line).ok_or("no call")? {
        let seen = play(filter, &call)?;
        reach.widen(&seen);
    }
    Ok(reach)
}

/// The calls of a line; none where it asks for the filter or for a function.
fn calls_of(line: &str) -> Option<Vec<Call>> {
    let words = words::words(line.as_bytes())?;
    let (word, arguments) = words.split_first()?;
    if ASKING.contains(word) {
        return Some(Vec::new());
    }
    if *word != "upd" {
        return script::call(word, arguments).map(|call| vec![call]);
    }
    let (gyr, acc, mag) = script::update_arguments(arguments)?;
    let mut calls = vec![Call::Gyr(gyr), Call::Acc(acc)];
    calls.extend(mag.map(Call::Mag));
    Some(calls)
}

fn play(filter: &mut VQF, call: &Call) -> Result<Reach, &'static str> {
    let before = filter.state().delta;
    GAIN.set(None);
    let answer = rules::play(filter, call);
    // The gain of a step that is refused is used for nothing.
    let gain = GAIN.get().filter(|_| answer == Answer::Done);
    if gain == Some(0.0) && filter.state().delta != before {
        return Err("the heading moved with a gain of 0");
    }
    let state = filter.state();
    let clip = filter.params().bias_clip * (PI / 180.0);
    let limit = filter.params().mag_max_rejection_time + filter.coeffs().mag_ts;
    let covariance = state.bias_p.0;
    let seen = Reach {
        calls: 1,
        taken: gain.is_some().into(),
        without_gain: (gain == Some(0.0)).into(),
        delta: state.delta.abs(),
        disagreement: state.last_mag_dis_angle.abs(),
        gain: gain.unwrap_or(0.0),
        bias: most(state.bias) / clip,
        reject_t: state.mag_reject_t / limit,
        covariance: covariance.map(most).into_iter().fold(0.0, f64::max),
        variance: (0..3).map(|i| covariance[i][i]).fold(0.0, f64::min),
    };
    passed(filter, &seen).map_or(Ok(seen), Err)
}

fn most(numbers: [f64; 3]) -> f64 {
    numbers.map(f64::abs).into_iter().fold(0.0, f64::max)
}

/// The bound that a call passed, told from the numbers themselves: a quotient is rounded.
fn passed(filter: &VQF, seen: &Reach) -> Option<&'static str> {
    let (state, coeffs, params) = (filter.state(), filter.coeffs(), filter.params());
    let clip = params.bias_clip * (PI / 180.0);
    let gains = [seen.gain, coeffs.k_mag, coeffs.k_mag_ref, state.k_mag_init];
    let limit = params.mag_max_rejection_time + coeffs.mag_ts;
    let times = [state.rest_t, state.mag_undisturbed_t, state.mag_candidate_t];
    [
        (state.delta.abs() <= PI, "delta is beyond PI"),
        (
            state.last_mag_dis_angle.abs() <= PI,
            "last_mag_dis_angle is beyond PI",
        ),
        (most(state.bias) <= clip, "the bias is beyond the clip"),
        (
            gains.iter().all(|gain| (0.0..=1.0).contains(gain)),
            "a gain is not within 0 and 1",
        ),
        (
            (0.0..=limit).contains(&state.mag_reject_t),
            "mag_reject_t is beyond its limit",
        ),
        (times.iter().all(|time| *time >= 0.0), "a time is below 0"),
    ]
    .iter()
    .find(|(holds, _)| !holds)
    .map(|(_, what)| *what)
}

fn stop(message: &str) -> ! {
    eprintln!("reach: {message}");
    exit(1);
}
