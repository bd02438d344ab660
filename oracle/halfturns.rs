//! halfturns: reads an output of call scripts and counts the state lines whose last correction of
//! the tilt is a half turn or next to one, by how far z of the source lies above -1, in steps of
//! 2^-53. The source tells a half turn by z: up to 18014 steps it is one.

#[allow(dead_code)]
mod fields;

use std::f64::consts::PI;
use std::io::{self, BufRead, Write};
use std::process::exit;

const LAST: u64 = 18014;
const ROWS: [(&str, u64); 6] = [
    ("a half turn: straight down", 0),
    ("a half turn: 1 to 18013 steps above", LAST - 1),
    ("a half turn: 18014 steps, the last", LAST),
    ("the shortest turn: 18015 steps, the first", LAST + 1),
    ("the shortest turn: 18016 to 40000 steps", 40000),
    ("the shortest turn: further", u64::MAX),
];

fn main() -> io::Result<()> {
    let mut counts = [[0u64; 2]; ROWS.len()];
    for line in io::stdin().lock().lines() {
        let line = line?;
        if let Some(number) = line.strip_prefix("bad ") {
            stop(&format!("line {number} of a script is no call"));
        }
        if line.starts_with("= ") {
            let (steps, is_running) = correction(&line);
            let row = ROWS.iter().position(|(_, most)| steps <= *most);
            counts[row.unwrap_or(ROWS.len() - 1)][usize::from(is_running)] += 1;
        }
    }
    if counts.iter().flatten().all(|count| *count == 0) {
        stop("no state line was read");
    }
    let mut output = io::stdout().lock();
    writeln!(output, "| last correction | low-pass averaging | running |")?;
    writeln!(output, "|---|---|---|")?;
    for ((name, _), [averaging, running]) in ROWS.iter().zip(counts) {
        writeln!(output, "| {name} | {averaging} | {running} |")?;
    }
    Ok(())
}

/// The steps of the last correction, from its angle, and whether the low-pass filter runs.
fn correction(line: &str) -> (u64, bool) {
    let fields = fields::fields(line);
    let word = |name: &str| fields.iter().find(|field| field.name() == name);
    let number = |name: &str| {
        word(name)
            .and_then(|field| field.value())
            .unwrap_or(f64::NAN)
    };
    let missing = PI - number("last_acc_corr_angular_rate") * number("acc_ts");
    let is_running = word("acc_lp_state[0].phase").is_some_and(|field| field.word == "R");
    // The angle is acos z.
    (
        (missing * missing / f64::EPSILON).round() as u64,
        is_running,
    )
}

fn stop(message: &str) -> ! {
    eprintln!("halfturns: {message}");
    exit(1);
}
