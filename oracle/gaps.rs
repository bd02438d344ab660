//! gaps own|unamended COUNT KIND:SEED..: plays scripts through that oracle and through the port's,
//! and reports how far each stored quantity goes apart.
//!
//! A run is followed from its `new` until an answer, a flag or a phase differs: from there the
//! two filters do different things. The rest of that run is left out, and counted.

mod fields;
mod words;

use fields::{fields, Field};
use std::collections::BTreeMap;
use std::env;
use std::io::{BufRead, BufReader};
use std::process::{exit, Child, ChildStdout, Command, Stdio};

const TOOLS: &str = "target/oracle";
const FUNCTIONS: [&str; 8] = ["sqrt", "sin", "cos", "tan", "exp", "asin", "acos", "atan2"];
const TURN: f64 = 6.283185307179586;
/// Angles kept within half a turn: next to its ends a hair's breadth changes the sign.
const WRAPPED: [&str; 2] = ["delta", "last_mag_dis_angle"];

#[derive(Default)]
struct Gap {
    absolute: f64,
    relative: f64,
    place: String,
}

#[derive(Default)]
struct Tally {
    gaps: BTreeMap<(&'static str, &'static str), Gap>,
    lines: u64,
    runs: u64,
    differing: u64,
    /// Whether the present run has been alike so far.
    alike: bool,
    parted: Vec<String>,
}

fn main() {
    let arguments: Vec<String> = env::args().skip(1).collect();
    let [other, count, scripts @ ..] = arguments.as_slice() else {
        stop("usage: gaps own|unamended COUNT KIND:SEED..");
    };
    let mut tally = Tally::default();
    for script in scripts {
        let Some((kind, seed)) = script.split_once(':') else {
            stop(&format!("{script} is not KIND:SEED"));
        };
        follow(&mut tally, other, kind, seed, count);
    }
    if tally.lines == 0 {
        stop("nothing was compared");
    }
    print(&tally);
}

fn follow(tally: &mut Tally, other: &str, kind: &str, seed: &str, count: &str) {
    let drawn = || start("scripts", &[kind, seed, count], Stdio::null());
    let played = |name| {
        let mut script = drawn();
        let oracle = start(name, &[], output(&mut script).into());
        [script, oracle]
    };
    let mut script = drawn();
    let ([other_script, mut other], [port_script, mut port]) = (played(other), played("port"));
    let calls = (1u64..).zip(lines(&mut script));
    let (mut other_lines, mut port_lines) = (lines(&mut other), lines(&mut port));
    let mut together = true;
    for (number, call) in calls {
        if words::is_silent(call.as_bytes()) {
            continue;
        }
        let (Some(other), Some(port)) = (other_lines.next(), port_lines.next()) else {
            stop(&format!(
                "{kind}:{seed} line {number}: an oracle ended before this line"
            ));
        };
        if words::first(&call) == "new" {
            together = true;
            tally.runs += 1;
            tally.alike = true;
        }
        if together {
            let place = format!("{kind}:{seed} line {number}");
            together = tally.compare(&place, &call, &other, &port);
        }
    }
    if other_lines.next().is_some() || port_lines.next().is_some() {
        stop(&format!(
            "{kind}:{seed}: an oracle went on after the last line"
        ));
    }
    for child in [script, other_script, other, port_script, port] {
        end(child);
    }
}

impl Tally {
    /// False where the two filters part.
    fn compare(&mut self, place: &str, call: &str, other: &str, port: &str) -> bool {
        self.lines += 1;
        if other == port {
            return true;
        }
        self.differing += u64::from(self.alike);
        self.alike = false;
        let group = group(other);
        let (other, port) = (fields(other), fields(port));
        let parting = other.iter().zip(&port).find(|(a, b)| parts(a, b));
        if let Some((other, port)) = parting {
            let word = words::first(call);
            self.parted.push(format!(
                "{place}, {word}: {} {} and {}",
                other.name(),
                other.word,
                port.word
            ));
            return false;
        }
        for (other, port) in other.iter().zip(&port) {
            self.widen(group, place, other, port);
        }
        true
    }

    fn widen(&mut self, group: &'static str, place: &str, other: &Field, port: &Field) {
        let (Some(a), Some(b)) = (other.value(), port.value()) else {
            return;
        };
        if a.is_nan() && b.is_nan() {
            return;
        }
        let absolute = apart(other.quantity, a, b);
        let relative = absolute / a.abs().max(b.abs()).max(f64::MIN_POSITIVE);
        let gap = self.gaps.entry((group, other.quantity)).or_default();
        gap.relative = gap.relative.max(relative);
        if absolute > gap.absolute {
            gap.absolute = absolute;
            gap.place = format!("{place}, {}: {a:e} and {b:e}", other.name());
        }
    }
}

fn group(line: &str) -> &'static str {
    let first = line.split(' ').next().unwrap_or("");
    match first {
        "=" => "stored",
        "?" => "answered",
        _ => FUNCTIONS
            .iter()
            .find(|name| **name == first)
            .unwrap_or(&"call"),
    }
}

/// Flags, phases and answers are no 16 digits.
fn parts(other: &Field, port: &Field) -> bool {
    other.word != port.word && (other.value().is_none() || port.value().is_none())
}

fn apart(quantity: &str, a: f64, b: f64) -> f64 {
    let gap = (a - b).abs();
    match WRAPPED.contains(&quantity) {
        true => gap.min((TURN - gap).abs()),
        false => gap,
    }
}

fn print(tally: &Tally) {
    println!(
        "{} lines, {} runs, {} of them with a line that differs",
        tally.lines, tally.runs, tally.differing
    );
    println!("| | quantity | largest gap | largest relative gap | where the largest gap is |");
    println!("|---|---|---|---|---|");
    let (alike, apart): (Vec<_>, Vec<_>) =
        tally.gaps.iter().partition(|(_, gap)| gap.absolute == 0.0);
    for ((group, quantity), gap) in apart {
        println!(
            "| {group} | `{quantity}` | {:.1e} | {:.1e} | {} |",
            gap.absolute, gap.relative, gap.place
        );
    }
    let alike: Vec<&str> = alike.iter().map(|((_, quantity), _)| *quantity).collect();
    println!("no gap: {}", alike.join(", "));
    println!("{} runs part", tally.parted.len());
    tally.parted.iter().for_each(|line| println!("{line}"));
}

fn start(name: &str, arguments: &[&str], input: Stdio) -> Child {
    Command::new(format!("{TOOLS}/{name}"))
        .args(arguments)
        .stdin(input)
        .stdout(Stdio::piped())
        .spawn()
        .unwrap_or_else(|error| stop(&format!("cannot start {name}: {error}")))
}

fn output(child: &mut Child) -> ChildStdout {
    child
        .stdout
        .take()
        .unwrap_or_else(|| stop("a program without output"))
}

fn lines(child: &mut Child) -> impl Iterator<Item = String> {
    BufReader::with_capacity(1 << 16, output(child))
        .lines()
        .map(|line| line.unwrap_or_else(|error| stop(&format!("cannot read: {error}"))))
}

fn end(mut child: Child) {
    match child.wait() {
        Ok(status) if status.success() => (),
        Ok(status) => stop(&format!("a program failed: {status}")),
        Err(error) => stop(&format!("a program was lost: {error}")),
    }
}

fn stop(message: &str) -> ! {
    eprintln!("gaps: {message}");
    exit(1);
}
