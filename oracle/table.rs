//! The table of the program `show`, from the source's answers.

use vqf::{math, VQF};

pub const HEAD: &str = "  line  call     answer                            tilt heading  rest  disturbed";

pub fn in_words(answer: u8) -> &'static str {
    match answer {
        0 => "done",
        1 => "zero sample",
        2 => "bad sample",
        3 => "bad interval",
        4 => "bad setting",
        5 => "no inverse",
        _ => "not finite",
    }
}

pub fn row(number: u64, word: &str, answer: &str, filter: &VQF) -> String {
    let up = filter.quat_6d().rotate([0.0, 0.0, 1.0])[2];
    let ahead = filter.quat_9d().rotate([1.0, 0.0, 0.0]);
    format!(
        "{number:>6}  {word:<7}  {answer:<30}{:>8}{:>8}  {:<4}  {}",
        degrees(math::acos(up.clamp(-1.0, 1.0))),
        degrees(math::atan2(ahead[1], ahead[0])),
        yes_or_no(filter.rest_detected()),
        yes_or_no(filter.mag_dist_detected()),
    )
}

pub fn value(number: u64, word: &str, bits: &str) -> String {
    format!("{number:>6}  {word:<7}  {bits}")
}

/// To the nearest tenth; a half goes away from zero.
fn degrees(radians: f64) -> String {
    let degrees = radians * 180.0 / std::f64::consts::PI;
    if degrees.is_nan() {
        return "-".to_string();
    }
    let tenths = (degrees.abs() * 10.0 + 0.5) as u64;
    let sign = if degrees < 0.0 && tenths > 0 { "-" } else { "" };
    format!("{sign}{}.{}", tenths / 10, tenths % 10)
}

fn yes_or_no(flag: bool) -> &'static str {
    match flag {
        true => "yes",
        false => "no",
    }
}
