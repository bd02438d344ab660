//! Settings and arguments drawn in several ways, and how a script writes them.

use crate::limits::{self, Intervals, Range, Settings, HOUSE};
use crate::random::Random;

#[derive(Clone, Copy)]
pub enum Draw {
    /// Evenly within the limits.
    Uniform,
    /// About evenly over the logarithm, within the limits.
    Log,
    /// At the limits, or zero.
    Ends,
    /// At the limits, next to them on both sides, and the odd numbers of the format.
    Edges,
}

/// The size below which `Log` does not go where a range reaches 0.
const SMALLEST_DRAWN: f64 = 1e-9;

pub fn words(values: &[f64]) -> String {
    let hex = |value: &f64| format!(" {:016x}", value.to_bits());
    values.iter().map(hex).collect()
}

pub fn settings_words(settings: &Settings) -> String {
    let word = |((name, _), value): (&(&str, f64), &f64)| match limits::is_switch(name) {
        true => format!(" {}", i32::from(*value != 0.0)),
        false => words(&[*value]),
    };
    HOUSE.iter().zip(settings).map(word).collect()
}

pub fn setting(name: &str, ts: Intervals, draw: Draw, random: &mut Random) -> f64 {
    if limits::is_switch(name) {
        return random.pick(&[0.0, 1.0, 1.0]);
    }
    let ranges = limits::ranges(name, ts);
    let chosen = ranges[random.below(ranges.len() as u64) as usize];
    within(chosen, draw, random)
}

pub fn within(range: Range, draw: Draw, random: &mut Random) -> f64 {
    match draw {
        Draw::Uniform => random.between(range.low, range.high),
        Draw::Log => log_within(range, random),
        Draw::Ends => end(range, random),
        Draw::Edges => edge(range, random),
    }
}

fn log_within(range: Range, random: &mut Random) -> f64 {
    let up = (range.high > 0.0).then_some((range.low.max(SMALLEST_DRAWN), range.high, 1.0));
    let down = (range.low < 0.0).then_some((SMALLEST_DRAWN, -range.low, -1.0));
    let side = match (up, down) {
        (Some(up), Some(down)) => random.pick(&[up, down]),
        (Some(side), None) | (None, Some(side)) => side,
        (None, None) => return range.low,
    };
    let (low, high, sign) = side;
    sign * random.log_between(low, high.max(low))
}

fn end(range: Range, random: &mut Random) -> f64 {
    let ends = [range.low, range.high];
    match range.takes(0.0) && random.one_in(4) {
        true => random.pick(&[0.0, -0.0]),
        false => random.pick(&ends),
    }
}

fn edge(range: Range, random: &mut Random) -> f64 {
    let zero = random.pick(&[0.0, -0.0]);
    let ends = [range.low, range.high];
    match random.below(8) {
        0 | 1 => random.pick(&ends),
        2 | 3 => random.pick(&ends).next_up(),
        4 | 5 => random.pick(&ends).next_down(),
        6 => zero,
        _ => odd(random),
    }
}

/// Numbers that stand at an edge of the format.
pub fn odd(random: &mut Random) -> f64 {
    let value = random.pick(&[
        0.0,
        f64::from_bits(1),
        f64::from_bits(2),
        f64::MIN_POSITIVE.next_down(),
        f64::MIN_POSITIVE,
        f64::EPSILON,
        1.0,
        1.0f64.next_up(),
        1.0f64.next_down(),
        f64::MAX,
        f64::INFINITY,
        f64::from_bits(0x7ff8000000000000),
        f64::from_bits(0x7ff0000000000001),
        f64::from_bits(0x7fffffffffffffff),
    ]);
    random.signed(value)
}

/// Sizes whose squares are near or below the smallest numbers of the format.
pub fn tiny(random: &mut Random) -> f64 {
    let value = match random.below(5) {
        0 => 0.0,
        1 => random.log_between(1e-170, 1e-150),
        2 => random.log_between(1e-320, 1e-150),
        3 => random.log_between(1e-20, 1e-5),
        _ => f64::from_bits(random.below(10)),
    };
    random.signed(value)
}

pub fn intervals(draw: Draw, random: &mut Random) -> Intervals {
    let draw = match draw {
        Draw::Edges => Draw::Ends,
        other => other,
    };
    let mut interval = || within(limits::INTERVAL, draw, random);
    let shared = interval();
    let (gyr, acc, mag) = (interval(), interval(), interval());
    match random.below(3) {
        0 => Intervals { gyr, acc, mag },
        _ => Intervals {
            gyr: shared,
            acc: shared,
            mag: shared,
        },
    }
}

/// Each setting drawn that way, some left at the house value where that is taken.
pub fn settings(ts: Intervals, draw: Draw, random: &mut Random) -> Settings {
    HOUSE.map(|(name, house)| {
        let keep = random.one_in(8) && limits::setting_taken(name, house, ts);
        match keep {
            true => house,
            false => setting(name, ts, draw, random),
        }
    })
}

/// Some settings moved off the house values, by a factor from a quarter to four.
pub fn near_house(ts: Intervals, random: &mut Random) -> Settings {
    HOUSE.map(|(name, house)| {
        if limits::is_switch(name) {
            return random.pick(&[1.0, 1.0, 1.0, 0.0]);
        }
        let moved = house * random.log_between(0.25, 4.0);
        match random.one_in(2) && limits::setting_taken(name, moved, ts) {
            true => moved,
            false => house,
        }
    })
}
