//! Arguments for the functions of numbers.

use crate::random::Random;
use crate::values;

const PI: f64 = 3.141592653589793;
const LN_2: f64 = 0.6931471805599453;

/// A function line with its arguments.
pub fn line(random: &mut Random) -> String {
    let word = random.pick(&["sqrt", "sin", "cos", "tan", "exp", "asin", "acos", "atan2"]);
    let arguments = match word {
        "sqrt" => vec![for_sqrt(random)],
        "sin" | "cos" => vec![for_sin_cos(random)],
        "tan" => vec![within(0.0, 0.75, random)],
        "exp" => vec![for_exp(random)],
        "asin" | "acos" => vec![within(-1.0, 1.0, random)],
        _ => pair(random).to_vec(),
    };
    format!("{word}{}", values::words(&arguments))
}

/// In the domain, at its edges, just outside, or anything.
fn within(low: f64, high: f64, random: &mut Random) -> f64 {
    let size = high.max(-low);
    match random.below(10) {
        0 => near(random.pick(&[low, high, 0.5, -0.5, 0.0]), random),
        1 => values::odd(random),
        2 => f64::from_bits(random.bits()),
        3 => near(power_of_two(random), random),
        4 => {
            let value = random.log_between(1e-300, size);
            random.signed(value)
        }
        5 => random.pick(&[low, high]) * (1.0 - random.log_between(1e-17, 1e-2)),
        _ => random.between(low, high),
    }
}

fn for_sin_cos(random: &mut Random) -> f64 {
    let eighth = (random.below(670) as f64 - 335.0) * (PI / 4.0);
    match random.below(4) {
        0 => near(eighth, random),
        1 => near(random.pick(&[0.785, -0.785, PI / 2.0, PI]), random),
        _ => within(-256.0, 256.0, random),
    }
}

/// An angle from 128 to 256, of either sign: anywhere, a multiple of PI/4 or one of its neighbours, or
/// at some distance from one.
pub fn far_angle(random: &mut Random) -> f64 {
    let multiple = (163 + random.below(163)) as f64 * (PI / 4.0);
    let angle = match random.below(16) {
        0 => f64::from_bits(multiple.to_bits() + random.below(401) - 200),
        1 => {
            let distance = random.log_between(1e-14, 0.4);
            multiple + random.signed(distance)
        }
        2 => near(random.pick(&[128.0, 256.0]), random),
        _ => random.between(128.0, 256.0),
    };
    random.signed(angle.clamp(128.0, 256.0))
}

fn for_exp(random: &mut Random) -> f64 {
    match random.below(5) {
        0 => near(-(random.below(2100) as f64) * (LN_2 / 2.0), random),
        1 => near(random.pick(&[-708.0, -745.0, -10000.0]), random),
        2 => random.between(-800.0, 0.0),
        3 => random.between(-2.0, 0.0),
        _ => within(-10000.0, 0.0, random),
    }
}

fn for_sqrt(random: &mut Random) -> f64 {
    let root = f64::from_bits(random.bits() >> 2);
    match random.below(6) {
        0 => near(root * root, random),
        1 => near(
            (random.below(1 << 27) as f64) * (random.below(1 << 27) as f64),
            random,
        ),
        2 => midway(random),
        3 => f64::from_bits(random.below(1 << 52)),
        4 => f64::from_bits(random.bits() >> 1),
        _ => within(0.0, 4.0, random),
    }
}

/// A number whose root lies close to the middle of two neighbours.
fn midway(random: &mut Random) -> f64 {
    let root = 1.0 + random.unit();
    let half_step = root * (root.next_up() - root);
    near(root * root + half_step, random)
}

fn pair(random: &mut Random) -> [f64; 2] {
    let y = f64::from_bits(random.bits());
    let x = f64::from_bits(random.bits());
    match random.below(8) {
        0 => [y, x],
        1 => [values::odd(random), values::odd(random)],
        2 => [values::odd(random), random.between(-1.0, 1.0)],
        3 => [random.between(-1.0, 1.0), values::odd(random)],
        4 => {
            let y = random.between(-1.0, 1.0);
            let x = near(random.signed(y), random);
            [y, x]
        }
        5 => {
            let size = power_of_two(random);
            [
                random.between(-1.0, 1.0) * size,
                random.between(-1.0, 1.0) * size,
            ]
        }
        6 => [values::tiny(random), values::tiny(random)],
        _ => [random.between(-1.0, 1.0), random.between(-1.0, 1.0)],
    }
}

fn power_of_two(random: &mut Random) -> f64 {
    let value = f64::from_bits(random.below(0x7ff) << 52);
    random.signed(value)
}

/// The number, or one of its nearest neighbours.
fn near(value: f64, random: &mut Random) -> f64 {
    match random.below(6) {
        0 => value,
        1 => value.next_up(),
        2 => value.next_down(),
        3 => value.next_up().next_up(),
        4 => value.next_down().next_down(),
        _ => value * (1.0 + 1e-12 * random.between(-1.0, 1.0)),
    }
}
