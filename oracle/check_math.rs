//! check_math: the values that document 01 states for the functions of numbers, the fixed
//! NaN outside each domain, that the reduction of an angle is exact where it must be, and how far the
//! functions are from the machine's own.

mod port_math;
#[allow(dead_code)]
mod random;

use port_math::{acos, asin, atan2, cos, exp, fabs, quarter_turns, sin, sqrt, tan_f64};
use port_math::{P1, P2, SIN_COS_LIMIT};
use random::Random;
use std::f64::consts::PI;
use std::process::exit;

const NAN: u64 = 0x7ff8000000000000;
/// Document 01: run within 2^-44 of libm.
const CLOSE: f64 = 1.0 / (1u64 << 44) as f64;
const ARGUMENTS: u64 = 2_000_000;

fn main() {
    let exact = check_exact();
    let nan = check_outside();
    let reduction = check_reduction();
    let close = check_close();
    exit(i32::from(!(exact && nan && reduction && close)));
}

fn check_exact() -> bool {
    let values = [
        ("sin 0", sin(0.0), 0.0),
        ("sin PI/2", sin(PI / 2.0), 1.0),
        ("cos 0", cos(0.0), 1.0),
        ("cos PI", cos(PI), -1.0),
        ("tan 0", tan_f64(0.0), 0.0),
        ("exp 0", exp(0.0), 1.0),
        ("exp -10000", exp(-10000.0), 0.0),
        ("asin 1", asin(1.0), PI / 2.0),
        ("asin -1", asin(-1.0), -PI / 2.0),
        ("acos 1", acos(1.0), 0.0),
        ("acos -1", acos(-1.0), PI),
        ("atan2 0 -1", atan2(0.0, -1.0), PI),
        ("atan2 -0 -1", atan2(-0.0, -1.0), -PI),
        ("atan2 0 1", atan2(0.0, 1.0), 0.0),
        ("sqrt 2.25", sqrt(2.25), 1.5),
        ("sqrt -0", sqrt(-0.0), -0.0),
        ("sqrt 0", sqrt(0.0), 0.0),
        ("sqrt infinity", sqrt(f64::INFINITY), f64::INFINITY),
        ("fabs -0", fabs(-0.0), 0.0),
    ];
    let wrong = values.iter().filter(|v| v.1.to_bits() != v.2.to_bits());
    for (name, found, wanted) in wrong.clone() {
        println!("{name} gives {found:?}, not {wanted:?}");
    }
    println!(
        "{} exact values, {} wrong",
        values.len(),
        wrong.clone().count()
    );
    wrong.count() == 0
}

fn check_outside() -> bool {
    let infinity = f64::INFINITY;
    let outside = [
        sqrt(-f64::from_bits(1)),
        sqrt(-infinity),
        sqrt(f64::NAN),
        sin(SIN_COS_LIMIT.next_up()),
        sin(-SIN_COS_LIMIT.next_up()),
        sin(infinity),
        sin(-f64::NAN),
        cos(SIN_COS_LIMIT.next_up()),
        cos(-SIN_COS_LIMIT.next_up()),
        cos(-infinity),
        cos(f64::NAN),
        tan_f64(-f64::from_bits(1)),
        tan_f64(0.75f64.next_up()),
        tan_f64(f64::NAN),
        exp(f64::from_bits(1)),
        exp(-10000.0f64.next_up()),
        exp(f64::NAN),
        asin(1.0f64.next_up()),
        asin(-1.0f64.next_up()),
        asin(f64::NAN),
        acos(1.0f64.next_up()),
        acos(-1.0f64.next_up()),
        acos(f64::NAN),
        atan2(infinity, 1.0),
        atan2(1.0, -infinity),
        atan2(f64::NAN, 0.0),
        atan2(0.0, -f64::NAN),
    ];
    let wrong = outside.iter().filter(|value| value.to_bits() != NAN);
    println!(
        "{} arguments outside, {} without the fixed NaN",
        outside.len(),
        wrong.clone().count()
    );
    wrong.count() == 0
}

/// k * P1 and k * P2 for every k that an angle of the domain can have, and x - k * P1.
fn check_reduction() -> bool {
    let most = quarter_turns(SIN_COS_LIMIT) as u64;
    let rounds = |k: f64, part: f64| k.mul_add(part, -(k * part)) != 0.0;
    let products = (0..=most).filter(|k| rounds(*k as f64, P1) || rounds(*k as f64, P2));
    let mut random = Random::seeded(3);
    let differences = (0..ARGUMENTS).filter(|i| {
        let multiple = (i % (2 * most + 1)) as f64 * (PI / 4.0);
        let angle = match random.below(4) {
            0 => multiple.next_up(),
            1 => multiple.next_down(),
            2 => multiple + random.between(-0.4, 0.4),
            _ => random.between(0.0, SIN_COS_LIMIT),
        };
        let turns = quarter_turns(angle);
        turns.fract() != 0.0 || rest(angle, turns * P1) != 0.0
    });
    let (products, differences) = (products.count(), differences.count());
    println!("k up to {most}: {products} rounded products; {differences} rounded differences over {ARGUMENTS} arguments");
    products + differences == 0
}

/// What rounding takes from a - b.
fn rest(a: f64, b: f64) -> f64 {
    let difference = a - b;
    let back = difference - a;
    (a - (difference - back)) - (b + back)
}

fn check_close() -> bool {
    let one = |low, high, port: fn(f64) -> f64, own: fn(f64) -> f64| {
        let mut random = Random::seeded(1);
        let gap = |value: f64| (port(value) - own(value)).abs();
        (0..ARGUMENTS).fold(0.0, |most: f64, _| most.max(gap(random.between(low, high))))
    };
    let gaps = [
        ("sqrt", one(0.0, 4.0, sqrt, f64::sqrt)),
        ("sin", one(-SIN_COS_LIMIT, SIN_COS_LIMIT, sin, f64::sin)),
        ("cos", one(-SIN_COS_LIMIT, SIN_COS_LIMIT, cos, f64::cos)),
        ("tan", one(0.0, 0.75, tan_f64, f64::tan)),
        ("exp", one(-20.0, 0.0, exp, f64::exp)),
        ("exp", one(-10000.0, 0.0, exp, f64::exp)),
        ("asin", one(-1.0, 1.0, asin, f64::asin)),
        ("acos", one(-1.0, 1.0, acos, f64::acos)),
        ("atan2", pairs()),
    ];
    for (name, gap) in gaps {
        println!("{name}: at most {gap:e} from libm over {ARGUMENTS} arguments");
    }
    gaps.iter().all(|(_, gap)| *gap <= CLOSE)
}

fn pairs() -> f64 {
    let mut random = Random::seeded(2);
    let mut most = 0.0f64;
    for _ in 0..ARGUMENTS {
        let (y, x) = (random.between(-1.0, 1.0), random.between(-1.0, 1.0));
        most = most.max((atan2(y, x) - y.atan2(x)).abs());
    }
    most
}
