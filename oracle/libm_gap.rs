// The largest gap between the port's functions (port_math.rs) and the system's libm, for each function.
//   rustc -O oracle/libm_gap.rs -o target/libm_gap && target/libm_gap
// It fails where a gap is above 2^-44, or where one of the two is a NaN.
#[allow(dead_code)]
#[path = "port_math.rs"]
mod port;

use std::f64::consts::{FRAC_PI_4, LN_2};

const DRAWN: u64 = 1_000_000;
const SEED: u64 = 0x9e37_79b9_7f4a_7c15;

struct Gap {
    points: u64,
    equal: u64,
    gap: f64,
    at: String,
}

impl Gap {
    fn new() -> Gap {
        Gap {
            points: 0,
            equal: 0,
            gap: 0.0,
            at: String::new(),
        }
    }

    fn see(&mut self, ours: f64, theirs: f64, at: impl Fn() -> String) {
        self.points += 1;
        self.equal += (ours.to_bits() == theirs.to_bits()) as u64;
        let gap = if ours == theirs {
            0.0
        } else {
            (ours - theirs).abs()
        };
        if gap > self.gap || gap.is_nan() {
            self.gap = if gap.is_nan() { f64::INFINITY } else { gap };
            self.at = at();
        }
    }

    fn report(self) -> bool {
        println!(
            "  {} points, {:.1}% equal, largest gap {:.2e} = 2^{:.2} at {}",
            self.points,
            100.0 * self.equal as f64 / self.points as f64,
            self.gap,
            self.gap.log2(),
            self.at
        );
        self.gap <= 2f64.powi(-44)
    }
}

struct Draw(u64);

impl Draw {
    fn bits(&mut self) -> u64 {
        self.0 ^= self.0 << 13;
        self.0 ^= self.0 >> 7;
        self.0 ^= self.0 << 17;
        self.0
    }

    // from 0 to 1
    fn part(&mut self) -> f64 {
        (self.bits() >> 11) as f64 / 2f64.powi(53)
    }

    // any finite value: every exponent is as likely
    fn any(&mut self) -> f64 {
        loop {
            let x = f64::from_bits(self.bits());
            if x.is_finite() {
                return x;
            }
        }
    }

    // from 0 to end: every size down to 2^-1022 is as likely
    fn sized(&mut self, end: f64) -> f64 {
        end * self.part() * 2f64.powi(-((self.bits() % 1023) as i32))
    }

    // a distance from x, of either sign: every size down to 2^-53 of x is as likely
    fn away(&mut self, x: f64) -> f64 {
        x * (2.0 * self.part() - 1.0) * 2f64.powi(-((self.bits() % 54) as i32))
    }
}

// x and the floats next to it, some on each side
fn about(x: f64, take: &mut dyn FnMut(f64)) {
    take(x);
    take(-x);
    let (mut up, mut down) = (x, x);
    for _ in 0..200 {
        up = up.next_up();
        down = down.next_down();
        for y in [up, down, -up, -down] {
            take(y);
        }
    }
}

// Points of lo to hi: drawn evenly, by size and by their distance from given points, and the
// neighbours of those.
fn points(draw: &mut Draw, lo: f64, hi: f64, near: &[f64], see: &mut dyn FnMut(f64)) {
    let mut take = |x: f64| {
        if lo <= x && x <= hi {
            see(x)
        }
    };
    for _ in 0..DRAWN {
        take(lo + (hi - lo) * draw.part());
        let size = draw.sized(hi.max(-lo));
        take(size);
        take(-size);
        let x = near[draw.bits() as usize % near.len()];
        take(x + draw.away(x));
        take(-x + draw.away(x));
    }
    let ends = [0.0, lo, hi, f64::MIN_POSITIVE, f64::from_bits(1)];
    for &x in near.iter().chain(&ends) {
        about(x, &mut take);
    }
}

type Function = fn(f64) -> f64;

fn one(name: &str, lo: f64, hi: f64, near: &[f64], ours: Function, theirs: Function) -> bool {
    println!("{name}, {lo} to {hi}:");
    let mut gap = Gap::new();
    points(&mut Draw(SEED), lo, hi, near, &mut |x| {
        gap.see(ours(x), theirs(x), || format!("{x:?}"))
    });
    gap.report()
}

fn atan2() -> bool {
    println!("atan2, finite pairs:");
    let mut gap = Gap::new();
    let mut draw = Draw(SEED);
    let mut see =
        |y: f64, x: f64| gap.see(port::atan2(y, x), y.atan2(x), || format!("({y:?}, {x:?})"));
    for _ in 0..DRAWN {
        see(2.0 * draw.part() - 1.0, 2.0 * draw.part() - 1.0);
        // tiny and huge
        see(draw.any(), draw.any());
        // of like size, at any size
        let y = draw.any();
        let x = y * (0.5 + draw.part());
        if x.is_finite() {
            see(y, x);
            see(y, -x);
        }
    }
    let ends = [
        0.0,
        f64::from_bits(1),
        f64::MIN_POSITIVE,
        1e-300,
        1e-16,
        0.5,
        1.0,
        1e16,
        1e300,
        f64::MAX,
    ];
    for y in ends {
        for x in ends {
            for (y, x) in [(y, x), (-y, x), (y, -x), (-y, -x)] {
                see(y, x);
            }
        }
    }
    for x in [1e-308, 1.0, 3.0, 1e300] {
        about(x, &mut |y| {
            see(y, x);
            see(y, -x);
        });
    }
    gap.report()
}

fn main() {
    let quarters: Vec<f64> = (0..=326)
        .map(|k| k as f64 * FRAC_PI_4)
        .chain([0.785])
        .collect();
    let logs: Vec<f64> = (0..=2148)
        .map(|k| k as f64 * 0.5 * LN_2)
        .chain([708.0, 1.0])
        .collect();
    let halves = [0.5, 0.25, 0.75, 1.0];
    let well = [
        one("sin", -256.0, 256.0, &quarters, port::sin, f64::sin),
        one("cos", -256.0, 256.0, &quarters, port::cos, f64::cos),
        one("tan", 0.0, 0.75, &[0.5, 0.25], port::tan_f64, f64::tan),
        one("exp", -10000.0, 0.0, &logs, port::exp, f64::exp),
        one("exp", -745.0, 0.0, &logs, port::exp, f64::exp),
        one("asin", -1.0, 1.0, &halves, port::asin, f64::asin),
        one("acos", -1.0, 1.0, &halves, port::acos, f64::acos),
        atan2(),
    ];
    std::process::exit(!well.iter().all(|w| *w) as i32);
}
