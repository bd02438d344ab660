//! Plays calls for a clock outside, as crates/times does, on the source alone. The source gives no
//! answers, so every call counts as answered 0.

use std::hint::black_box;
use std::io;
use vqf::VQF;

fn main() {
    for line in io::stdin().lines() {
        let line = line.unwrap();
        let (name, count) = line.split_once(' ').unwrap();
        let count = count.parse().unwrap();
        match name {
            "gyr" => play_gyr(count),
            "acc" => play_acc(count),
            "mag" => play_mag(count),
            _ => panic!("no call is called {name}"),
        }
    }
}

/// The source's own settings are the house's.
fn fresh() -> VQF {
    VQF::new(0.01, None, None, None)
}

fn next(x: f64) -> f64 {
    let y = x + 0.01;
    if y > 1.0 {
        y - 2.0
    } else {
        y
    }
}

fn play_gyr(count: u64) {
    let mut filter = fresh();
    let mut x = 0.0;
    for _ in 0..count {
        filter.update_gyr(black_box([x, 0.1, -0.2]));
        x = next(x);
    }
    let q = filter.state().gyr_quat;
    put(count, &[q.0, q.1, q.2, q.3]);
}

fn play_acc(count: u64) {
    let mut filter = fresh();
    let mut x = 0.0;
    for _ in 0..count {
        filter.update_acc(black_box([x, 0.5, 9.81]));
        x = next(x);
    }
    let q = filter.state().acc_quat;
    let bias = filter.state().bias;
    put(count, &[q.0, q.1, q.2, q.3, bias[0], bias[1], bias[2]]);
}

fn play_mag(count: u64) {
    let mut filter = fresh();
    let mut x = 0.0;
    for _ in 0..count {
        filter.update_mag(black_box([x, 20.0, -40.0]));
        x = next(x);
    }
    let [norm, dip] = filter.state().mag_norm_dip;
    put(count, &[filter.state().delta, norm, dip]);
}

fn put(count: u64, values: &[f64]) {
    println!("{count}");
    for value in values {
        println!("{:016x}", value.to_bits());
    }
}
