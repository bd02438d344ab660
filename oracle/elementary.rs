// Writes what the program `elementary` should write, from the recipes in Rust (port_math.rs). Its
// floats are those of crates/elementary/src/main.rt.
//   rustc -O oracle/elementary.rs -o target/elementary_oracle && target/elementary_oracle > crates/elementary/stdout
#[allow(dead_code)]
#[path = "port_math.rs"]
mod port;

fn put(x: f64) {
    // The test for a NaN is on the bits: rustc may pass on another NaN's bits past `is_nan`.
    let bits = std::hint::black_box(x.to_bits());
    let nan = bits & 0x7fff_ffff_ffff_ffff > 0x7ff0_0000_0000_0000;
    println!("{:016x}", if nan { 0x7ff8_0000_0000_0000 } else { bits });
}

fn put_at(x: f64) {
    for f in [
        port::sin,
        port::cos,
        port::tan_f64,
        port::exp,
        port::asin,
        port::acos,
    ] {
        put(f(x));
    }
}

fn put_both(n: u64) {
    put_at(f64::from_bits(n));
    put_at(-f64::from_bits(n));
}

fn put_about(n: u64) {
    put_both(n.wrapping_sub(1));
    put_both(n);
    put_both(n.wrapping_add(1));
}

fn put_points(y: f64) {
    for x in [0.0, 1.0, 5e-324, f64::MAX, f64::INFINITY, f64::NAN] {
        put(port::atan2(y, x));
        put(port::atan2(y, -x));
        put(port::atan2(-y, x));
        put(port::atan2(-y, -x));
    }
}

fn part(s: u64) -> f64 {
    f64::from_bits((s >> 12) | 0x3ff0_0000_0000_0000) - 1.0
}

fn even(s: u64, t: u64) {
    let (u, v) = (part(s), part(t));
    put(port::sin(512.0 * u - 256.0));
    put(port::cos(512.0 * u - 256.0));
    put(port::sin(8.0 * v - 4.0));
    put(port::cos(8.0 * v - 4.0));
    put(port::tan_f64(0.75 * u));
    put(port::exp(-710.0 * u));
    put(port::exp(-v));
    put(port::asin(2.0 * u - 1.0));
    put(port::acos(2.0 * u - 1.0));
    put(port::atan2(2.0 * u - 1.0, 2.0 * v - 1.0));
}

fn sized(s: u64, t: u64) {
    put_at(f64::from_bits(s >> 2));
    put(port::exp(-f64::from_bits(s >> 2)));
    put(port::atan2(f64::from_bits(s), f64::from_bits(t)));
    put(port::atan2(
        f64::from_bits(s),
        f64::from_bits(s ^ (t >> 12)),
    ));
}

fn next(s: u64) -> u64 {
    let a = s ^ (s << 13);
    let b = a ^ (a >> 7);
    b ^ (b << 17)
}

fn main() {
    for n in [
        0x0000_0000_0000_0000,
        0x0010_0000_0000_0000,
        0x3fe0_0000_0000_0000,
        0x3fe8_0000_0000_0000,
        0x3fe9_1eb8_51eb_851f,
        0x3fe9_21fb_5444_2d18,
        0x3ff0_0000_0000_0000,
        0x3ff9_21fb_5444_2d18,
        0x4002_d97c_7f33_21d2,
        0x4009_21fb_5444_2d18,
        0x4060_0000_0000_0000,
        0x4065_d218_013e_214b,
        0x406f_cf02_16a6_4912,
        0x406f_e824_11fa_8d3f,
        0x4070_0000_0000_0000,
        0x4086_2000_0000_0000,
        0x40c3_8800_0000_0000,
        0x7fef_ffff_ffff_ffff,
        0x7ff0_0000_0000_0000,
    ] {
        put_about(n);
    }
    for y in [0.0, 1.0, 5e-324, f64::MAX, f64::INFINITY] {
        put_points(y);
    }
    let mut s = 0x9e37_79b9_7f4a_7c15;
    for _ in 0..900 {
        let t = next(s);
        s = next(t);
        even(t, s);
        sized(t, s);
    }
}
