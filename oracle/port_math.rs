//! The port's functions of numbers, with the names of the source's `math` module.
//!
//! Every `+ - * /` is one binary64 operation rounded to nearest, ties to even, never fused.
//! `-v` flips the sign bit. Outside its domain each function gives `NAN`.
//! `sqrt` is Rust's own: IEEE 754 requires it to give the binary64 value nearest the true root.

const NAN: f64 = f64::from_bits(0x7ff8000000000000);

/// Sine and cosine serve arguments from `-SIN_COS_LIMIT` to `SIN_COS_LIMIT`.
pub const SIN_COS_LIMIT: f64 = 256.0;
/// Up to here no reduction is needed; the bits are the same with it.
const NO_REDUCTION: f64 = 0.785;
const TAN_LIMIT: f64 = 0.75;
const EXP_LOWEST: f64 = -10000.0;
/// Below this the exponential is 0.
const EXP_FLUSH: f64 = -708.0;

const MAGIC: f64 = 6755399441055744.0; // 0x4338000000000000, 1.5 * 2^52
const TWO_OVER_PI: f64 = 0.6366197723675814; // 0x3fe45f306dc9c883
pub const P1: f64 = 1.5707963267948912; // 0x3ff921fb54442d00, pi/2, first 45 bits
pub const P2: f64 = 5.390302858158031e-15; // 0x3cf8469898cc5100, pi/2, next 45 bits
const P3: f64 = 8.843720566135701e-29; // 0x3a1c06e0e6894812, pi/2, rest
const PI: f64 = 3.141592653589793; // 0x400921fb54442d18
const PI_LO: f64 = 1.2246467991473532e-16; // 0x3ca1a62633145c07, pi - PI
const PIO2: f64 = 1.5707963267948966; // 0x3ff921fb54442d18, PI/2
const PIO2_LO: f64 = 6.123233995736766e-17; // 0x3c91a62633145c07, pi/2 - PIO2

const S0: f64 = 0.1666666666666663; // 0x3fc5555555555548
const S1: f64 = -0.00833333333332184; // 0xbf8111111110f730
const S2: f64 = 0.00019841269829358438; // 0x3f2a01a019be91f6
const S3: f64 = -2.7557313538457614e-06; // 0xbec71de3555280f3
const S4: f64 = 2.5050734377788088e-08; // 0x3e5ae5e4b8096236
const S5: f64 = -1.5895432532843642e-10; // 0xbde5d8b547d7c54d

const C0: f64 = 0.041666666666666595; // 0x3fa555555555554b
const C1: f64 = -0.0013888888888873338; // 0xbf56c16c16c15013
const C2: f64 = 2.4801587288997465e-05; // 0x3efa01a019c8ed02
const C3: f64 = -2.755731421528791e-07; // 0xbe927e4f7f140892
const C4: f64 = 2.0875705112608293e-09; // 0x3e21ee9db8da1a61
const C5: f64 = -1.135873261096118e-11; // 0xbda8fa65e2f3c353

const EXP_MAGIC: f64 = 6755399441056767.0; // 0x43380000000003ff, 1.5 * 2^52 + 1023
const LOG2E: f64 = 1.4426950408889634; // 0x3ff71547652b82fe
const L1: f64 = 0.6931471805598903; // 0x3fe62e42fefa3800, ln 2, first 42 bits
const L2: f64 = 5.497923018708371e-14; // 0x3d2ef35793c76730, ln 2, rest
const E0: f64 = 0.5; // 0x3fe0000000000000
const E1: f64 = 0.16666666666666463; // 0x3fc555555555550c
const E2: f64 = 0.041666666666607496; // 0x3fa5555555553406
const E3: f64 = 0.008333333333486848; // 0x3f81111111126ac0
const E4: f64 = 0.001388888892550491; // 0x3f56c16c17c315a6
const E5: f64 = 0.00019841269485163833; // 0x3f2a01a0122ced42
const E6: f64 = 2.480151017526088e-05; // 0x3efa019acd2f87cc
const E7: f64 = 2.75576303227673e-06; // 0x3ec71df4bfaa4351
const E8: f64 = 2.762463362342066e-07; // 0x3e9289e03c3b514f
const E9: f64 = 2.498016417073605e-08; // 0x3e5ad27ec8343448

const A0: f64 = 0.16666666666665408; // 0x3fc5555555555390
const A1: f64 = 0.07500000000337143; // 0x3fb333333336e82c
const A2: f64 = 0.04464285682823248; // 0x3fa6db6db4278fc6
const A3: f64 = 0.030381959140456976; // 0x3f9f1c72c39630eb
const A4: f64 = 0.022371757976487848; // 0x3f96e89f4373c166
const A5: f64 = 0.01735970575444213; // 0x3f91c6be21ef1dc2
const A6: f64 = 0.01388522671368204; // 0x3f8c6fdb950ffea5
const A7: f64 = 0.012169263307403994; // 0x3f88ec32df5fab0a
const A8: f64 = 0.006527773191929234; // 0x3f7abcddc6002b9d
const A9: f64 = 0.01952876827190372; // 0x3f93ff59743c6797
const A10: f64 = -0.0162249749206657; // 0xbf909d47a2a6956c
const A11: f64 = 0.031912724911284364; // 0x3fa056dd5ba3f2ad

const T0: f64 = -0.3333333333333307; // 0xbfd5555555555526
const T1: f64 = 0.19999999999951748; // 0x3fc99999999955b1
const T2: f64 = -0.14285714282587975; // 0xbfc249249237f4ae
const T3: f64 = 0.11111111007338541; // 0x3fbc71c717fcc94b
const T4: f64 = -0.09090907007737466; // 0xbfb745d11ae4606d
const T5: f64 = 0.07692279888208729; // 0x3fb3b1366983edff
const T6: f64 = -0.06666404417716022; // 0xbfb110e5118f5c51
const T7: f64 = 0.05880529776014685; // 0x3fae1bba5d6c390d
const T8: f64 = -0.05253526647654008; // 0xbfaae5e706ce8874
const T9: f64 = 0.047223479504406515; // 0x3fa82dad082645ee
const T10: f64 = -0.04219242629361091; // 0xbfa59a3ee623d067
const T11: f64 = 0.03664314358570091; // 0x3fa2c2e3dea57cc6
const T12: f64 = -0.029905726114505093; // 0xbf9e9f9b4e7fee50
const T13: f64 = 0.021987056854413524; // 0x3f9683c6687fffaa
const T14: f64 = -0.013902561604954674; // 0xbf8c78f23b64289e
const T15: f64 = 0.0071978748094649455; // 0x3f7d7b84ce8485cf
const T16: f64 = -0.0028856039671883273; // 0xbf67a38cd562905a
const T17: f64 = 0.0008315575198515723; // 0x3f4b3f9c2d1ee566
const T18: f64 = -0.0001522106732397829; // 0xbf23f357ba328ff4
const T19: f64 = 1.3229952258016625e-05; // 0x3eebbec6caf6aa8f

/// The result lies in `low..=high` whatever `value` is; NaN gives `high`.
fn clamp(value: f64, low: f64, high: f64) -> f64 {
    if value <= high {
        if value >= low {
            value
        } else {
            low
        }
    } else {
        high
    }
}

fn negative_sign(value: f64) -> bool {
    value.to_bits() >= 1 << 63
}

/// sin(r - d), |r| <= 0.7855
fn sin_kernel(r: f64, d: f64) -> f64 {
    let z = r * r;
    let w = z * z;
    let a = S0 + z * S1;
    let b = S2 + z * S3;
    let c = S4 + z * S5;
    let p = a + w * (b + w * c);
    r - (d + (r * z) * p)
}

/// cos(r - d), |r| <= 0.7855
fn cos_kernel(r: f64, d: f64) -> f64 {
    let z = r * r;
    let w = z * z;
    let a = C0 + z * C1;
    let b = C2 + z * C3;
    let c = C4 + z * C5;
    let p = a + w * (b + w * c);
    1.0 - (0.5 * z - (w * p + r * d))
}

/// The whole number nearest to x * 2/pi.
pub fn quarter_turns(x: f64) -> f64 {
    (x * TWO_OVER_PI + MAGIC) - MAGIC
}

/// (m, r, d) with x = k*pi/2 + (r - d) and m = k mod 4, one of -2, -1, 0, 1, 2
fn reduce(x: f64) -> (f64, f64, f64) {
    let k = quarter_turns(x);
    let a = x - k * P1;
    let b = k * P2;
    let r = a - b;
    let d = k * P3 + (b - (a - r));
    let m = k - 4.0 * ((k * 0.25 + MAGIC) - MAGIC);
    (m, r, d)
}

/// z*P(z) with asin(s) = s + s*z*P(z), z = s*s, 0 <= z <= 0.25
fn asin_kernel(z: f64) -> f64 {
    let w = z * z;
    let u = w * w;
    let p0 = (A0 + z * A1) + w * (A2 + z * A3);
    let p1 = (A4 + z * A5) + w * (A6 + z * A7);
    let p2 = (A8 + z * A9) + w * (A10 + z * A11);
    z * (p0 + u * (p1 + u * p2))
}

/// P(z) with atan(t) = t + t*z*P(z), z = t*t, |t| <= 1
fn atan_kernel(z: f64) -> f64 {
    let w = z * z;
    let u = w * w;
    let q = u * u;
    let p0 = (T0 + z * T1) + w * (T2 + z * T3);
    let p1 = (T4 + z * T5) + w * (T6 + z * T7);
    let p2 = (T8 + z * T9) + w * (T10 + z * T11);
    let p3 = (T12 + z * T13) + w * (T14 + z * T15);
    let p4 = (T16 + z * T17) + w * (T18 + z * T19);
    (p0 + u * p1) + q * ((p2 + u * p3) + q * p4)
}

pub fn sqrt(value: f64) -> f64 {
    if value < 0.0 || value.is_nan() {
        return NAN;
    }
    value.sqrt()
}

pub fn fabs(value: f64) -> f64 {
    value.abs()
}

pub fn exp(value: f64) -> f64 {
    if value >= EXP_FLUSH && value <= 0.0 {
        let t = value * LOG2E + EXP_MAGIC;
        let k = t - EXP_MAGIC;
        let r = (value - k * L1) - k * L2;
        let z = r * r;
        let w = z * z;
        let a = (E0 + r * E1) + z * (E2 + r * E3);
        let b = (E4 + r * E5) + z * (E6 + r * E7);
        let c = E8 + r * E9;
        let q = a + w * (b + w * c);
        let e = 1.0 + (r + z * q);
        // 2^k: the low 11 bits of t are k + 1023
        let s = f64::from_bits((t.to_bits() & 0x7ff) << 52);
        return clamp(e * s, 0.0, 1.0);
    }
    if value >= EXP_LOWEST && value < EXP_FLUSH {
        return 0.0;
    }
    NAN
}

pub fn sin(value: f64) -> f64 {
    if value >= -NO_REDUCTION && value <= NO_REDUCTION {
        return clamp(sin_kernel(value, 0.0), -1.0, 1.0);
    }
    if !(value >= -SIN_COS_LIMIT && value <= SIN_COS_LIMIT) {
        return NAN;
    }
    let (m, r, d) = reduce(value);
    let v = if m == 0.0 {
        sin_kernel(r, d)
    } else if m == 1.0 {
        cos_kernel(r, d)
    } else if m == -1.0 {
        -cos_kernel(r, d)
    } else {
        -sin_kernel(r, d)
    };
    clamp(v, -1.0, 1.0)
}

pub fn cos(value: f64) -> f64 {
    if value >= -NO_REDUCTION && value <= NO_REDUCTION {
        return clamp(cos_kernel(value, 0.0), -1.0, 1.0);
    }
    if !(value >= -SIN_COS_LIMIT && value <= SIN_COS_LIMIT) {
        return NAN;
    }
    let (m, r, d) = reduce(value);
    let v = if m == 0.0 {
        cos_kernel(r, d)
    } else if m == 1.0 {
        -sin_kernel(r, d)
    } else if m == -1.0 {
        sin_kernel(r, d)
    } else {
        -cos_kernel(r, d)
    };
    clamp(v, -1.0, 1.0)
}

pub fn tan_f64(value: f64) -> f64 {
    if !(value >= 0.0 && value <= TAN_LIMIT) {
        return NAN;
    }
    clamp(sin_kernel(value, 0.0) / cos_kernel(value, 0.0), 0.0, 1.0)
}

pub fn asin(value: f64) -> f64 {
    if !(value >= -1.0 && value <= 1.0) {
        return NAN;
    }
    let a = if value < 0.0 { -value } else { value };
    if a <= 0.5 {
        return clamp(value + value * asin_kernel(value * value), -PIO2, PIO2);
    }
    let z = 0.5 * (1.0 - a);
    let s = sqrt(z);
    let g = s + s;
    let v = clamp((PIO2 - g) + (PIO2_LO - g * asin_kernel(z)), -PIO2, PIO2);
    if value < 0.0 {
        -v
    } else {
        v
    }
}

pub fn acos(value: f64) -> f64 {
    if !(value >= -1.0 && value <= 1.0) {
        return NAN;
    }
    let a = if value < 0.0 { -value } else { value };
    if a <= 0.5 {
        let v = PIO2 - (value + (value * asin_kernel(value * value) - PIO2_LO));
        return clamp(v, 0.0, PI);
    }
    let z = 0.5 * (1.0 - a);
    let s = sqrt(z);
    let g = s + s;
    let q = g * asin_kernel(z);
    let v = if value < 0.0 {
        PI - (g + (q - PI_LO))
    } else {
        g + q
    };
    clamp(v, 0.0, PI)
}

/// The angle of the point with height `value` and width `other`.
pub fn atan2(value: f64, other: f64) -> f64 {
    let (y, x) = (value, other);
    let ay = if y < 0.0 { -y } else { y };
    let ax = if x < 0.0 { -x } else { x };
    if !(ay <= f64::MAX && ax <= f64::MAX) {
        return NAN;
    }
    let (n, d, hi, lo) = if ay > ax {
        (-x, ay, PIO2, PIO2_LO)
    } else if !negative_sign(x) {
        (ay, x, 0.0, 0.0)
    } else {
        (ay, x, PI, PI_LO)
    };
    let t = if d == 0.0 { 0.0 } else { n / d };
    let z = t * t;
    let v = clamp(hi + (t + ((t * z) * atan_kernel(z) + lo)), 0.0, PI);
    if negative_sign(y) {
        -v
    } else {
        v
    }
}
