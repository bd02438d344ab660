// Writes what the program `roots` should write, from Rust's own square root, which is the
// processor's instruction. Its floats are those of crates/roots/src/main.rt.
//   rustc -O oracle/roots.rs -o target/roots_oracle && target/roots_oracle > crates/roots/stdout
// An argument is how many times it draws in place of 1000. The error stream gets a table: of each
// kind how many numbers were guessed by floats, where the guess is next to the root, where it is
// farther, where the test of whole numbers leaves it open, and how many of the roots lie within 2^-8
// of a step from a middle. Below it are how many steps near_root took at the most, and the power of
// two of a step at or below the least distance from a middle.
use std::io::Write;

/// The guesses and the test, as in crates/numbers/src/roots.rt.
mod port {
    pub fn by_floats(x: f64, bits: u64, unit: u64) -> f64 {
        let y = f64::from_bits(0x5fe4_0000_0000_0000 - (bits >> 1));
        let xy = x * y;
        let u = xy * y;
        let l = 1.3965706 - 0.694117 * u;
        let v = 0.667046 - u;
        let k = v * v + 1.3112952;
        let s = (xy * l) * k;
        let b = ((0.5 * y) * l) * k;
        let step = f64::from_bits(unit + 0x01b8_0000_0000_0000);
        let h = (s + step) - step;
        let d = x - h * h;
        h + d * (1.75 * b - (b * b) * (h + 0.5 * s))
    }

    pub fn guess(c: u64) -> u64 {
        let long = c >> 53;
        let bits = (c >> long) + ((long + 1022) << 52);
        let s = by_floats(f64::from_bits(bits), bits, 0x3ff0_0000_0000_0000);
        s.to_bits() - 0x3fe0_0000_0000_0000
    }

    pub fn is_closest(q: u64, c: u64) -> bool {
        let (a, b) = (q >> 26, q & 0x3ff_ffff);
        let d = c.wrapping_sub(a * a);
        let t = 2 * a * b + ((b * b) >> 26);
        d < 0x2000_0000 && (d << 26) <= t + a && t < (d << 26) + a
    }
}

const KINDS: [&str; 7] = [
    "powers of two",
    "any bits",
    "next to a power of two",
    "squares",
    "middles squared",
    "hard",
    "near 1",
];

struct Roots<W: Write> {
    out: W,
    kind: usize,
    counted: [[u64; 5]; KINDS.len()],
    farthest: u64,
    least: i32,
}

impl<W: Write> Roots<W> {
    fn put(&mut self, x: u64) {
        // The test for a NaN is on the bits: rustc may pass on another NaN's bits past `is_nan`.
        let bits = std::hint::black_box(f64::from_bits(x).sqrt().to_bits());
        let nan = bits & 0x7fff_ffff_ffff_ffff > 0x7ff0_0000_0000_0000;
        let root = if nan { 0x7ff8_0000_0000_0000 } else { bits };
        writeln!(self.out, "{root:016x}").unwrap();
        let beside = (0x3fef_ffff_f800_0000..0x3ff0_0000_0800_0000).contains(&x);
        if (1..0x7ff0_0000_0000_0000).contains(&x) && !beside {
            self.count(x, root);
        }
    }

    fn count(&mut self, x: u64, root: u64) {
        let (mut m, mut e) = match x >> 52 {
            0 => (x, 1074),
            field => (x & 0xf_ffff_ffff_ffff | 0x10_0000_0000_0000, field + 1073),
        };
        while m < 0x10_0000_0000_0000 {
            m *= 2;
            e -= 1;
        }
        let c = m << (e & 1);
        let low = ((e - 52) >> 1) << 52;
        self.farthest = self.farthest.max(port::guess(c).abs_diff(root - low));
        if x >> 52 > 0 {
            self.count_guess(x, root, c, low);
        }
    }

    fn count_guess(&mut self, x: u64, root: u64, c: u64, low: u64) {
        let guess = port::by_floats(f64::from_bits(x), x, low + 0x10_0000_0000_0000).to_bits();
        let q = guess.wrapping_sub(low);
        let open = q >= 0x20_0000_0000_0000 || !port::is_closest(q, c);
        assert!(open || guess == root, "{:016x}", x);
        let distance = from_middle(c, root - low);
        self.least = self.least.min(distance.log2().floor() as i32);
        let [guessed, next, farther, left, near] = &mut self.counted[self.kind];
        *guessed += 1;
        *next += (guess.abs_diff(root) == 1) as u64;
        *farther += (guess.abs_diff(root) > 1) as u64;
        *left += open as u64;
        *near += (distance <= 1.0 / 256.0) as u64;
    }

    fn put_about(&mut self, x: u64) {
        self.put(x.wrapping_sub(1));
        self.put(x);
        self.put(x.wrapping_add(1));
    }

    fn put_middle(&mut self, r: f64, step: f64) {
        self.put_about((r * r + r * step).to_bits());
    }

    fn put_hard(&mut self, t: u64) {
        let r = f64::from_bits(middle(t) | 0x3ff0_0000_0000_0000);
        self.put_middle(r, f64::EPSILON);
    }

    fn fixed(&mut self) {
        self.put_about(0);
        self.put_about(0x8000_0000_0000_0000);
        self.put(0xfff0_0000_0000_0000);
        for field in 1..2048u64 {
            self.put_about(field << 52);
        }
        for place in 0..52 {
            self.put_about(1u64 << place);
        }
    }

    fn drawn(&mut self, s: u64) {
        self.kind = 1;
        self.put(s);
        self.put(s >> 1);
        self.put(s >> 14);
        self.put((s >> 12) << 12);
        self.kind = 2;
        self.put_about((s >> 1) | 0x000f_ffff_ffff_fffe);
    }

    fn close(&mut self, s: u64, t: u64) {
        let r = (s >> 12) | (((t >> 54) + 512) << 52);
        let x = f64::from_bits(r);
        let short = f64::from_bits((r >> 27) << 27);
        self.kind = 3;
        self.put_about((x * x).to_bits());
        self.put_about((short * short).to_bits());
        self.kind = 4;
        self.put_middle(x, f64::from_bits((r >> 52) << 52) * f64::EPSILON);
        self.kind = 5;
        let off = (s >> ((t >> 59) + 20)) << 1;
        self.put_hard(off);
        self.put_hard(off.wrapping_neg());
        self.kind = 6;
        self.put((s >> 35) + 0x3fef_ffff_f000_0000);
    }
}

/// How far the root of c * 2^52 is from the nearest middle, where q is the whole number next to it:
/// the difference of the squares of their doubles, which is exact, by that of their slopes.
fn from_middle(c: u64, q: u64) -> f64 {
    let (square, double) = ((c as u128) << 54, 2 * q as u128);
    let above = square.abs_diff((double + 1) * (double + 1));
    let below = square.abs_diff((double - 1) * (double - 1));
    above.min(below) as f64 / (8.0 * q as f64)
}

/// A q below 2^52 with q * q + q equal to t modulo 2^52, for an even t.
fn middle(t: u64) -> u64 {
    let mut q = 0u64;
    let mut left = t;
    for k in 0..52 {
        if left & 1 == 1 {
            left = left.wrapping_sub(2 * q + (1 << k) + 1);
            q += 1 << k;
        }
        left >>= 1;
    }
    q
}

fn next(s: u64) -> u64 {
    let a = s ^ (s << 13);
    let b = a ^ (a >> 7);
    b ^ (b << 17)
}

fn main() {
    let count = std::env::args().nth(1).map_or(1000, |n| {
        n.parse().unwrap_or_else(|_| {
            eprintln!("roots_oracle: {n} is no whole number; it is how many times to draw");
            std::process::exit(2)
        })
    });
    let mut roots = Roots {
        out: std::io::BufWriter::new(std::io::stdout().lock()),
        kind: 0,
        counted: Default::default(),
        farthest: 0,
        least: 0,
    };
    roots.fixed();
    let mut s = 0x9e37_79b9_7f4a_7c15;
    for _ in 0..count {
        s = next(s);
        roots.drawn(s);
    }
    roots.kind = 6;
    roots.put_about(0x3fef_ffff_f800_0000);
    roots.put_about(0x3ff0_0000_0800_0000);
    let (mut s, mut t) = (0xd1b5_4a32_d192_ed03, 0x9e37_79b9_7f4a_7c15);
    for _ in 0..count {
        (s, t) = (next(s), next(t));
        roots.close(s, t);
    }
    eprintln!(
        "{:24}{:>10}{:>10}{:>10}{:>10}{:>10}",
        "", "guessed", "next", "farther", "left open", "middle"
    );
    for (kind, [guessed, next, farther, left, near]) in KINDS.iter().zip(roots.counted) {
        eprintln!("{kind:24}{guessed:10}{next:10}{farther:10}{left:10}{near:10}");
    }
    eprintln!("steps of near_root: at most {}", roots.farthest);
    eprintln!("nearest to a middle: 2^{} of a step", roots.least);
}
