//! scripts KIND SEED COUNT: prints a call script of COUNT calls. The same arguments give
//! the same script on every machine.

#[allow(dead_code)]
mod limits;
mod motion;
mod numbers;
#[allow(dead_code)]
mod port_math;
mod random;
mod values;
mod written;

use limits::{Intervals, Range, Settings};
use motion::{scaled, Motion, World, MOTIONS};
use random::Random;
use std::env;
use std::f64::consts::PI;
use std::io::{self, BufWriter, StdoutLock, Write};
use std::process::exit;
use values::Draw;

const KINDS: [(&str, fn(&mut Script)); 22] = [
    ("still", |script| script.realistic(Motion::Still)),
    ("walking", |script| script.realistic(Motion::Walking)),
    ("trolley", |script| script.realistic(Motion::Trolley)),
    ("shelf", |script| script.realistic(Motion::Shelf)),
    ("turns", |script| script.realistic(Motion::Turns)),
    ("steel", Script::steel),
    ("facedown", Script::face_down),
    ("setters", Script::setters),
    ("clip", Script::clip),
    ("fast", Script::fast),
    ("limits", Script::limits),
    ("edges", Script::edges),
    ("uniform", |script| script.drawn(Draw::Uniform)),
    ("log", |script| script.drawn(Draw::Log)),
    ("extreme", |script| script.drawn(Draw::Ends)),
    ("restless", Script::restless),
    ("covariance", Script::covariance),
    ("tiny", Script::tiny),
    ("numbers", Script::numbers),
    ("angles", Script::angles),
    ("written", Script::written),
    ("spoiled", Script::spoiled),
];

/// A state line comes after at most this many calls.
const CALLS_BETWEEN_STATES: u64 = 50;

fn main() {
    let arguments: Vec<String> = env::args().skip(1).collect();
    let drawn = match arguments.as_slice() {
        [word] if word == "kinds" => {
            KINDS.iter().for_each(|(name, _)| println!("{name}"));
            return;
        }
        [kind, seed, count] => KINDS
            .iter()
            .find(|(name, _)| name == kind)
            .zip(seed.parse().ok())
            .zip(count.parse().ok()),
        _ => None,
    };
    let Some((((name, write), seed), count)) = drawn else {
        let names = KINDS.map(|(name, _)| name).join(" ");
        eprintln!("usage: scripts KIND SEED COUNT, or scripts kinds\nkinds: {names}");
        exit(2);
    };
    let mut script = Script::new(name, seed, count);
    write(&mut script);
    script.finish();
}

struct Script {
    out: BufWriter<StdoutLock<'static>>,
    random: Random,
    calls_left: u64,
    state_in: u64,
    /// Whether calls are written as a person writes them.
    by_hand: bool,
    /// The `bias_clip` of the filter that the calls so far have built.
    clip: f64,
}

/// How the samples of a run are drawn.
#[derive(Clone, Copy)]
enum Samples {
    Moving,
    Noise,
    Constant,
    Ends,
    Tiny,
}

impl Script {
    /// Scripts of different kinds draw different numbers from one seed.
    fn new(kind: &str, seed: u64, count: u64) -> Self {
        let mut random = Random::seeded(seed);
        for byte in kind.bytes() {
            random = Random::seeded(random.bits() ^ u64::from(byte));
        }
        Self {
            out: BufWriter::with_capacity(1 << 16, io::stdout().lock()),
            random,
            calls_left: count,
            state_in: CALLS_BETWEEN_STATES,
            by_hand: false,
            clip: clip_of(&limits::house()),
        }
    }

    fn wanted(&self) -> bool {
        self.calls_left > 0
    }

    fn finish(&mut self) {
        // A reader that has seen enough may close the pipe.
        let _ = self.out.flush();
    }

    fn line(&mut self, line: &str) {
        match self.by_hand {
            true => {
                let text = written::call(line, &mut self.random);
                self.text(&text);
            }
            false => self.text(&format!("{line}\n")),
        }
    }

    fn text(&mut self, text: &str) {
        if self.out.write_all(text.as_bytes()).is_err() {
            exit(0);
        }
    }

    /// Writes a call, and now and then the state and the answers after it.
    fn call(&mut self, word: &str, arguments: &[f64]) {
        self.call_text(&format!("{word}{}", values::words(arguments)));
    }

    fn call_text(&mut self, text: &str) {
        if !self.wanted() {
            return;
        }
        self.line(text);
        self.calls_left -= 1;
        self.state_in -= 1;
        if self.state_in == 0 || !self.wanted() {
            self.show();
        } else if self.random.one_in(40) {
            self.line("get");
        }
    }

    fn show(&mut self) {
        self.line("state");
        self.line("get");
        self.state_in = 1 + self.random.below(CALLS_BETWEEN_STATES);
    }

    fn construct(&mut self, ts: Intervals, absent: [bool; 2], settings: Option<&Settings>) {
        self.clip = clip_in_force(ts, absent, settings);
        let optional = |value: f64, absent: bool| match absent {
            true => " -".to_string(),
            false => values::words(&[value]),
        };
        let settings = match settings {
            None => " house".to_string(),
            Some(settings) => values::settings_words(settings),
        };
        self.call_text(&format!(
            "new{}{}{}{settings}",
            values::words(&[ts.gyr]),
            optional(ts.acc, absent[0]),
            optional(ts.mag, absent[1]),
        ));
    }

    // Realistic runs.

    fn realistic(&mut self, motion: Motion) {
        while self.wanted() {
            let ts = self.realistic_filter();
            let mut world = World::new(motion, &mut self.random);
            let steps = 1000 + self.random.below(6000);
            self.run(&mut world, ts, steps, |_, _, _| ());
        }
    }

    fn steel(&mut self) {
        while self.wanted() {
            let ts = self.realistic_filter();
            let motion = self.random.pick(&MOTIONS);
            let mut world = World::new(motion, &mut self.random);
            let steps = 1000 + self.random.below(6000);
            self.run(&mut world, ts, steps, |script, world, _| {
                if script.random.one_in(400) {
                    let size = script.random.pick(&[0.0, 0.0, 3.0, 20.0, 200.0]);
                    world.place_steel(size, &mut script.random);
                }
                if script.random.one_in(2000) {
                    script.setter(ts, Draw::Log);
                }
            });
        }
    }

    fn setters(&mut self) {
        while self.wanted() {
            let ts = self.realistic_filter();
            let motion = self.random.pick(&MOTIONS);
            let mut world = World::new(motion, &mut self.random);
            let steps = 200 + self.random.below(2000);
            self.run(&mut world, ts, steps, |script, _, _| {
                if script.random.one_in(8) {
                    let draw = script.random.pick(&[Draw::Uniform, Draw::Log, Draw::Edges]);
                    script.setter(ts, draw);
                }
            });
        }
    }

    /// House intervals or usual ones, house settings or settings near them.
    fn realistic_filter(&mut self) -> Intervals {
        let ts = self.realistic_intervals();
        if self.random.one_in(3) {
            self.construct(ts, [false; 2], None);
        } else {
            let settings = values::near_house(ts, &mut self.random);
            self.construct(ts, [false; 2], Some(&settings));
        }
        ts
    }

    fn realistic_intervals(&mut self) -> Intervals {
        let usual = [0.005, 0.01, 0.02];
        let house = Intervals {
            gyr: limits::HOUSE_INTERVAL,
            acc: limits::HOUSE_INTERVAL,
            mag: limits::HOUSE_INTERVAL,
        };
        match self.random.below(3) {
            0 => Intervals {
                gyr: self.random.pick(&usual),
                acc: self.random.pick(&usual),
                mag: self.random.pick(&[0.01, 0.02, 0.05]),
            },
            _ => house,
        }
    }

    /// Feeds what the sensors say, each at its interval, or as `update` where they are equal.
    fn run(
        &mut self,
        world: &mut World,
        ts: Intervals,
        steps: u64,
        mut between: impl FnMut(&mut Self, &mut World, u64),
    ) {
        let together = ts.gyr == ts.acc && ts.gyr == ts.mag && self.random.one_in(2);
        let counts = self.random.one_in(2);
        let (mut acc_due, mut mag_due) = (0.0, 0.0);
        for step in 0..steps {
            if !self.wanted() {
                return;
            }
            world.advance(ts.gyr, &mut self.random);
            between(self, world, step);
            let gyr = counted(world.gyr(&mut self.random), 1024.0, counts);
            let acc = counted(world.acc(&mut self.random), 128.0, counts);
            let mag = counted(world.mag(&mut self.random), 16.0, counts);
            if together {
                self.update(gyr, acc, mag);
                continue;
            }
            self.gyr(gyr, ts.gyr);
            acc_due += ts.gyr;
            mag_due += ts.gyr;
            if acc_due >= ts.acc {
                acc_due -= ts.acc;
                self.call("acc", &acc);
            }
            if mag_due >= ts.mag {
                mag_due -= ts.mag;
                self.call("mag", &mag);
            }
        }
    }

    fn update(&mut self, gyr: [f64; 3], acc: [f64; 3], mag: [f64; 3]) {
        let samples = [gyr, acc].concat();
        if self.random.one_in(3) {
            self.call_text(&format!("upd{} -", values::words(&samples)));
        } else {
            self.call("upd", &[samples, mag.to_vec()].concat());
        }
    }

    fn gyr(&mut self, gyr: [f64; 3], ts: f64) {
        if self.random.one_in(4) {
            let jitter = self.random.between(0.9, 1.1);
            self.call("gyrts", &[gyr[0], gyr[1], gyr[2], ts * jitter]);
        } else {
            self.call("gyr", &gyr);
        }
    }

    /// Any setter, with values drawn that way.
    fn setter(&mut self, ts: Intervals, draw: Draw) {
        match self.random.below(9) {
            0 => self.set(ts, draw, "tau_acc", &["tau_acc"]),
            1 => self.set(ts, draw, "tau_mag", &["tau_mag"]),
            2 => self.set(ts, draw, "th", &["rest_th_gyr", "rest_th_acc"]),
            3 => self.switch("motion"),
            4 => self.switch("rest"),
            5 => self.switch("dist"),
            6 => self.bias(draw),
            7 => {
                let norm = values::within(limits::MAG_REF_NORM, draw, &mut self.random);
                let dip = values::within(limits::MAG_REF_DIP, draw, &mut self.random);
                self.call("magref", &[norm, dip]);
            }
            _ => self.call_text("reset"),
        }
    }

    fn set(&mut self, ts: Intervals, draw: Draw, word: &str, names: &[&str]) {
        let random = &mut self.random;
        let values = names
            .iter()
            .map(|name| values::setting(name, ts, draw, random));
        let values: Vec<f64> = values.collect();
        self.call(word, &values);
    }

    fn switch(&mut self, word: &str) {
        let value = self.random.pick(&["0", "1"]);
        self.call_text(&format!("{word} {value}"));
    }

    fn bias(&mut self, draw: Draw) {
        let limit = limits::bias(self.clip);
        let random = &mut self.random;
        let mut component = || values::within(limit, draw, random);
        let mut bias = [component(), component(), component()];
        let sigma = values::within(limits::BIAS_SIGMA, draw, random);
        if random.one_in(8) {
            // A technician types degrees.
            bias = scaled(bias, 180.0 / PI);
        }
        if self.random.one_in(2) {
            self.call_text(&format!("bias{} -", values::words(&bias)));
        } else {
            self.call("bias", &[bias[0], bias[1], bias[2], sigma]);
        }
    }

    /// Any clip, and biases at it, next to it and beyond it; some constructions are refused, and the
    /// house's clip is in force then.
    fn clip(&mut self) {
        while self.wanted() {
            let ts = self.realistic_intervals();
            let mut settings = values::near_house(ts, &mut self.random);
            let draw = self.random.pick(&[Draw::Uniform, Draw::Log, Draw::Edges]);
            settings[limits::place("bias_clip")] = match self.random.one_in(4) {
                true => 0.1 * (1 + self.random.below(900)) as f64,
                false => values::setting("bias_clip", ts, draw, &mut self.random),
            };
            self.construct(ts, [false; 2], Some(&settings));
            for _ in 0..10 + self.random.below(20) {
                let draw = self
                    .random
                    .pick(&[Draw::Edges, Draw::Edges, Draw::Ends, Draw::Log]);
                self.bias(draw);
                match self.random.below(16) {
                    0 => self.setter(ts, Draw::Log),
                    1 => self.upright_samples(3),
                    _ => (),
                }
            }
        }
    }

    // Wrists as fast as the gyroscope reads.

    /// Rates up to the limit over intervals up to the longest, against biases up to the largest clip: half
    /// the angle of a turn goes up to its largest. Some samples, intervals and biases are refused.
    fn fast(&mut self) {
        while self.wanted() {
            let ts = Intervals {
                gyr: self.random.pick(&[0.01, 0.1, 0.5, 1.0]),
                acc: limits::HOUSE_INTERVAL,
                mag: limits::HOUSE_INTERVAL,
            };
            let mut settings = values::near_house(ts, &mut self.random);
            settings[limits::place("rest_filter_tau")] = 1.0;
            settings[limits::place("bias_clip")] = self.random.pick(&[2.0, 45.0, 90.0, 90.0]);
            self.construct(ts, [false; 2], Some(&settings));
            for _ in 0..50 + self.random.below(200) {
                let gyr = self.fast_rate();
                match self.random.below(12) {
                    0 => self.bias(Draw::Ends),
                    1 => self.upright_samples(1),
                    2 => self.update(gyr, [0.0, 0.0, 9.81], [0.0, 20.0, -40.0]),
                    3 | 4 => self.call("gyr", &gyr),
                    _ => {
                        let ts = self.long_interval();
                        self.call("gyrts", &[gyr[0], gyr[1], gyr[2], ts]);
                    }
                }
            }
        }
    }

    fn fast_rate(&mut self) -> [f64; 3] {
        let limit = limits::GYR;
        let drawn = self.random.below(16);
        [(); 3].map(|_| match drawn {
            0..=3 => self.random.pick(&[limit.low, limit.high]),
            4 => values::within(limit, Draw::Edges, &mut self.random),
            5..=8 => self.random.between(limit.low, limit.high),
            _ => {
                let rate = self.random.between(0.7 * limit.high, limit.high);
                self.random.signed(rate)
            }
        })
    }

    fn long_interval(&mut self) -> f64 {
        let Range { low, high } = limits::INTERVAL;
        match self.random.below(8) {
            0 => values::within(limits::INTERVAL, Draw::Edges, &mut self.random),
            1 => self.random.log_between(low, high),
            2..=4 => high,
            _ => self.random.between(0.5 * high, high),
        }
    }

    // Readers laid face down.

    /// The acceleration points away from what the filter takes for up, or next to that, so that the
    /// correction is a half turn or next to one: in the first samples, while the low-pass filter
    /// averages, and once it runs.
    fn face_down(&mut self) {
        while self.wanted() {
            let ts = self.realistic_intervals();
            let samples_in_tau = self.random.pick(&[5, 5, 20, 100]);
            let settled = 2 * samples_in_tau;
            let mut settings = values::near_house(ts, &mut self.random);
            settings[limits::place("tau_acc")] = samples_in_tau as f64 * ts.acc;
            self.construct(ts, [false; 2], Some(&settings));
            match self.random.below(8) {
                0 => self.turn_over_slowly(ts, settled),
                1 | 2 => self.turn_over(ts, settled),
                _ => {
                    let before = self.random.pick(&[0, 0, 1, 3]);
                    self.turn_over(ts, before);
                }
            }
            self.steady([0.0, 0.0, -9.81], 3);
        }
    }

    /// A settled reader is laid face down, and the filtered acceleration follows.
    fn turn_over_slowly(&mut self, ts: Intervals, settled: u64) {
        self.swing(ts);
        let up = self.upward();
        self.steady(scaled(up, 9.81), settled);
        self.steady(scaled(up, -9.81), settled);
    }

    /// So many samples along what is then up, and one that outweighs them against it.
    fn turn_over(&mut self, ts: Intervals, before: u64) {
        // A fresh filter takes the sensor's third axis for up.
        let up = if before == 0 {
            [0.0, 0.0, 1.0]
        } else {
            self.swing(ts);
            self.upward()
        };
        let light = self.random.log_between(1e-9, 1e-7);
        let heavy = self.random.between(1.0, 900.0);
        self.steady(scaled(up, light), before);
        let lean = self.leaning(up);
        self.steady([0, 1, 2].map(|i| heavy * (lean[i] - up[i])), 1);
        self.show();
    }

    /// The gyroscope turns the reader, most often.
    fn swing(&mut self, ts: Intervals) {
        for _ in 0..self.random.below(4) {
            let gyr = self.random.noise_vector(20.0);
            self.gyr(gyr, ts.gyr);
        }
    }

    fn upward(&mut self) -> [f64; 3] {
        let drawn = self.random.noise_vector(1.0);
        let axes = [[0.0, 0.0, 1.0], [0.0, 0.0, -1.0], [1.0, 0.0, 0.0], drawn];
        motion::of_length_one(self.random.pick(&axes))
    }

    /// What is added to a vector of length 1 to tilt it, most often about as far as the source tells
    /// a half turn from others: there (z + 1) / 2 is 1e-12, and z is 2^-53 times 18014.4 above -1.
    fn leaning(&mut self, up: [f64; 3]) -> [f64; 3] {
        let steps = match self.random.below(4) {
            0 => 0.0,
            1 => self.random.between(0.0, 40000.0),
            _ => self.random.between(18012.0, 18017.0),
        };
        let angle = port_math::sqrt(steps * f64::EPSILON);
        let [x, y, z] = self.random.noise_vector(1.0);
        let across = [
            y * up[2] - z * up[1],
            z * up[0] - x * up[2],
            x * up[1] - y * up[0],
        ];
        scaled(motion::of_length_one(across), angle)
    }

    /// The same acceleration again and again, by a reader that does not turn.
    fn steady(&mut self, acc: [f64; 3], count: u64) {
        for _ in 0..count {
            match self.random.below(8) {
                0 => self.update([0.0; 3], acc, [0.0, 20.0, -40.0]),
                1 => {
                    self.call("gyr", &[0.0; 3]);
                    self.call("acc", &acc);
                }
                _ => self.call("acc", &acc),
            }
        }
    }

    // Settings and arguments at and just past their limits.

    fn limits(&mut self) {
        while self.wanted() {
            self.constructions_at_limits();
        }
    }

    /// For each setting and interval, constructions with it at or past an edge.
    fn constructions_at_limits(&mut self) {
        for place in 0..limits::SETTINGS + 3 {
            let mut ts = values::intervals(Draw::Log, &mut self.random);
            let draw = self.random.pick(&[Draw::Uniform, Draw::Log, Draw::Ends]);
            let mut settings = values::settings(ts, draw, &mut self.random);
            let random = &mut self.random;
            if let Some((name, _)) = limits::HOUSE.get(place) {
                settings[place] = values::setting(name, ts, Draw::Edges, random);
            } else {
                let interval = values::within(limits::INTERVAL, Draw::Edges, random);
                match place - limits::SETTINGS {
                    0 => ts.gyr = interval,
                    1 => ts.acc = interval,
                    _ => ts.mag = interval,
                }
            }
            let absent = [self.random.one_in(5), self.random.one_in(5)];
            let house = self.random.one_in(8);
            self.construct(ts, absent, (!house).then_some(&settings));
            self.show();
            let motion = self.random.pick(&MOTIONS);
            let mut world = World::new(motion, &mut self.random);
            self.run(&mut world, ts, 3, |_, _, _| ());
        }
    }

    fn edges(&mut self) {
        while self.wanted() {
            let ts = self.realistic_filter();
            let motion = self.random.pick(&MOTIONS);
            let mut world = World::new(motion, &mut self.random);
            let steps = 100 + self.random.below(400);
            self.run(&mut world, ts, steps, |script, _, _| script.edge_call(ts));
        }
    }

    /// A call whose arguments are, with some luck, at or past their edges.
    fn edge_call(&mut self, ts: Intervals) {
        match self.random.below(6) {
            0 => {
                let gyr = self.edge_sample(limits::GYR);
                self.call("gyr", &gyr);
            }
            1 => {
                let [x, y, z] = self.edge_sample(limits::GYR);
                let ts = self.edge(limits::INTERVAL);
                self.call("gyrts", &[x, y, z, ts]);
            }
            2 => {
                let acc = self.edge_sample(limits::ACC);
                self.call("acc", &acc);
            }
            3 => {
                let mag = self.edge_sample(limits::MAG);
                self.call("mag", &mag);
            }
            4 => {
                let gyr = self.edge_sample(limits::GYR);
                let acc = self.edge_sample(limits::ACC);
                let mag = self.edge_sample(limits::MAG);
                self.update(gyr, acc, mag);
            }
            _ => self.setter(ts, Draw::Edges),
        }
    }

    fn edge_sample(&mut self, limit: Range) -> [f64; 3] {
        if self.random.one_in(4) {
            let zeros = [0.0, -0.0];
            return [(); 3].map(|_| self.random.pick(&zeros));
        }
        [(); 3].map(|_| self.edge(limit))
    }

    fn edge(&mut self, limit: Range) -> f64 {
        let draw = self.random.pick(&[Draw::Edges, Draw::Uniform, Draw::Log]);
        values::within(limit, draw, &mut self.random)
    }

    // Long runs with settings drawn within limits.

    fn drawn(&mut self, draw: Draw) {
        while self.wanted() {
            let ts = values::intervals(draw, &mut self.random);
            let settings = values::settings(ts, draw, &mut self.random);
            self.construct(ts, [false; 2], Some(&settings));
            let samples = self.random.pick(&[
                Samples::Moving,
                Samples::Moving,
                Samples::Noise,
                Samples::Constant,
                Samples::Ends,
                Samples::Tiny,
            ]);
            let calls = 500 + self.random.below(5000);
            self.drawn_run(ts, samples, draw, calls);
        }
    }

    fn drawn_run(&mut self, ts: Intervals, samples: Samples, draw: Draw, calls: u64) {
        let motion = self.random.pick(&MOTIONS);
        let mut world = World::new(motion, &mut self.random);
        let constant = [
            self.sample(Samples::Noise, limits::GYR),
            self.sample(Samples::Noise, limits::ACC),
            self.sample(Samples::Noise, limits::MAG),
        ];
        let end = self.calls_left.saturating_sub(calls);
        while self.calls_left > end {
            world.advance(ts.gyr, &mut self.random);
            let [gyr, acc, mag] = match samples {
                Samples::Moving => [
                    world.gyr(&mut self.random),
                    world.acc(&mut self.random),
                    world.mag(&mut self.random),
                ],
                Samples::Constant => constant,
                _ => [
                    self.sample(samples, limits::GYR),
                    self.sample(samples, limits::ACC),
                    self.sample(samples, limits::MAG),
                ],
            };
            match self.random.below(16) {
                0..=4 => self.gyr(gyr, ts.gyr),
                5..=9 => self.call("acc", &acc),
                10..=12 => self.call("mag", &mag),
                13..=14 => self.update(gyr, acc, mag),
                _ if self.random.one_in(8) => self.setter(ts, draw),
                _ => self.call("acc", &acc),
            }
        }
    }

    fn sample(&mut self, samples: Samples, limit: Range) -> [f64; 3] {
        let random = &mut self.random;
        match samples {
            Samples::Ends => [(); 3].map(|_| random.pick(&[limit.low, limit.high, 0.0, -0.0, 1.0])),
            Samples::Tiny => [(); 3].map(|_| values::tiny(random)),
            _ => [(); 3].map(|_| values::within(limit, Draw::Log, random)),
        }
    }

    /// Samples so small that their squares vanish or lose digits.
    fn tiny(&mut self) {
        while self.wanted() {
            let ts = self.realistic_filter();
            let calls = 200 + self.random.below(1000);
            self.drawn_run(ts, Samples::Tiny, Draw::Log, calls);
        }
    }

    /// The accelerometer's time constant jumps between its ends in a fixed rhythm. The
    /// memories of the filters that are adapted then grow without bound.
    fn restless(&mut self) {
        while self.wanted() {
            let ts = values::intervals(Draw::Log, &mut self.random);
            let mut settings = values::settings(ts, Draw::Log, &mut self.random);
            let (motion, rest) = self.random.pick(&[(0.0, 1.0), (0.0, 0.0), (1.0, 1.0)]);
            settings[limits::place("motion_bias_est_enabled")] = motion;
            settings[limits::place("rest_bias_est_enabled")] = rest;
            self.construct(ts, [false; 2], Some(&settings));
            let Range { low, high } = limits::ranges("tau_acc", ts)[0];
            // One sample at the low end ends the averaging.
            self.call("tau_acc", &[low]);
            self.upright_samples(1);
            let pairs = self.random.pick(&[1, 1, 1, 2, 5]);
            let at_high = self.random.pick(&[1, 2, 2, 5]);
            let at_low = self.random.pick(&[0, 0, 1]);
            let end = self
                .calls_left
                .saturating_sub(3000 + self.random.below(12000));
            while self.calls_left > end {
                for _ in 0..pairs {
                    self.call("tau_acc", &[low]);
                    self.upright_samples(at_low);
                    self.call("tau_acc", &[high]);
                }
                self.upright_samples(at_high);
                if self.random.one_in(2000) {
                    self.setter(ts, Draw::Log);
                }
            }
        }
    }

    fn upright_samples(&mut self, count: u64) {
        for _ in 0..count {
            let gyr = self.random.noise_vector(0.01);
            let [x, y, z] = self.random.noise_vector(0.1);
            let acc = [x, y, 9.81 + z];
            if self.random.one_in(4) {
                self.update(gyr, acc, [0.0, 20.0, -40.0]);
            } else {
                self.call("acc", &acc);
            }
        }
    }

    /// Settings and bias uncertainties that bring the matrix to invert near a singular one,
    /// and turns so fast that the filtered rotation is far from a rotation.
    fn covariance(&mut self) {
        while self.wanted() {
            let ts = values::intervals(Draw::Log, &mut self.random);
            let mut settings = values::settings(ts, Draw::Log, &mut self.random);
            for name in ["bias_sigma_init", "bias_sigma_motion", "bias_sigma_rest"] {
                let sigma = self.random.pick(&[0.0, 1e-6, 1e-4, 1e-3, 0.01, 0.1, 100.0]);
                settings[limits::place(name)] = sigma;
            }
            settings[limits::place("motion_bias_est_enabled")] = 1.0;
            self.construct(ts, [false; 2], Some(&settings));
            let spin = self.random.noise_vector(20.0);
            for _ in 0..200 + self.random.below(1000) {
                let acc = self.random.noise_vector(9.0);
                let jitter = self.random.noise_vector(0.1);
                let gyr = [0, 1, 2].map(|i| spin[i] + jitter[i]);
                self.call("gyr", &gyr);
                self.call("acc", &acc);
                if self.random.one_in(20) {
                    let draw = self.random.pick(&[Draw::Ends, Draw::Log]);
                    self.bias(draw);
                }
            }
        }
    }

    // Scripts as a person writes them.

    /// Parts of the other kinds, by hand, and roots of any decimals.
    fn written(&mut self) {
        self.by_hand = true;
        let mut left = self.calls_left;
        while left > 0 {
            let part = left.min(20 + self.random.below(400));
            self.calls_left = part;
            let write = self.random.pick(&[
                |script: &mut Self| script.realistic(Motion::Walking),
                |script: &mut Self| script.realistic(Motion::Shelf),
                Self::setters,
                Self::limits,
                Self::edges,
                Self::numbers,
                Self::decimals,
            ]);
            write(self);
            left -= part;
        }
    }

    fn decimals(&mut self) {
        while self.wanted() {
            let text = format!("sqrt {}", written::any_decimal(&mut self.random));
            self.line(&text);
            self.calls_left -= 1;
        }
    }

    /// Lines next to the edge of the format. The first one past it ends the run.
    fn spoiled(&mut self) {
        while self.wanted() {
            let text = written::edge(&mut self.random);
            self.text(&text);
            self.calls_left -= 1;
        }
    }

    // The functions of numbers: no calls of the filter.

    fn numbers(&mut self) {
        while self.wanted() {
            let text = numbers::line(&mut self.random);
            self.line(&text);
            self.calls_left -= 1;
        }
    }

    /// Sine and cosine of the same angle, beyond 128.
    fn angles(&mut self) {
        while self.wanted() {
            let angle = values::words(&[numbers::far_angle(&mut self.random)]);
            for word in ["sin", "cos"] {
                self.line(&format!("{word}{angle}"));
            }
            self.calls_left = self.calls_left.saturating_sub(2);
        }
    }
}

fn clip_of(settings: &Settings) -> f64 {
    settings[limits::place("bias_clip")]
}

/// The clip after a construction, which is the house's where it is refused.
fn clip_in_force(ts: Intervals, absent: [bool; 2], settings: Option<&Settings>) -> f64 {
    let house = limits::house();
    let settings = settings.unwrap_or(&house);
    let or_gyr = |interval: f64, absent: bool| if absent { ts.gyr } else { interval };
    let ts = Intervals {
        gyr: ts.gyr,
        acc: or_gyr(ts.acc, absent[0]),
        mag: or_gyr(ts.mag, absent[1]),
    };
    match limits::construction_taken(settings, ts) {
        true => clip_of(settings),
        false => clip_of(&house),
    }
}

/// The sample as a sensor with that many counts to the unit would give it.
fn counted(sample: [f64; 3], per_unit: f64, counts: bool) -> [f64; 3] {
    match counts {
        true => sample.map(|component| (component * per_unit).round() / per_unit),
        false => sample,
    }
}
