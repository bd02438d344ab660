//! A moving reader: where it points, and what its sensors would say.

use crate::port_math;
use crate::random::Random;

const TURN: f64 = 6.283185307179586;
const GRAVITY: f64 = 9.81;

#[derive(Clone, Copy, PartialEq)]
pub enum Motion {
    Still,
    Walking,
    Trolley,
    Shelf,
    Turns,
}

pub const MOTIONS: [Motion; 5] = [
    Motion::Still,
    Motion::Walking,
    Motion::Trolley,
    Motion::Shelf,
    Motion::Turns,
];

pub struct World {
    motion: Motion,
    orientation: [f64; 4],
    /// Angular rate in the reader's frame.
    rate: [f64; 3],
    /// Acceleration in the earth's frame, without gravity.
    push: [f64; 3],
    /// Part of a turn that each of three oscillations has done.
    swings: [f64; 3],
    bias: [f64; 3],
    field: [f64; 3],
    steel: [f64; 3],
    pausing: bool,
    axis: [f64; 3],
    leg_left: f64,
}

impl World {
    pub fn new(motion: Motion, random: &mut Random) -> Self {
        let dip = random.between(0.2, 1.3);
        let strength = random.between(20.0, 70.0);
        let mut world = Self {
            motion,
            orientation: [1.0, 0.0, 0.0, 0.0],
            rate: [0.0; 3],
            push: [0.0; 3],
            swings: [random.unit(), random.unit(), random.unit()],
            bias: random.noise_vector(0.01),
            field: [
                0.0,
                strength * port_math::cos(dip),
                -strength * port_math::sin(dip),
            ],
            steel: [0.0; 3],
            pausing: true,
            axis: [0.0, 0.0, 1.0],
            leg_left: random.between(0.0, 4.0),
        };
        let start = random.noise_vector(1.0);
        world.turn(start);
        world
    }

    pub fn advance(&mut self, ts: f64, random: &mut Random) {
        self.leg_left -= ts;
        if self.leg_left <= 0.0 {
            self.start_leg(random);
        }
        for (swing, frequency) in self.swings.iter_mut().zip([0.4, 1.0, 1.9]) {
            *swing += frequency * ts;
            if *swing > 1.0 {
                *swing -= 1.0;
            }
            if *swing > 1.0 {
                *swing = 0.5;
            }
        }
        self.move_on(random);
        let rate = self.rate;
        self.turn(scaled(rate, ts));
    }

    /// Brings a piece of steel near, or takes it away.
    pub fn place_steel(&mut self, size: f64, random: &mut Random) {
        self.steel = random.noise_vector(size);
    }

    pub fn gyr(&self, random: &mut Random) -> [f64; 3] {
        sum(sum(self.rate, self.bias), random.noise_vector(0.003))
    }

    pub fn acc(&self, random: &mut Random) -> [f64; 3] {
        let felt = sum(self.push, [0.0, 0.0, GRAVITY]);
        sum(self.in_reader(felt), random.noise_vector(0.03))
    }

    pub fn mag(&self, random: &mut Random) -> [f64; 3] {
        let felt = sum(self.field, self.steel);
        sum(self.in_reader(felt), random.noise_vector(0.2))
    }

    fn start_leg(&mut self, random: &mut Random) {
        self.pausing = !self.pausing && random.one_in(3);
        self.leg_left = random.between(0.5, 6.0);
        self.axis = random.noise_vector(match self.motion {
            Motion::Turns => 3.0,
            _ => 0.5,
        });
    }

    fn move_on(&mut self, random: &mut Random) {
        let [slow, step, fast] = self.swings.map(|swing| port_math::sin(TURN * swing));
        (self.rate, self.push) = match self.motion {
            _ if self.pausing => ([0.0; 3], [0.0; 3]),
            Motion::Still => ([0.0; 3], [0.0; 3]),
            Motion::Walking => (
                [0.3 * fast, 0.4 * step, 0.5 * slow],
                [0.8 * step, 0.4 * slow, 2.5 * fast],
            ),
            Motion::Trolley => ([0.0, 0.0, self.axis[2]], random.noise_vector(0.4)),
            Motion::Shelf => (
                [0.2 * self.axis[0], 0.3 * step, 2.2 * slow],
                [1.5 * slow, 0.5 * step, 0.3 * fast],
            ),
            Motion::Turns => (self.axis, scaled(self.axis, 0.5 * step)),
        };
    }

    /// Turns the reader by this rotation vector, in its own frame.
    fn turn(&mut self, rotation: [f64; 3]) {
        let [x, y, z] = rotation;
        let angle = port_math::sqrt(x * x + y * y + z * z);
        if angle < 1e-9 {
            return;
        }
        let s = port_math::sin(angle / 2.0) / angle;
        let step = [port_math::cos(angle / 2.0), s * x, s * y, s * z];
        self.orientation = normalized(product(self.orientation, step));
    }

    fn in_reader(&self, v: [f64; 3]) -> [f64; 3] {
        let [w, x, y, z] = self.orientation;
        let back = [w, -x, -y, -z];
        let turned = product(product(back, [0.0, v[0], v[1], v[2]]), self.orientation);
        [turned[1], turned[2], turned[3]]
    }
}

fn sum(a: [f64; 3], b: [f64; 3]) -> [f64; 3] {
    [a[0] + b[0], a[1] + b[1], a[2] + b[2]]
}

pub fn scaled(v: [f64; 3], factor: f64) -> [f64; 3] {
    v.map(|component| factor * component)
}

pub fn of_length_one(v: [f64; 3]) -> [f64; 3] {
    let [x, y, z] = v;
    let length = port_math::sqrt(x * x + y * y + z * z);
    v.map(|component| component / length)
}

fn product(a: [f64; 4], b: [f64; 4]) -> [f64; 4] {
    [
        a[0] * b[0] - a[1] * b[1] - a[2] * b[2] - a[3] * b[3],
        a[0] * b[1] + a[1] * b[0] + a[2] * b[3] - a[3] * b[2],
        a[0] * b[2] - a[1] * b[3] + a[2] * b[0] + a[3] * b[1],
        a[0] * b[3] + a[1] * b[2] - a[2] * b[1] + a[3] * b[0],
    ]
}

fn normalized(q: [f64; 4]) -> [f64; 4] {
    let size = port_math::sqrt(q[0] * q[0] + q[1] * q[1] + q[2] * q[2] + q[3] * q[3]);
    q.map(|part| part / size)
}
