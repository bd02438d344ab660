//! The settings by name, the house values, and what a call will take (document 01, and document 02
//! where it amends it).
//! Ends are included, NaN is outside, and -0 counts as 0.

use std::f64::consts::PI;

#[derive(Clone, Copy)]
pub struct Range {
    pub low: f64,
    pub high: f64,
}

impl Range {
    pub fn takes(self, value: f64) -> bool {
        value >= self.low && value <= self.high
    }
}

const fn range(low: f64, high: f64) -> Range {
    Range { low, high }
}

const fn within(size: f64) -> Range {
    range(-size, size)
}

pub const GYR: Range = within(200.0);
pub const ACC: Range = within(1000.0);
pub const MAG: Range = within(1_000_000.0);
pub const INTERVAL: Range = range(0.0001, 1.0);
pub const BIAS_SIGMA: Range = range(0.0, 100.0);
pub const MAG_REF_NORM: Range = range(0.0, 2_000_000.0);
pub const MAG_REF_DIP: Range = within(1.6);

const LONGEST: f64 = 10000.0;
const SHORTEST_TAU: f64 = 0.0001;
const NO_FILTER: Range = range(-LONGEST, 0.0);
const SIGMA: Range = range(0.0, 100.0);
const VERTICAL_FACTOR: Range = range(0.0, 1.0);
const FORGETTING_TIME: Range = range(0.1, LONGEST);
const CLIP_OR_REST_THRESHOLD: Range = range(0.0001, 90.0);
const DURATION: Range = range(0.0, LONGEST);
const MAG_NORM_TH: Range = range(0.0, 10.0);
const MAG_DIP_TH: Range = range(0.0, 180.0);
const MAG_NEW_MIN_GYR: Range = range(0.0, 1000.0);
const MAG_REJECTION_FACTOR: Range = range(1.0, 1000.0);

#[derive(Clone, Copy)]
pub struct Intervals {
    pub gyr: f64,
    pub acc: f64,
    pub mag: f64,
}

pub const SETTINGS: usize = 25;

/// A value for each setting; a switch is 0 or 1.
pub type Settings = [f64; SETTINGS];

/// Each setting in the order of the source's `Params`, with its house value.
pub const HOUSE: [(&str, f64); SETTINGS] = [
    ("tau_acc", 3.0),
    ("tau_mag", 9.0),
    ("motion_bias_est_enabled", 1.0),
    ("rest_bias_est_enabled", 1.0),
    ("mag_dist_rejection_enabled", 1.0),
    ("bias_sigma_init", 0.5),
    ("bias_forgetting_time", 100.0),
    ("bias_clip", 2.0),
    ("bias_sigma_motion", 0.1),
    ("bias_vertical_forgetting_factor", 0.0001),
    ("bias_sigma_rest", 0.03),
    ("rest_min_t", 1.5),
    ("rest_filter_tau", 0.5),
    ("rest_th_gyr", 2.0),
    ("rest_th_acc", 0.5),
    ("mag_current_tau", 0.05),
    ("mag_ref_tau", 20.0),
    ("mag_norm_th", 0.1),
    ("mag_dip_th", 10.0),
    ("mag_new_time", 20.0),
    ("mag_new_first_time", 5.0),
    ("mag_new_min_gyr", 20.0),
    ("mag_min_undisturbed_time", 0.5),
    ("mag_max_rejection_time", 60.0),
    ("mag_rejection_factor", 2.0),
];

pub const HOUSE_INTERVAL: f64 = 0.01;

pub fn house() -> Settings {
    HOUSE.map(|(_, value)| value)
}

pub fn place(name: &str) -> usize {
    HOUSE
        .iter()
        .position(|(setting, _)| *setting == name)
        .unwrap_or_else(|| panic!("no setting is called {name}"))
}

pub fn is_switch(name: &str) -> bool {
    name.ends_with("_enabled")
}

/// The one or two ranges from which the setting may be taken.
pub fn ranges(name: &str, ts: Intervals) -> Vec<Range> {
    match name {
        "motion_bias_est_enabled" | "rest_bias_est_enabled" | "mag_dist_rejection_enabled" => {
            vec![range(0.0, 1.0)]
        }
        "tau_acc" => vec![range(ts.acc, LONGEST)],
        "rest_filter_tau" => vec![range(larger(ts.gyr, ts.acc), LONGEST)],
        "mag_current_tau" => vec![NO_FILTER, range(ts.mag, LONGEST)],
        "tau_mag" | "mag_ref_tau" => vec![NO_FILTER, range(SHORTEST_TAU, LONGEST)],
        "bias_sigma_init" | "bias_sigma_motion" | "bias_sigma_rest" => vec![SIGMA],
        "bias_vertical_forgetting_factor" => vec![VERTICAL_FACTOR],
        "bias_forgetting_time" => vec![FORGETTING_TIME],
        "bias_clip" | "rest_th_gyr" | "rest_th_acc" => vec![CLIP_OR_REST_THRESHOLD],
        "mag_norm_th" => vec![MAG_NORM_TH],
        "mag_dip_th" => vec![MAG_DIP_TH],
        "mag_new_min_gyr" => vec![MAG_NEW_MIN_GYR],
        "mag_rejection_factor" => vec![MAG_REJECTION_FACTOR],
        "rest_min_t"
        | "mag_new_time"
        | "mag_new_first_time"
        | "mag_min_undisturbed_time"
        | "mag_max_rejection_time" => vec![DURATION],
        _ => panic!("no setting is called {name}"),
    }
}

/// What `set_bias_estimate` takes for a component, at that `bias_clip`.
pub fn bias(clip: f64) -> Range {
    within(clip * (PI / 180.0))
}

pub fn setting_taken(name: &str, value: f64, ts: Intervals) -> bool {
    ranges(name, ts).iter().any(|range| range.takes(value))
}

pub fn construction_taken(settings: &Settings, ts: Intervals) -> bool {
    let intervals = [ts.gyr, ts.acc, ts.mag];
    intervals.iter().all(|interval| INTERVAL.takes(*interval))
        && HOUSE
            .iter()
            .zip(settings)
            .all(|((name, _), value)| setting_taken(name, *value, ts))
}

fn larger(a: f64, b: f64) -> f64 {
    if a > b {
        a
    } else {
        b
    }
}
