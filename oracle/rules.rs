//! What document 01 adds to the source: the numbered answers, their order, and what a
//! refused call leaves. The limits themselves are in `limits`.

use crate::limits::{self, Intervals, Settings};
use std::panic::{self, AssertUnwindSafe};
use vqf::{Params, State, VQF};

#[derive(Clone, Copy, PartialEq, Eq, PartialOrd, Ord)]
pub enum Answer {
    Done = 0,
    ZeroSample = 1,
    SampleOutside = 2,
    IntervalOutside = 3,
    SettingOutside = 4,
    Singular = 5,
    NotFinite = 6,
}

pub enum Call {
    New {
        gyr_ts: f64,
        acc_ts: Option<f64>,
        mag_ts: Option<f64>,
        settings: Option<Settings>,
    },
    Gyr([f64; 3]),
    GyrWithTs([f64; 3], f64),
    Acc([f64; 3]),
    Mag([f64; 3]),
    TauAcc(f64),
    TauMag(f64),
    Motion(bool),
    Rest(bool),
    Dist(bool),
    RestThresholds(f64, f64),
    Bias([f64; 3], Option<f64>),
    MagRef(f64, f64),
    Reset,
}

/// What `unwrap` says where the source finds no inverse.
const NO_INVERSE: &str = "called `Option::unwrap()` on a `None` value";

/// An accelerometer sample that adds to the rest time.
const QUIET: [f64; 3] = [0.0, 0.0, 9.81];

pub fn fresh_house_filter() -> VQF {
    VQF::new(
        limits::HOUSE_INTERVAL,
        None,
        None,
        Some(params(&limits::house())),
    )
}

/// Plays one call. After a refusal the filter is as it was, or a fresh house filter
/// where a constructor was refused.
pub fn play(filter: &mut VQF, call: &Call) -> Answer {
    let before = *filter;
    let answer = refused_on_sight(filter, call)
        .or_else(|| refused_by_source(filter, call))
        .unwrap_or_else(|| judge_stored(&before, filter, call));
    if answer != Answer::Done {
        *filter = match call {
            Call::New { .. } => fresh_house_filter(),
            _ => before,
        };
    }
    answer
}

/// `update`: three calls in order, each with its answer; a refused one does not stop the next.
pub fn update(
    filter: &mut VQF,
    gyr: [f64; 3],
    acc: [f64; 3],
    mag: Option<[f64; 3]>,
) -> [Answer; 3] {
    [
        play(filter, &Call::Gyr(gyr)),
        play(filter, &Call::Acc(acc)),
        mag.map_or(Answer::Done, |mag| play(filter, &Call::Mag(mag))),
    ]
}

/// Answers 2, 3, 4 and 1, in that order: they need no step of the filter.
fn refused_on_sight(filter: &VQF, call: &Call) -> Option<Answer> {
    let checks = [
        (sample_taken(call), Answer::SampleOutside),
        (step_interval_taken(call), Answer::IntervalOutside),
        (settings_taken(filter, call), Answer::SettingOutside),
        (!zero_sample(call), Answer::ZeroSample),
    ];
    checks
        .iter()
        .find(|(passed, _)| !passed)
        .map(|(_, answer)| *answer)
}

fn sample_taken(call: &Call) -> bool {
    let (sample, limit) = match call {
        Call::Gyr(gyr) | Call::GyrWithTs(gyr, _) => (gyr, limits::GYR),
        Call::Acc(acc) => (acc, limits::ACC),
        Call::Mag(mag) => (mag, limits::MAG),
        _ => return true,
    };
    sample.iter().all(|component| limit.takes(*component))
}

fn step_interval_taken(call: &Call) -> bool {
    match call {
        Call::GyrWithTs(_, ts) => limits::INTERVAL.takes(*ts),
        _ => true,
    }
}

fn settings_taken(filter: &VQF, call: &Call) -> bool {
    let taken = |name: &str, value: f64| limits::setting_taken(name, value, intervals(filter));
    match *call {
        Call::New {
            gyr_ts,
            acc_ts,
            mag_ts,
            settings,
        } => {
            let ts = Intervals {
                gyr: gyr_ts,
                acc: acc_ts.unwrap_or(gyr_ts),
                mag: mag_ts.unwrap_or(gyr_ts),
            };
            limits::construction_taken(&settings.unwrap_or_else(limits::house), ts)
        }
        Call::TauAcc(tau_acc) => taken("tau_acc", tau_acc),
        Call::TauMag(tau_mag) => taken("tau_mag", tau_mag),
        Call::RestThresholds(th_gyr, th_acc) => {
            taken("rest_th_gyr", th_gyr) && taken("rest_th_acc", th_acc)
        }
        Call::Bias(bias, sigma) => {
            !bias.iter().any(|component| component.is_nan())
                && !is_beyond_clip(bias, filter.params().bias_clip)
                && sigma.is_none_or(|sigma| limits::BIAS_SIGMA.takes(sigma))
        }
        Call::MagRef(norm, dip) => {
            limits::MAG_REF_NORM.takes(norm) && limits::MAG_REF_DIP.takes(dip)
        }
        _ => true,
    }
}

/// Whether the source's gyro step finds a rate beyond the clip. The first sample of a filter is its
/// own average, so its deviation is 0, and the clip alone decides whether it breaks rest.
fn is_beyond_clip(rate: [f64; 3], clip: f64) -> bool {
    let mut settings = limits::house();
    settings[limits::place("bias_clip")] = clip;
    let mut asked = VQF::new(limits::HOUSE_INTERVAL, None, None, Some(params(&settings)));
    asked.update_acc(QUIET);
    asked.update_gyr(rate);
    asked.state().rest_t == 0.0
}

fn zero_sample(call: &Call) -> bool {
    match call {
        Call::Acc(sample) | Call::Mag(sample) => *sample == [0.0; 3],
        _ => false,
    }
}

fn intervals(filter: &VQF) -> Intervals {
    let coeffs = filter.coeffs();
    Intervals {
        gyr: coeffs.gyr_ts,
        acc: coeffs.acc_ts,
        mag: coeffs.mag_ts,
    }
}

/// Plays the source's call. Answer 5 is the source's `unwrap` of a missing inverse; any
/// other panic goes on.
fn refused_by_source(filter: &mut VQF, call: &Call) -> Option<Answer> {
    let played = panic::catch_unwind(AssertUnwindSafe(|| play_source(filter, call)));
    match played {
        Ok(()) => None,
        Err(panic) if is_missing_inverse(panic.downcast_ref::<&str>().copied()) => {
            Some(Answer::Singular)
        }
        Err(panic) => panic::resume_unwind(panic),
    }
}

fn is_missing_inverse(message: Option<&str>) -> bool {
    message == Some(NO_INVERSE)
}

/// Keeps the missing inverse, which is an answer, out of the error output.
pub fn hush_missing_inverse() {
    let tell = panic::take_hook();
    panic::set_hook(Box::new(move |info| {
        if !is_missing_inverse(info.payload().downcast_ref::<&str>().copied()) {
            tell(info);
        }
    }));
}

fn play_source(filter: &mut VQF, call: &Call) {
    match *call {
        Call::New {
            gyr_ts,
            acc_ts,
            mag_ts,
            settings,
        } => {
            let params = params(&settings.unwrap_or_else(limits::house));
            *filter = VQF::new(gyr_ts, acc_ts, mag_ts, Some(params));
        }
        Call::Gyr(gyr) => filter.update_gyr(gyr),
        Call::GyrWithTs(gyr, ts) => filter.update_gyr_with_ts(gyr, ts),
        Call::Acc(acc) => filter.update_acc(acc),
        Call::Mag(mag) => filter.update_mag(mag),
        Call::TauAcc(tau_acc) => filter.set_tau_acc(tau_acc),
        Call::TauMag(tau_mag) => filter.set_tau_mag(tau_mag),
        Call::Motion(enabled) => filter.set_motion_bias_est_enabled(enabled),
        Call::Rest(enabled) => filter.set_rest_bias_est_enabled(enabled),
        Call::Dist(enabled) => filter.set_mag_dist_rejection_enabled(enabled),
        Call::RestThresholds(th_gyr, th_acc) => {
            filter.set_rest_detection_thresholds(th_gyr, th_acc)
        }
        Call::Bias(bias, sigma) => filter.set_bias_estimate(bias, sigma),
        Call::MagRef(norm, dip) => filter.set_mag_ref(norm, dip),
        Call::Reset => filter.reset_state(),
    }
}

fn params(settings: &Settings) -> Params {
    let value = |name| settings[limits::place(name)];
    let switch = |name| value(name) != 0.0;
    Params {
        tau_acc: value("tau_acc"),
        tau_mag: value("tau_mag"),
        motion_bias_est_enabled: switch("motion_bias_est_enabled"),
        rest_bias_est_enabled: switch("rest_bias_est_enabled"),
        mag_dist_rejection_enabled: switch("mag_dist_rejection_enabled"),
        bias_sigma_init: value("bias_sigma_init"),
        bias_forgetting_time: value("bias_forgetting_time"),
        bias_clip: value("bias_clip"),
        bias_sigma_motion: value("bias_sigma_motion"),
        bias_vertical_forgetting_factor: value("bias_vertical_forgetting_factor"),
        bias_sigma_rest: value("bias_sigma_rest"),
        rest_min_t: value("rest_min_t"),
        rest_filter_tau: value("rest_filter_tau"),
        rest_th_gyr: value("rest_th_gyr"),
        rest_th_acc: value("rest_th_acc"),
        mag_current_tau: value("mag_current_tau"),
        mag_ref_tau: value("mag_ref_tau"),
        mag_norm_th: value("mag_norm_th"),
        mag_dip_th: value("mag_dip_th"),
        mag_new_time: value("mag_new_time"),
        mag_new_first_time: value("mag_new_first_time"),
        mag_new_min_gyr: value("mag_new_min_gyr"),
        mag_min_undisturbed_time: value("mag_min_undisturbed_time"),
        mag_max_rejection_time: value("mag_max_rejection_time"),
        mag_rejection_factor: value("mag_rejection_factor"),
    }
}

/// Answer 6: the call would leave a number that is NaN or infinite. What was stored before
/// is finite, so looking at everything judges what the call wrote.
fn judge_stored(before: &VQF, after: &VQF, call: &Call) -> Answer {
    if numbers(after.state()).all(f64::is_finite)
        && setter_coefficients(after).all(f64::is_finite)
        && channels_finite(before, after, call)
    {
        Answer::Done
    } else {
        Answer::NotFinite
    }
}

fn numbers(state: &State) -> impl Iterator<Item = f64> {
    let gyr = &state.gyr_quat;
    let acc = &state.acc_quat;
    let quats = [gyr.0, gyr.1, gyr.2, gyr.3, acc.0, acc.1, acc.2, acc.3];
    let vectors = [
        state.last_acc_lp,
        state.bias,
        state.bias_p.0[0],
        state.bias_p.0[1],
        state.bias_p.0[2],
        state.rest_last_gyr_lp,
        state.rest_last_acc_lp,
    ];
    let pairs = [state.rest_last_squared_deviations, state.mag_norm_dip];
    let single = [
        state.delta,
        state.last_acc_corr_angular_rate,
        state.k_mag_init,
        state.last_mag_dis_angle,
        state.last_mag_corr_angular_rate,
        state.rest_t,
        state.mag_ref_norm,
        state.mag_ref_dip,
        state.mag_undisturbed_t,
        state.mag_reject_t,
        state.mag_candidate_norm,
        state.mag_candidate_dip,
        state.mag_candidate_t,
    ];
    quats
        .into_iter()
        .chain(vectors.into_iter().flatten())
        .chain(pairs.into_iter().flatten())
        .chain(single)
}

/// The coefficients that a setter works out anew.
fn setter_coefficients(filter: &VQF) -> impl Iterator<Item = f64> {
    let coeffs = filter.coeffs();
    let acc_lp = coeffs.acc_lp_b.into_iter().chain(coeffs.acc_lp_a);
    acc_lp.chain([coeffs.k_mag])
}

/// A group of filter channels around one call. In the source `slots[0][0]` NaN means
/// averaging, `slots[1][0]` is then the count (NaN: never fed) and `slots[i][1]` a sum.
struct Group<'a> {
    before: &'a [[f64; 2]],
    after: &'a [[f64; 2]],
    ts: f64,
    tau: f64,
}

fn channels_finite(before: &VQF, after: &VQF, call: &Call) -> bool {
    match call {
        // These only put the marks of a group never fed.
        Call::New { .. } | Call::Motion(_) | Call::Rest(_) | Call::Dist(_) | Call::Reset => true,
        _ => groups(before, after).iter().all(Group::finite),
    }
}

fn groups<'a>(before: &'a VQF, after: &'a VQF) -> [Group<'a>; 6] {
    let (old, new) = (before.state(), after.state());
    let (params, coeffs) = (after.params(), after.coeffs());
    let acc = |before, after| Group {
        before,
        after,
        ts: coeffs.acc_ts,
        tau: params.tau_acc,
    };
    [
        acc(&old.acc_lp_state, &new.acc_lp_state),
        acc(
            &old.motion_bias_est_rlp_state,
            &new.motion_bias_est_rlp_state,
        ),
        acc(
            &old.motion_bias_est_bias_lp_state,
            &new.motion_bias_est_bias_lp_state,
        ),
        Group {
            before: &old.rest_gyr_lp_state,
            after: &new.rest_gyr_lp_state,
            ts: coeffs.gyr_ts,
            tau: params.rest_filter_tau,
        },
        Group {
            before: &old.rest_acc_lp_state,
            after: &new.rest_acc_lp_state,
            ts: coeffs.acc_ts,
            tau: params.rest_filter_tau,
        },
        Group {
            before: &old.mag_norm_dip_lp_state,
            after: &new.mag_norm_dip_lp_state,
            ts: coeffs.mag_ts,
            tau: params.mag_current_tau,
        },
    ]
}

impl Group<'_> {
    fn finite(&self) -> bool {
        if !self.averaging_after() {
            return self.after.iter().flatten().all(|slot| slot.is_finite());
        }
        let sums = self.after.iter().map(|slots| slots[1]);
        !self.fed() || (self.after[1][0].is_finite() && sums.clone().all(f64::is_finite))
    }

    /// Worked out from before the call, so that a memory that becomes NaN is no mark.
    fn averaging_after(&self) -> bool {
        let count = self.before[1][0];
        let count = if count.is_nan() { 0.0 } else { count };
        let ended = (count + 1.0) * self.ts >= self.tau;
        self.before[0][0].is_nan() && !(self.fed() && ended)
    }

    /// A group that averages and is fed counts one more, so its slots change.
    fn fed(&self) -> bool {
        let before = self.before.iter().flatten().map(|slot| slot.to_bits());
        let after = self.after.iter().flatten().map(|slot| slot.to_bits());
        before.ne(after)
    }
}
