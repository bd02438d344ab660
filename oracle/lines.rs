//! The state line and the answers' line of a call script.

use vqf::{Coefficients, Params, Quaternion, State, VQF};

/// 16 hex digits; every NaN alike.
pub fn hex(value: f64) -> String {
    let bits = if value.is_nan() {
        0x7ff8000000000000
    } else {
        value.to_bits()
    };
    format!("{bits:016x}")
}

pub fn state(filter: &VQF) -> String {
    let mut line = Line::starting("=");
    line.params(filter.params());
    line.coeffs(filter.coeffs(), filter.params().mag_current_tau > 0.0);
    line.state(filter.state());
    line.text
}

pub fn answers(filter: &VQF) -> String {
    let (bias, sigma) = filter.bias_estimate();
    let mut line = Line::starting("?");
    line.quaternion(&filter.quat_3d());
    line.quaternion(&filter.quat_6d());
    line.quaternion(&filter.quat_9d());
    line.number(filter.delta());
    line.numbers(&bias);
    line.number(sigma);
    line.flag(filter.rest_detected());
    line.flag(filter.mag_dist_detected());
    line.numbers(&filter.relative_rest_deviations());
    line.number(filter.mag_ref_norm());
    line.number(filter.mag_ref_dip());
    line.text
}

struct Line {
    text: String,
}

impl Line {
    fn starting(mark: &str) -> Self {
        let mut text = String::with_capacity(4096);
        text.push_str(mark);
        Self { text }
    }

    fn word(&mut self, word: &str) {
        self.text.push(' ');
        self.text.push_str(word);
    }

    fn number(&mut self, value: f64) {
        self.word(&hex(value));
    }

    fn numbers(&mut self, values: &[f64]) {
        values.iter().for_each(|value| self.number(*value));
    }

    fn flag(&mut self, flag: bool) {
        self.word(if flag { "1" } else { "0" });
    }

    fn quaternion(&mut self, q: &Quaternion) {
        self.numbers(&[q.0, q.1, q.2, q.3]);
    }

    fn coefficients(&mut self, b: &[f64; 3], a: &[f64; 2]) {
        self.numbers(b);
        self.numbers(a);
    }

    /// The count of an averaging group stands in the source's second channel.
    fn channels(&mut self, slots: &[[f64; 2]]) {
        let averaging = slots[0][0].is_nan();
        let never_fed = slots[1][0].is_nan();
        for channel in slots {
            if !averaging {
                self.word("R");
                self.numbers(channel);
            } else if never_fed {
                self.word("A");
                self.numbers(&[0.0, 0.0]);
            } else {
                self.word("A");
                self.numbers(&[slots[1][0], channel[1]]);
            }
        }
    }

    fn params(&mut self, params: &Params) {
        self.numbers(&[params.tau_acc, params.tau_mag]);
        self.flag(params.motion_bias_est_enabled);
        self.flag(params.rest_bias_est_enabled);
        self.flag(params.mag_dist_rejection_enabled);
        self.numbers(&[
            params.bias_sigma_init,
            params.bias_forgetting_time,
            params.bias_clip,
            params.bias_sigma_motion,
            params.bias_vertical_forgetting_factor,
            params.bias_sigma_rest,
            params.rest_min_t,
            params.rest_filter_tau,
            params.rest_th_gyr,
            params.rest_th_acc,
            params.mag_current_tau,
            params.mag_ref_tau,
            params.mag_norm_th,
            params.mag_dip_th,
            params.mag_new_time,
            params.mag_new_first_time,
            params.mag_new_min_gyr,
            params.mag_min_undisturbed_time,
            params.mag_max_rejection_time,
            params.mag_rejection_factor,
        ]);
    }

    fn coeffs(&mut self, coeffs: &Coefficients, has_mag_norm_dip_lp: bool) {
        self.numbers(&[coeffs.gyr_ts, coeffs.acc_ts, coeffs.mag_ts]);
        self.coefficients(&coeffs.acc_lp_b, &coeffs.acc_lp_a);
        self.numbers(&[
            coeffs.k_mag,
            coeffs.bias_p0,
            coeffs.bias_v,
            coeffs.bias_motion_w,
            coeffs.bias_vertical_w,
            coeffs.bias_rest_w,
        ]);
        self.coefficients(&coeffs.rest_gyr_lp_b, &coeffs.rest_gyr_lp_a);
        self.coefficients(&coeffs.rest_acc_lp_b, &coeffs.rest_acc_lp_a);
        self.number(coeffs.k_mag_ref);
        if has_mag_norm_dip_lp {
            self.coefficients(&coeffs.mag_norm_dip_lp_b, &coeffs.mag_norm_dip_lp_a);
        } else {
            self.word("-");
        }
    }

    fn state(&mut self, state: &State) {
        self.quaternion(&state.gyr_quat);
        self.quaternion(&state.acc_quat);
        self.number(state.delta);
        self.flag(state.rest_detected);
        self.flag(state.mag_dist_detected);
        self.numbers(&state.last_acc_lp);
        self.channels(&state.acc_lp_state);
        self.number(state.last_acc_corr_angular_rate);
        self.number(state.k_mag_init);
        self.number(state.last_mag_dis_angle);
        self.number(state.last_mag_corr_angular_rate);
        self.numbers(&state.bias);
        state.bias_p.0.iter().for_each(|row| self.numbers(row));
        self.channels(&state.motion_bias_est_rlp_state);
        self.channels(&state.motion_bias_est_bias_lp_state);
        self.numbers(&state.rest_last_squared_deviations);
        self.number(state.rest_t);
        self.numbers(&state.rest_last_gyr_lp);
        self.channels(&state.rest_gyr_lp_state);
        self.numbers(&state.rest_last_acc_lp);
        self.channels(&state.rest_acc_lp_state);
        self.numbers(&[
            state.mag_ref_norm,
            state.mag_ref_dip,
            state.mag_undisturbed_t,
            state.mag_reject_t,
            state.mag_candidate_norm,
            state.mag_candidate_dip,
            state.mag_candidate_t,
        ]);
        self.numbers(&state.mag_norm_dip);
        self.channels(&state.mag_norm_dip_lp_state);
    }
}
