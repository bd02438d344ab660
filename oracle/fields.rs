//! The words of an output line, each with the name of its field.

/// What a field is made of.
enum Shape {
    Number,
    /// This many numbers, numbered from 0.
    Numbers(usize),
    /// The five coefficients of a filter, or a single `-`.
    Filter,
    /// This many channels of three words.
    Channels(usize),
}

use Shape::{Channels, Filter, Number, Numbers};

const STATE: [(&str, Shape); 69] = [
    ("tau_acc", Number),
    ("tau_mag", Number),
    ("motion_bias_est_enabled", Number),
    ("rest_bias_est_enabled", Number),
    ("mag_dist_rejection_enabled", Number),
    ("bias_sigma_init", Number),
    ("bias_forgetting_time", Number),
    ("bias_clip", Number),
    ("bias_sigma_motion", Number),
    ("bias_vertical_forgetting_factor", Number),
    ("bias_sigma_rest", Number),
    ("rest_min_t", Number),
    ("rest_filter_tau", Number),
    ("rest_th_gyr", Number),
    ("rest_th_acc", Number),
    ("mag_current_tau", Number),
    ("mag_ref_tau", Number),
    ("mag_norm_th", Number),
    ("mag_dip_th", Number),
    ("mag_new_time", Number),
    ("mag_new_first_time", Number),
    ("mag_new_min_gyr", Number),
    ("mag_min_undisturbed_time", Number),
    ("mag_max_rejection_time", Number),
    ("mag_rejection_factor", Number),
    ("gyr_ts", Number),
    ("acc_ts", Number),
    ("mag_ts", Number),
    ("acc_lp", Filter),
    ("k_mag", Number),
    ("bias_p0", Number),
    ("bias_v", Number),
    ("bias_motion_w", Number),
    ("bias_vertical_w", Number),
    ("bias_rest_w", Number),
    ("rest_gyr_lp", Filter),
    ("rest_acc_lp", Filter),
    ("k_mag_ref", Number),
    ("mag_norm_dip_lp", Filter),
    ("gyr_quat", Numbers(4)),
    ("acc_quat", Numbers(4)),
    ("delta", Number),
    ("rest_detected", Number),
    ("mag_dist_detected", Number),
    ("last_acc_lp", Numbers(3)),
    ("acc_lp_state", Channels(3)),
    ("last_acc_corr_angular_rate", Number),
    ("k_mag_init", Number),
    ("last_mag_dis_angle", Number),
    ("last_mag_corr_angular_rate", Number),
    ("bias", Numbers(3)),
    ("bias_p", Numbers(9)),
    ("motion_bias_est_rlp_state", Channels(9)),
    ("motion_bias_est_bias_lp_state", Channels(2)),
    ("rest_last_squared_deviations", Numbers(2)),
    ("rest_t", Number),
    ("rest_last_gyr_lp", Numbers(3)),
    ("rest_gyr_lp_state", Channels(3)),
    ("rest_last_acc_lp", Numbers(3)),
    ("rest_acc_lp_state", Channels(3)),
    ("mag_ref_norm", Number),
    ("mag_ref_dip", Number),
    ("mag_undisturbed_t", Number),
    ("mag_reject_t", Number),
    ("mag_candidate_norm", Number),
    ("mag_candidate_dip", Number),
    ("mag_candidate_t", Number),
    ("mag_norm_dip", Numbers(2)),
    ("mag_norm_dip_lp_state", Channels(2)),
];

const ANSWERS: [(&str, Shape); 11] = [
    ("quat_3d", Numbers(4)),
    ("quat_6d", Numbers(4)),
    ("quat_9d", Numbers(4)),
    ("delta", Number),
    ("bias_estimate", Numbers(3)),
    ("bias_estimate.sigma", Number),
    ("rest_detected", Number),
    ("mag_dist_detected", Number),
    ("relative_rest_deviations", Numbers(2)),
    ("mag_ref_norm", Number),
    ("mag_ref_dip", Number),
];

const UPDATE_ANSWERS: [&str; 3] = ["answer.gyr", "answer.acc", "answer.mag"];

/// A word of a line: the quantity it belongs to, its place within it, and the word.
pub struct Field<'a> {
    pub quantity: &'static str,
    pub place: String,
    pub word: &'a str,
}

impl Field<'_> {
    pub fn name(&self) -> String {
        format!("{}{}", self.quantity, self.place)
    }

    pub fn value(&self) -> Option<f64> {
        let bits = u64::from_str_radix(self.word, 16).ok()?;
        (self.word.len() == 16).then_some(f64::from_bits(bits))
    }
}

/// The fields of an output line. Words beyond the known ones are called `extra`.
pub fn fields(line: &str) -> Vec<Field<'_>> {
    let mut words = line.split(' ');
    let first = words.next().unwrap_or("");
    let mut words: Vec<&str> = words.collect();
    words.reverse();
    let mut fields = vec![field("first word", String::new(), first)];
    match first {
        "=" => take_shapes(&STATE, &mut words, &mut fields),
        "?" => take_shapes(&ANSWERS, &mut words, &mut fields),
        "upd" => UPDATE_ANSWERS
            .iter()
            .for_each(|name| take(name, String::new(), &mut words, &mut fields)),
        "sqrt" | "sin" | "cos" | "tan" | "exp" | "asin" | "acos" | "atan2" => {
            take("value", String::new(), &mut words, &mut fields)
        }
        _ => take("answer", String::new(), &mut words, &mut fields),
    }
    while !words.is_empty() {
        take("extra", String::new(), &mut words, &mut fields);
    }
    fields
}

fn field<'a>(quantity: &'static str, place: String, word: &'a str) -> Field<'a> {
    Field {
        quantity,
        place,
        word,
    }
}

fn take<'a>(
    quantity: &'static str,
    place: String,
    words: &mut Vec<&'a str>,
    fields: &mut Vec<Field<'a>>,
) {
    if let Some(word) = words.pop() {
        fields.push(field(quantity, place, word));
    }
}

fn take_shapes<'a>(
    shapes: &'static [(&'static str, Shape)],
    words: &mut Vec<&'a str>,
    fields: &mut Vec<Field<'a>>,
) {
    for (name, shape) in shapes {
        match shape {
            Number => take(name, String::new(), words, fields),
            Numbers(count) => {
                for i in 0..*count {
                    take(name, format!("[{i}]"), words, fields);
                }
            }
            Filter if words.last() == Some(&"-") => take(name, String::new(), words, fields),
            Filter => {
                for part in [".b0", ".b1", ".b2", ".a1", ".a2"] {
                    take(name, part.to_string(), words, fields);
                }
            }
            Channels(count) => {
                for i in 0..*count {
                    take_channel(name, i, words, fields);
                }
            }
        }
    }
}

fn take_channel<'a>(
    name: &'static str,
    i: usize,
    words: &mut Vec<&'a str>,
    fields: &mut Vec<Field<'a>>,
) {
    let slots = match words.last() {
        Some(&"A") => ["count", "sum"],
        _ => ["m0", "m1"],
    };
    take(name, format!("[{i}].phase"), words, fields);
    for slot in slots {
        take(name, format!("[{i}].{slot}"), words, fields);
    }
}
