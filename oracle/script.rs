//! The calls of a script's lines.

use crate::limits::{self, Settings, SETTINGS};
use crate::rules::Call;

/// The limits of a decimal: its digits from the first that is not 0, and its power of ten.
const DIGITS: usize = 15;
const POWER: i64 = 22;

pub fn call(word: &str, arguments: &[&str]) -> Option<Call> {
    match word {
        "new" => construction(arguments),
        "gyr" => numbers(arguments).map(Call::Gyr),
        "gyrts" => numbers(arguments).map(|[x, y, z, ts]| Call::GyrWithTs([x, y, z], ts)),
        "acc" => numbers(arguments).map(Call::Acc),
        "mag" => numbers(arguments).map(Call::Mag),
        "tau_acc" => numbers(arguments).map(|[value]| Call::TauAcc(value)),
        "tau_mag" => numbers(arguments).map(|[value]| Call::TauMag(value)),
        "motion" => switches(arguments).map(Call::Motion),
        "rest" => switches(arguments).map(Call::Rest),
        "dist" => switches(arguments).map(Call::Dist),
        "th" => numbers(arguments).map(|[gyr, acc]| Call::RestThresholds(gyr, acc)),
        "bias" => {
            let (sigma, bias) = arguments.split_last()?;
            Some(Call::Bias(numbers(bias)?, optional(sigma)?))
        }
        "magref" => numbers(arguments).map(|[norm, dip]| Call::MagRef(norm, dip)),
        "reset" => arguments.is_empty().then_some(Call::Reset),
        _ => None,
    }
}

fn construction(arguments: &[&str]) -> Option<Call> {
    let [gyr_ts, acc_ts, mag_ts, settings @ ..] = arguments else {
        return None;
    };
    Some(Call::New {
        gyr_ts: number(gyr_ts)?,
        acc_ts: optional(acc_ts)?,
        mag_ts: optional(mag_ts)?,
        settings: match settings {
            ["house"] => None,
            _ => Some(settings_of(settings)?),
        },
    })
}

fn settings_of(words: &[&str]) -> Option<Settings> {
    if words.len() != SETTINGS {
        return None;
    }
    let mut settings = [0.0; SETTINGS];
    for (i, word) in words.iter().enumerate() {
        let is_switch = limits::is_switch(limits::HOUSE[i].0);
        settings[i] = if is_switch {
            f64::from(switch(word)?)
        } else {
            number(word)?
        };
    }
    Some(settings)
}

pub type Update = ([f64; 3], [f64; 3], Option<[f64; 3]>);

pub fn update_arguments(arguments: &[&str]) -> Option<Update> {
    let (gyr, rest) = arguments.split_at_checked(3)?;
    let (acc, mag) = rest.split_at_checked(3)?;
    let mag = match mag {
        ["-"] => None,
        _ => Some(numbers(mag)?),
    };
    Some((numbers(gyr)?, numbers(acc)?, mag))
}

pub fn numbers<const N: usize>(words: &[&str]) -> Option<[f64; N]> {
    if words.len() != N {
        return None;
    }
    let mut values = [0.0; N];
    for (value, word) in values.iter_mut().zip(words) {
        *value = number(word)?;
    }
    Some(values)
}

fn number(word: &str) -> Option<f64> {
    let lower_hex = |byte: u8| byte.is_ascii_digit() || (b'a'..=b'f').contains(&byte);
    if word.len() == 16 && word.bytes().all(lower_hex) {
        return u64::from_str_radix(word, 16).ok().map(f64::from_bits);
    }
    word.parse().ok().filter(|_| is_decimal(word))
}

/// Whether the word is a decimal within the limits of the format.
fn is_decimal(word: &str) -> bool {
    let (significand, exponent) = match word.split_once(['e', 'E']) {
        Some((significand, exponent)) => (significand, unsigned(exponent)),
        None => (word, "0"),
    };
    let (whole, behind) = match unsigned(significand).split_once('.') {
        Some(parts) => parts,
        None => (unsigned(significand), ""),
    };
    let digits = [whole, behind].concat();
    if !is_digits(&digits) || !is_digits(exponent) {
        return false;
    }
    let size: i64 = exponent.parse().unwrap_or(i64::MAX / 2);
    let exponent = if word.contains("e-") || word.contains("E-") {
        -size
    } else {
        size
    };
    let power = exponent - behind.len() as i64;
    digits.trim_start_matches('0').len() <= DIGITS && power.abs() <= POWER
}

fn unsigned(text: &str) -> &str {
    text.strip_prefix(['+', '-']).unwrap_or(text)
}

fn is_digits(text: &str) -> bool {
    !text.is_empty() && text.bytes().all(|byte| byte.is_ascii_digit())
}

fn optional(word: &str) -> Option<Option<f64>> {
    match word {
        "-" => Some(None),
        _ => number(word).map(Some),
    }
}

fn switches(words: &[&str]) -> Option<bool> {
    match words {
        [word] => switch(word),
        _ => None,
    }
}

fn switch(word: &str) -> Option<bool> {
    match word {
        "0" => Some(false),
        "1" => Some(true),
        _ => None,
    }
}
