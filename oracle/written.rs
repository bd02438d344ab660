//! Call scripts as a person writes them: decimals, comments, empty lines, any blanks; and lines
//! that are next to the edge of the format, within it or past it.

use crate::random::Random;

/// The most digits and the largest power of ten that a decimal of the format has.
const DIGITS: u64 = 15;
const POWER: i64 = 22;

const REMARKS: [&str; 6] = [
    "#",
    "# at the trolley",
    "# gyr 0 0 0",
    "## 45\u{b0}, # twice",
    "#\tnew",
    "#0",
];
const BLANKS: [&str; 8] = [" ", " ", " ", " ", "  ", "\t", " \t", "\r "];

/// The call in someone's hand, with the lines that may stand above it.
pub fn call(text: &str, random: &mut Random) -> String {
    let mut lines = String::new();
    while random.one_in(12) {
        let above = random.pick(&["", "", " ", "\t ", "# --", "  # then", "#"]);
        lines += &format!("{above}{}", line_end(random));
    }
    if random.one_in(10) {
        lines += random.pick(&BLANKS);
    }
    for (place, word) in text.split(' ').enumerate() {
        if place > 0 {
            lines += random.pick(&BLANKS);
        }
        lines += &by_hand(word, random);
    }
    if random.one_in(10) {
        lines += random.pick(&BLANKS);
    }
    if random.one_in(10) {
        lines += random.pick(&REMARKS);
    }
    lines + line_end(random)
}

fn line_end(random: &mut Random) -> &'static str {
    random.pick(&["\n", "\n", "\r\n"])
}

/// A number as a decimal where it has one, now and then as it is; any other word as it is.
fn by_hand(word: &str, random: &mut Random) -> String {
    let bits = u64::from_str_radix(word, 16)
        .ok()
        .filter(|_| word.len() == 16);
    match bits.map(f64::from_bits) {
        Some(value) if value.is_finite() && !random.one_in(16) => {
            decimal(value, random).unwrap_or(word.to_string())
        }
        _ => word.to_string(),
    }
}

/// A decimal near the value, of 1 to 15 digits.
fn decimal(value: f64, random: &mut Random) -> Option<String> {
    let behind = random.below(DIGITS) as usize;
    let text = format!("{:.behind$e}", value.abs());
    let (digits, exponent) = text.split_once('e')?;
    let power = exponent.parse::<i64>().ok()? - behind as i64;
    let unsigned = shaped(&digits.replace('.', ""), power, random)?;
    Some(format!(
        "{}{unsigned}",
        sign(value.is_sign_negative(), random)
    ))
}

/// Any decimal of the format.
pub fn any_decimal(random: &mut Random) -> String {
    let count = 1 + random.below(DIGITS) as usize;
    let digits: String = (0..count).map(|_| random.pick(&DECIMAL_DIGITS)).collect();
    let power = random.below(2 * POWER as u64 + 1) as i64 - POWER;
    let unsigned = shaped(&digits, power, random).unwrap_or(digits);
    format!("{}{unsigned}", sign(random.one_in(8), random))
}

const DECIMAL_DIGITS: [char; 10] = ['0', '1', '2', '3', '4', '5', '6', '7', '8', '9'];

fn sign(negative: bool, random: &mut Random) -> &'static str {
    match negative {
        true => "-",
        false => random.pick(&["", "", "", "+"]),
    }
}

/// The digits times that power of ten, written in one of several ways.
fn shaped(digits: &str, power: i64, random: &mut Random) -> Option<String> {
    if power.abs() > POWER {
        return None;
    }
    match random.below(3) {
        0 => Some(with_exponent(digits, power, random)),
        _ => plain(digits, power).or_else(|| Some(with_exponent(digits, power, random))),
    }
}

/// Without an exponent, where the zeros that this takes leave at most 15 digits.
fn plain(digits: &str, power: i64) -> Option<String> {
    match power {
        0 => Some(digits.to_string()),
        1.. => Some(format!("{digits}{}", "0".repeat(power as usize)))
            .filter(|text| text.len() as u64 <= DIGITS),
        _ => Some(pointed(digits, -power as usize)),
    }
}

/// With that many digits behind the point; zeros are put in front where there are too few.
fn pointed(digits: &str, behind: usize) -> String {
    let zeros = "0".repeat((behind + 1).saturating_sub(digits.len()));
    let digits = format!("{zeros}{digits}");
    let (whole, behind) = digits.split_at(digits.len() - behind);
    format!("{whole}.{behind}")
}

fn with_exponent(digits: &str, power: i64, random: &mut Random) -> String {
    let behind = random.below(digits.len() as u64 + 1) as usize;
    let (whole, rest) = digits.split_at(digits.len() - behind);
    let zeros = random.pick(&["", "", "", "", "0", "000000000000000000000000"]);
    let point = if behind > 0 || random.one_in(4) {
        "."
    } else {
        ""
    };
    let mark = random.pick(&["e", "e", "E"]);
    let exponent = power + behind as i64;
    let sign = match exponent {
        ..0 => "-",
        _ => random.pick(&["", "", "+"]),
    };
    let size = match random.below(4) {
        0 => format!("{:03}", exponent.abs()),
        1 => format!("{:02}", exponent.abs()),
        _ => exponent.abs().to_string(),
    };
    format!("{zeros}{whole}{point}{rest}{mark}{sign}{size}")
}

/// A line in which a word stands that is next to the edge of the format, or one word too many or
/// too few, or no call's name.
pub fn edge(random: &mut Random) -> String {
    let line = random.pick(&[
        "gyr 0.5 0 0",
        "gyrts 0 0 0 0.01",
        "acc 0 0 9.81",
        "mag 20 0 -40",
        "upd 0 0 0 0 0 9.81 -",
        "upd 0 0 0 0 0 9.81 20 0 -40",
        "tau_acc 3",
        "tau_mag 9",
        "motion 1",
        "rest 0",
        "dist 1",
        "th 2 0.5",
        "bias 0 0 0 -",
        "bias 0 0 0 0.5",
        "magref 60 1.1",
        "new 0.01 - - house",
        "reset",
        "sqrt 2",
        "atan2 1 2",
        "state",
        "get",
    ]);
    let mut words: Vec<String> = line.split(' ').map(str::to_string).collect();
    let place = random.below(words.len() as u64) as usize;
    match random.below(8) {
        0 => words.insert(place + 1, random.pick(&["0", "-", "x"]).to_string()),
        1 => drop(words.remove(place)),
        2 => {
            words[0] = random
                .pick(&["gyro", "GYR", "ne", "news", "get?", "=", "-", "0"])
                .to_string()
        }
        _ => words[place] = edge_word(random),
    }
    words.join(" ") + "\n"
}

fn edge_word(random: &mut Random) -> String {
    if random.one_in(3) {
        let digits: String = (0..13 + random.below(5))
            .map(|_| random.pick(&DECIMAL_DIGITS))
            .collect();
        let point = random.below(digits.len() as u64 + 1) as usize;
        return match random.below(4) {
            0 => digits,
            1 => format!("-{digits}"),
            2 => format!("{}.{}", &digits[..point], &digits[point..]),
            _ => format!(
                "{}.{}e-{}",
                &digits[..point],
                &digits[point..],
                random.below(12)
            ),
        };
    }
    if random.one_in(3) {
        let exponent = random.pick(&[20, 21, 22, 23, 24]);
        let sign = random.pick(&["", "+", "-"]);
        return random
            .pick(&["1", "1.5", ".25", "3.", "0", "0.0"])
            .to_string()
            + &format!("e{sign}{exponent}");
    }
    let text = random.pick(&[
        ".",
        "+",
        "-",
        "--1",
        "+-1",
        "1e",
        "1e+",
        "1e-",
        "e5",
        ".e5",
        "1.2.3",
        "1,5",
        "0x10",
        "inf",
        "-inf",
        "nan",
        "NaN",
        "infinity",
        "1e1000",
        "1e0022",
        "1e022",
        "1_000",
        "1e5.0",
        "1e5e5",
        "1d5",
        "\u{661}",
        "2",
        "00",
        "01",
        "+1",
        "1.",
        "house",
        "HOUSE",
        "3FF0000000000000",
        "3ff000000000000",
        "3ff00000000000000",
        "3ff0000000000000",
        "3ff000000000000g",
        "0x3ff00000000000",
        "$",
        "1\u{0}",
    ]);
    text.to_string()
}
