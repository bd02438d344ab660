//! patch SOURCE own|port amended|unamended|told|gain OUT: the source, made ready for the driver, with
//! its own math or the port's, and with the lines that the rules amend or as they are; with `told` its
//! own test of a determinant, which is told, and with `gain` the lines amended and the gain of a heading
//! correction told. Each patch must match exactly once, or nothing is written.

use std::env;
use std::fs;
use std::process::exit;

/// An old text and a new one.
type Patch = (&'static str, &'static str);

const COPYABLE: Patch = (
    "pub struct VQF {",
    "#[derive(Clone, Copy)]\npub struct VQF {",
);

/// What the rules ask for in the place of what the source does.
const HALF_TURN: Patch = ("[0.0, 1.0, 0.0, 1.0].into()", "[0.0, 1.0, 0.0, 0.0].into()");
const NO_INVERSE: Patch = (
    "if (-f64::EPSILON..=f64::EPSILON).contains(&det) {",
    "if (-f64::EPSILON..=f64::EPSILON).contains(&det) || !det.is_finite() {",
);

/// The source's own test, and each determinant kept for whoever asks.
const TOLD_INVERSE: Patch = (
    "if (-f64::EPSILON..=f64::EPSILON).contains(&det) {",
    "DETERMINANT.set(Some(det));\n        if (-f64::EPSILON..=f64::EPSILON).contains(&det) {",
);
const DETERMINANT: &str = "
std::thread_local! {
    pub static DETERMINANT: std::cell::Cell<Option<f64>> = const { std::cell::Cell::new(None) };
}
";

/// The gain that a heading correction uses, kept for whoever asks.
const TOLD_GAIN: Patch = (
    "self.state.delta += k * self.state.last_mag_dis_angle;",
    "GAIN.set(Some(k));\n        self.state.delta += k * self.state.last_mag_dis_angle;",
);
const GAIN: &str = "
std::thread_local! {
    pub static GAIN: std::cell::Cell<Option<f64>> = const { std::cell::Cell::new(None) };
}
";

const MATH_OPENS: &str = "#[cfg(any(feature = \"std\", feature = \"micromath\"))]\nmod math {\n";
const PUBLIC_MATH: Patch = (
    MATH_OPENS,
    "#[cfg(any(feature = \"std\", feature = \"micromath\"))]\npub mod math {\n",
);
const MATH_CLOSES: &str = "\n}\n\n#[cfg(feature = \"libm\")]\nmod math {\n";
/// From the patched copy in `target/oracle`.
const PORT_MATH: &str = "#[path = \"../../oracle/port_math.rs\"]\npub mod math;\n";

fn main() {
    let arguments: Vec<String> = env::args().skip(1).collect();
    let [source, math, lines, out] = arguments.as_slice() else {
        stop("usage: patch SOURCE own|port amended|unamended|told|gain OUT");
    };
    let text = fs::read_to_string(source)
        .unwrap_or_else(|error| stop(&format!("cannot read the source {source}: {error}")));
    let text = replace_once(&text, COPYABLE);
    let text = match math.as_str() {
        "own" => replace_once(&text, PUBLIC_MATH),
        "port" => replace_math(&text),
        _ => stop("the second argument is own or port"),
    };
    let (lines, appendix): (&[Patch], &str) = match lines.as_str() {
        "amended" => (&[HALF_TURN, NO_INVERSE], ""),
        "unamended" => (&[], ""),
        "told" => (&[HALF_TURN, TOLD_INVERSE], DETERMINANT),
        "gain" => (&[HALF_TURN, NO_INVERSE, TOLD_GAIN], GAIN),
        _ => stop("the third argument is amended, unamended, told or gain"),
    };
    let text = lines
        .iter()
        .fold(text, |text, patch| replace_once(&text, *patch));
    let text = text + appendix;
    fs::write(out, text).unwrap_or_else(|error| stop(&format!("cannot write {out}: {error}")));
}

fn replace_math(text: &str) -> String {
    let (before, rest) = split_once(text, MATH_OPENS);
    let (_, after) = split_once(rest, MATH_CLOSES);
    let libm_opens = MATH_CLOSES.trim_start_matches("\n}\n");
    [before, PORT_MATH, libm_opens, after].concat()
}

fn replace_once(text: &str, (old, new): Patch) -> String {
    let (before, after) = split_once(text, old);
    [before, new, after].concat()
}

fn split_once<'a>(text: &'a str, mark: &str) -> (&'a str, &'a str) {
    let matches = text.matches(mark).count();
    if matches != 1 {
        stop(&format!(
            "a patch must match once, this matches {matches} times:\n{mark}"
        ));
    }
    text.split_once(mark).unwrap_or((text, ""))
}

fn stop(message: &str) -> ! {
    eprintln!("oracle: {message}");
    exit(1);
}
