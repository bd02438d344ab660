//! Makes the calls of crates/example on the source, and writes what that program should write.

use vqf::{Quaternion, VQF};

fn main() {
    let trolley = at_the_trolley();
    tilt("at the trolley", &trolley);
    let mut reader = at_one_shelf();
    tilt("at the shelf", &reader);
    let one = reader.quat_9d();
    turn_to_the_other(&mut reader);
    let about = turned_about(one, reader.quat_9d());
    println!(
        "between two shelves: {}",
        if about {
            "turned about"
        } else {
            "the same way"
        }
    );
}

fn tilt(place: &str, reader: &VQF) {
    let down = reader.quat_6d().rotate([0.0, 0.0, 1.0])[2] < 0.0;
    println!(
        "{place}: {}",
        if down {
            "pointed down, a return"
        } else {
            "held level, a shelf check"
        }
    );
}

fn at_the_trolley() -> VQF {
    let mut reader = VQF::new(0.01, None, None, None);
    reader.update_gyr([0.01, 0.0, 0.0]);
    reader.update_acc([0.0, 1.0, -9.7]);
    reader
}

fn turned_about(one: Quaternion, two: Quaternion) -> bool {
    let (before, after) = (one.rotate([0.0, 1.0, 0.0]), two.rotate([0.0, 1.0, 0.0]));
    before[0] * after[0] + before[1] * after[1] < 0.0
}

fn at_one_shelf() -> VQF {
    let mut reader = VQF::new(0.01, None, None, None);
    reader.update_acc([0.0, 0.0, 9.81]);
    reader.update_mag([20.0, 5.0, -40.0]);
    reader
}

fn turn_to_the_other(reader: &mut VQF) {
    reader.update_gyr_with_ts([0.0, 0.0, 3.0], 1.0);
    reader.update_mag([-19.1, -7.8, -40.0]);
}
