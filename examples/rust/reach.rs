//! When the curves of case W9, with a discontinuity at ring 1, reach some widths, from Rust: prints width and position, one pair a line.

#[allow(dead_code)] // the example needs some of the calls
#[path = "../../rust/src/lib.rs"]
mod walzhik;

use walzhik::{Pair, WoodPart};

fn main() {
    let coefs = [0, 10, 20, 30].map(|coef| Pair { earlywood: coef, latewood: coef });
    for width in [0, 10, 20, 30, 31] {
        match walzhik::reach(WoodPart::Earlywood, &[0, 1, 2], &[1, 1], &[-1], &coefs, width) {
            Ok(position) => println!("{width},{position}"),
            Err(refusal) => println!("{width},{refusal}"),
        }
    }
}
