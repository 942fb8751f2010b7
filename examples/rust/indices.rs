//! The indices of two measured rings against the earlywood curve of case W1, from Rust: prints ring and index, one pair a line.

#[allow(dead_code)] // the example needs some of the calls
#[path = "../../rust/src/lib.rs"]
mod walzhik;

use walzhik::{Pair, WoodPart};

fn main() {
    let coefs = [0, 100, 0, 0].map(|coef| Pair { earlywood: coef, latewood: coef });
    let first = 1;
    match walzhik::indices(WoodPart::Earlywood, &[0, 1, 3], &[2, 2], &[1], &coefs, first, &[50, 0]) {
        Ok(indices) => {
            for (ring, index) in (first..).zip(indices) {
                println!("{ring},{index}");
            }
        }
        Err(refusal) => {
            eprintln!("{refusal}: {:?}", refusal.reason());
            std::process::exit(1);
        }
    }
}
