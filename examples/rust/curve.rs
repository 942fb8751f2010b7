//! The curves of case W1 from Rust, each coefficient for both wood parts: prints a position with its two values a line.

#[allow(dead_code)] // the example needs some of the calls
#[path = "../../rust/src/lib.rs"]
mod walzhik;

fn main() {
    let coefs = [0, 100, 0, 0].map(|coef| walzhik::Pair { earlywood: coef, latewood: coef });
    let positions = [256, 512];
    match walzhik::curve(&[0, 1, 3], &[2, 2], &[1], &coefs, &positions) {
        Ok(values) => {
            for (position, value) in positions.iter().zip(values) {
                println!("{position},{}:{}", value.earlywood, value.latewood);
            }
        }
        Err(refusal) => {
            eprintln!("{refusal}: {:?}", refusal.reason());
            std::process::exit(1);
        }
    }
}
