//! The pieces of case W1's earlywood curve as SVG path commands, from Rust: one piece a line.

#[allow(dead_code)] // the example needs some of the calls
#[path = "../../rust/src/lib.rs"]
mod walzhik;

use walzhik::{Pair, Piece, WoodPart};

/// The letter of the SVG command that draws a piece, and its ordinates.
fn command(piece: &Piece) -> (char, &[f64]) {
    match piece {
        Piece::Line(ordinates) => ('L', ordinates),
        Piece::Quadratic(ordinates) => ('Q', ordinates),
        Piece::Cubic(ordinates) => ('C', ordinates),
    }
}

fn main() {
    let coefs = [0, 100, 0, 0].map(|coef| Pair { earlywood: coef, latewood: coef });
    for segment in 0..2 {
        match walzhik::piece(WoodPart::Earlywood, &[0, 1, 3], &[2, 2], &[1], &coefs, segment) {
            Ok((piece, ends)) => {
                let (letter, ordinates) = command(&piece);
                let step = (ends.end - ends.start) / (ordinates.len() - 1) as f64;
                print!("M {} {} {letter}", ends.start, ordinates[0]);
                for (place, ordinate) in ordinates.iter().enumerate().skip(1) {
                    print!(" {} {ordinate}", ends.start + step * place as f64);
                }
                println!();
            }
            Err(refusal) => {
                eprintln!("{refusal}: {:?}", refusal.reason());
                std::process::exit(1);
            }
        }
    }
}
