//! Coefficients from local ordinates, from Rust: a round trip in exact fractions. Coefficients and weights give the ordinates,
//! which are multiplied by their common denominator; from these whole numbers the call gives the coefficients back. Then one
//! ordinate is off by one, which no coefficients give. Prints the list of each step, a line each.

#[allow(dead_code)] // the example needs some of the calls
#[path = "../../rust/src/lib.rs"]
mod walzhik;

use walzhik::{Fraction, Reason, Refusal};

const BREAKS: [i32; 3] = [0, 30, 60];
const DEGREES: [i32; 2] = [3, 4];
const ORDERS: [i32; 1] = [2];
const COLUMNS: usize = 9;
/// In 256ths of a thousandth of a millimetre.
const COEFS: [Fraction; 6] = [whole(614400), whole(537600), Fraction { num: 2304004, den: 5 }, whole(332800), whole(281600), whole(230400)];

const fn whole(num: i64) -> Fraction {
    Fraction { num, den: 1 }
}

fn gcd(a: i64, b: i64) -> i64 {
    if b == 0 { a.abs() } else { gcd(b, a % b) }
}

fn lowest(num: i64, den: i64) -> Fraction {
    let divisor = gcd(num, den);
    Fraction { num: num / divisor, den: den / divisor }
}

fn add_product(sum: Fraction, a: Fraction, b: Fraction) -> Fraction {
    let product = lowest(a.num * b.num, a.den * b.den);
    lowest(sum.num * product.den + product.num * sum.den, sum.den * product.den)
}

/// The rows' combination: an exact ordinate for each column.
fn combined(weights: &walzhik::Weights) -> Vec<Fraction> {
    let on = |column| COEFS.iter().enumerate().fold(whole(0), |sum, (row, coef)| add_product(sum, *coef, weights.at(row, column).expect("a weight of the part")));
    (0..COLUMNS).map(on).collect()
}

fn print_list(name: &str, list: impl Iterator<Item = Fraction>) {
    let words: Vec<String> = list.map(|one| one.to_string()).collect();
    println!("{name}: {}", words.join(" "));
}

fn round_trip() -> Result<(), Refusal> {
    let exact = combined(&walzhik::build(&BREAKS, &DEGREES, &ORDERS)?);
    let scale = exact.iter().fold(1, |all, one| all / gcd(all, one.den) * one.den);
    let mut ordinates: Vec<i32> = exact.iter().map(|one| (one.num * (scale / one.den)) as i32).collect();
    print_list("coefficients", COEFS.into_iter());
    print_list("ordinates", exact.into_iter());
    print_list(&format!("times {scale}"), ordinates.iter().map(|one| whole(i64::from(*one))));

    let recovered = walzhik::coefficients(&BREAKS, &DEGREES, &ORDERS, &ordinates)?;
    print_list("recovered", recovered.iter().copied());
    print_list(&format!("over {scale}"), recovered.iter().map(|one| lowest(one.num, one.den * scale)));

    ordinates[4] += 1;
    match walzhik::coefficients(&BREAKS, &DEGREES, &ORDERS, &ordinates) {
        Err(refusal) if refusal.reason() == Reason::NoCoefficients => {
            println!("one off by one: {refusal}: join {} isn't met, so no coefficients give these ordinates", refusal.place);
            Ok(())
        }
        other => other.map(|_| ()),
    }
}

fn main() {
    if let Err(refusal) = round_trip() {
        eprintln!("{refusal}: {:?}", refusal.reason());
        std::process::exit(1);
    }
}
