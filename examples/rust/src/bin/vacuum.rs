//! A vacuum curve fitted in Chebyshev polynomials, corrected by the curve of its gauge, converted to powers and put
//! into a sheet, whose answer comes back as a curve; then a refusal and a misuse. examples/vacuum.md says what the lines
//! mean.

#![forbid(unsafe_code)]

use hechroung::raw::{self, HandedCurve};
use hechroung::{curves, range, run_book, Book, Model, Refusal, Step, UNIT};
use measured::measured_curve;

const ORDER: u8 = 15;
/// The vacuum that the machine is set to, in kPa.
const WANTED: i64 = 42;

fn main() -> Result<(), Refusal> {
    // x is the time of one pulse, from -1 to 1. Vacuum in kPa as the gauge reports it, to 0.05, and the factor of the
    // gauge, to 0.0005; coefficients of T_0, T_1 and on, in ten-thousandths.
    let reported = [412_350, -18_420, 9_870, -6_130, 3_360, -1_640, 830, -290];
    let vacuum = measured_curve(10_000, 500, &reported);
    let gauge = measured_curve(10_000, 5, &[10_040, -60, 25]);
    let corrected = curves::multiply(&vacuum, &gauge)?;
    println!("vacuum: radius {}", vacuum.radius);
    println!("gauge: radius {}", gauge.radius);
    println!("corrected: radius {}", corrected.radius);
    for (k, coefficient) in corrected.coefficients.iter().enumerate() {
        if *coefficient != 0 {
            println!("T {k} {coefficient}");
        }
    }
    let ends = curves::range(&corrected)?;
    println!("range {} {}", ends.low, ends.high);

    // The same polynomial in powers, and its radius: nothing is rounded. The range goes term by term and is wider.
    let powers = curves::to_powers(&corrected)?;
    println!("in powers: radius {}", powers.radius);
    for (key, coefficient) in powers.terms() {
        println!("term {} {coefficient}", key >> 28);
    }
    let ends = range(&powers)?;
    println!("range {} {}", ends.low, ends.high);

    // A sheet: the model, the constant, their difference. Its integral over the pulse is twice the mean.
    let steps = [(0, 0, 0), (1, 0, WANTED * UNIT), (5, 1, 0)].map(|(code, b, value)| Step {
        code,
        b,
        value,
        ..Step::default()
    });
    let summary = run_book(&Book::new(1, ORDER, &[powers], &steps))?;
    let (integral, ends) = (summary.integral, summary.range);
    println!("off: integral {} {}", integral.low, integral.high);
    println!("off: range {} {}", ends.low, ends.high);
    // Its answer as a curve: a conversion to powers can be undone, and the range is narrow again.
    let off = curves::from_powers(&summary.model)?;
    assert_eq!(off.coefficients[1..], corrected.coefficients[1..]);
    assert_eq!(off.radius, corrected.radius);
    let ends = curves::range(&off)?;
    println!(
        "as a curve: radius {} range {} {}",
        off.radius, ends.low, ends.high
    );

    // A model of two variables is no curve.
    if let Err(refusal) = curves::from_powers(&Model::variable(2, 1)?) {
        println!("refused {} {}", refusal.number, refusal.place);
    }
    // The exported function itself takes slices of any length: here there are no coefficients.
    let none = HandedCurve {
        coefficients: &[],
        radius: 0,
    };
    let number = raw::curve(raw::code::MULTIPLY, none, none, &mut [], &mut []);
    println!("misused {number}");
    Ok(())
}
