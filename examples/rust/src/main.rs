//! Squares the curve x + 1/2, reads its range and its value at 1/4, writes the same as a sheet, runs that, and shows a
//! refusal and a misuse.

#![forbid(unsafe_code)]

use hechroung::raw::{self, Handed};
use hechroung::{add, evaluate, lines, multiply, range, shares, write, Book, Model, Refusal, Step};
use hechroung::{LONGEST_SHEET, UNIT};

fn main() -> Result<(), Refusal> {
    let x = Model::variable(1, 1)?;
    let half = Model::constant(1, UNIT / 2)?;
    let sum = add(&x, &half)?;
    let square = multiply(2, &sum, &sum)?;
    let ends = range(&square)?;
    let value = evaluate(&square, [UNIT / 4, 0, 0, 0, 0, 0, 0, 0])?;

    println!("radius {}", square.radius);
    for (key, coefficient) in square.terms() {
        println!("term {} {coefficient}", key >> 28);
    }
    println!("range {} {}", ends.low, ends.high);
    println!("at 1/4 {} {}", value.low, value.high);

    // x, 1/2, their sum, its square, as the steps of a sheet in one variable of order 2.
    let steps = [
        Step {
            code: 2,
            v: 1,
            ..Step::default()
        },
        Step {
            code: 1,
            value: UNIT / 2,
            ..Step::default()
        },
        Step {
            code: 4,
            b: 1,
            ..Step::default()
        },
        Step {
            code: 6,
            a: 2,
            b: 2,
            ..Step::default()
        },
    ];
    let mut sheet = [0; LONGEST_SHEET];
    let length = write(&Book::new(1, 2, &[], &steps), &mut sheet)?;
    println!("sheet of {length} bytes");
    print!("{}", lines(&sheet[..length]));

    // Order 1, the second byte of the trailer, has no room for the square: the radius of step 3 is what was swept.
    sheet[length - 7] = 1;
    let report = shares(&sheet[..length])?;
    let (radius, row) = (report.summary.model.radius, report.shares[3]);
    println!(
        "with order 1: radius {radius} from {} {} {} {}",
        row.carried, row.rounding, row.swept, row.slack
    );

    // The second model is no model of one variable.
    let unfit = Model { n: 9, ..half };
    if let Err(refusal) = add(&x, &unfit) {
        println!("refused {} {}", refusal.number, refusal.place);
    }
    // The exported functions themselves take slices of any length.
    let number = raw::ends(1, Handed::NONE, &[], &mut []);
    println!("misused {number}");
    Ok(())
}
