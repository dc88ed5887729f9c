//! Flow over the milking time in, litres gathered out, with the band at the end of milking: the antiderivative as a
//! single call and as a step, then a lower order, a refusal and a misuse. examples/litres.md says what the lines mean.

#![forbid(unsafe_code)]

use hechroung::raw::{self, Handed};
use hechroung::{antiderivative, evaluate, multiply, shares_book, substitute, subtract};
use hechroung::{Book, Model, Refusal, Step, UNIT};
use measured::measured;

const ORDER: u8 = 4;
/// Minutes from the middle of the milking to its end, where x is 1.
const HALF_TIME: i64 = 3;

fn main() -> Result<(), Refusal> {
    // Litres a minute, to 0.05: 3.20 - 0.60 x - 2.40 x^2 + 0.40 x^3, in hundredths. Keys: x has hex 1000_0000.
    let terms = [
        (0, 320),
        (0x1000_0000, -60),
        (0x2000_0000, -240),
        (0x3000_0000, 40),
    ];
    let flow = measured(1, 100, 5, &terms);
    let litres = gathered(ORDER, &flow)?;
    println!("flow: radius {}", flow.radius);
    println!("radius {}", litres.radius);
    for (key, coefficient) in litres.terms() {
        println!("term {} {coefficient}", key >> 28);
    }
    for (minutes, x) in [(0, -UNIT), (3, 0), (6, UNIT)] {
        let value = evaluate(&litres, [x, 0, 0, 0, 0, 0, 0, 0])?;
        println!("after {minutes} minutes {} {}", value.low, value.high);
    }

    // The same as a sheet: the antiderivative is code 10, with its step in a and its variable in v.
    let steps = [
        (0, 0, 0, 0, 0),
        (10, 0, 0, 1, 0),
        (1, 0, 0, 0, -UNIT),
        (7, 1, 2, 1, 0),
        (5, 1, 3, 0, 0),
        (1, 0, 0, 0, HALF_TIME * UNIT),
        (6, 4, 5, 0, 0),
    ];
    let steps = steps.map(|(code, a, b, v, value)| Step {
        code,
        a,
        b,
        v,
        value,
    });
    let book = Book::new(1, ORDER, &[flow], &steps);
    let report = shares_book(&book)?;
    assert_eq!(report.summary.model, litres);
    let row = report.shares[6];
    println!(
        "carried, rounding, swept, slack: {} {} {} {}",
        row.carried, row.rounding, row.swept, row.slack
    );

    // One order less has no room for the fourth power: it goes into the radius.
    println!("with order 3: radius {}", gathered(3, &flow)?.radius);

    // The flow has no second variable.
    if let Err(refusal) = antiderivative(ORDER, 2, &flow) {
        println!("refused {} {}", refusal.number, refusal.place);
    }
    // The exported function itself takes slices of any length: here there is no room for the answer.
    let none = Handed::NONE;
    let number = raw::call(
        raw::code::ANTIDERIVATIVE,
        ORDER,
        1,
        0,
        none,
        none,
        &mut [],
        &mut [],
        &mut [],
    );
    println!("misused {number}");
    Ok(())
}

/// Litres since the start, where x is -1: the antiderivative is 0 in the middle, so its value at the start goes off.
fn gathered(order: u8, flow: &Model) -> Result<Model, Refusal> {
    let from_middle = antiderivative(order, 1, flow)?;
    let start = Model::constant(1, -UNIT)?;
    let at_start = substitute(order, 1, &from_middle, &start)?;
    let since_start = subtract(&from_middle, &at_start)?;
    let half_time = Model::constant(1, HALF_TIME * UNIT)?;
    multiply(order, &since_start, &half_time)
}
