//! Litres of a herd: the integrals of many runs added up, by their ends and without loss by their quotients and
//! remainders, and how much narrower the band of the total is. examples/totals.md says what the lines mean.

#![forbid(unsafe_code)]

use hechroung::{run_book, Book, Ends, Exact, Model, Refusal, Step, DENOMINATOR, UNIT};

const MILKINGS: i64 = 2000;
const ORDER: u8 = 4;
/// Minutes from the middle of a milking to its end, where x is 1.
const HALF_TIME: i64 = 3;

fn main() -> Result<(), Refusal> {
    // The flow times the minutes: the integral of the product is the milk of one milking.
    let steps = [(0, 0, 0), (1, 0, HALF_TIME * UNIT), (6, 1, 0)].map(|(code, b, value)| Step {
        code,
        b,
        value,
        ..Step::default()
    });
    let mut sum = Ends::default();
    let mut total = Exact::default();
    let mut radii = 0;
    for k in 0..MILKINGS {
        let summary = run_book(&Book::new(1, ORDER, &[flow(k)], &steps))?;
        sum.low += summary.integral.low;
        sum.high += summary.integral.high;
        total.quotient += summary.exact.quotient;
        total.remainder += summary.exact.remainder;
        radii += summary.model.radius as i64;
    }
    // What is a whole unit is carried; the radii count twice, as the box is 2 long.
    total.quotient += total.remainder / DENOMINATOR;
    total.remainder %= DENOMINATOR;
    let band = Ends {
        low: total.quotient - 2 * radii,
        high: total.quotient + 2 * radii + i64::from(total.remainder != 0),
    };
    assert!(sum.low <= band.low && band.high <= sum.high);

    let (wide, width) = (sum.high - sum.low, band.high - band.low);
    println!("milkings {MILKINGS} litres {}", total.quotient / UNIT);
    println!("sum of ends {} {} width {wide}", sum.low, sum.high);
    println!("exact {} {}", total.quotient, total.remainder);
    println!("band {} {} width {width}", band.low, band.high);
    println!(
        "narrower by {} units, to 1 part in {}",
        wide - width,
        wide / width
    );
    Ok(())
}

/// Litres a minute of milking k, each a little different. The meter counts in steps of 1/1024, which are whole units:
/// nothing is rounded, and the radius is 0. Keys: x has hex 1000_0000.
fn flow(k: i64) -> Model {
    let values = [
        2900 + 7 * k % 611,
        -650 + 13 * k % 301,
        -2000 - 11 * k % 407,
        310 + 5 * k % 97,
        -40 - 3 * k % 53,
    ];
    let mut flow = Model {
        count: values.len(),
        ..Model::ZERO
    };
    for (place, value) in values.into_iter().enumerate() {
        flow.keys[place] = (place as u32) << 28;
        flow.coefficients[place] = UNIT / 1024 * value;
    }
    flow
}
