//! A conductivity curve corrected by a temperature curve: the quotient from a proposal, as a single call and as a step,
//! then a poorer proposal, a refusal and a misuse. examples/quotient.md says what the lines mean.

#![forbid(unsafe_code)]

use hechroung::raw::{self, HandedModels};
use hechroung::{evaluate, multiply, quotient, range, run_book, subtract};
use hechroung::{Book, Model, Refusal, Step, UNIT};
use measured::measured;

const ORDER: u8 = 3;

fn main() -> Result<(), Refusal> {
    // x is the time of the milking, y the milk's temperature. Conductivity in mS/cm, to 0.02; the factor of the
    // temperature, to 0.001; both in thousandths. Keys: x has hex 1000_0000, y hex 0100_0000.
    let conductivities = [
        (0, 5600),
        (0x0100_0000, 600),
        (0x1000_0000, 500),
        (0x1100_0000, 50),
        (0x2000_0000, -200),
    ];
    let factors = [(0, 1240), (0x0100_0000, 60), (0x1000_0000, 10)];
    let conductivity = measured(2, 1000, 20, &conductivities);
    let temperature = measured(2, 1000, 1, &factors);

    let (h, w) = propose(&conductivity, &temperature, 2)?;
    let corrected = quotient(ORDER, &conductivity, &temperature, &h, &w)?;
    let ends = range(&corrected)?;
    // A point is in whole units; 5/8 and -1/4 are, where 0.6 and -0.3 would be another point.
    let value = evaluate(&corrected, [UNIT / 8 * 5, -UNIT / 4, 0, 0, 0, 0, 0, 0])?;
    println!("conductivity: radius {}", conductivity.radius);
    println!("temperature: radius {}", temperature.radius);
    println!("proposal: h of {} terms, w of {}", h.count, w.count);
    println!("radius {}", corrected.radius);
    for (key, coefficient) in corrected.terms() {
        println!("term {} {} {coefficient}", key >> 28, key >> 24 & 15);
    }
    println!("range {} {}", ends.low, ends.high);
    println!("at 5/8 -1/4 {} {}", value.low, value.high);

    // The same as a step: four inputs, then code 9 with f in a, g in b, step h in v and step w in value.
    let mut steps: Vec<Step> = (0..4).map(input).collect();
    steps.push(Step {
        code: 9,
        a: 0,
        b: 1,
        v: 2,
        value: 3,
    });
    let book = Book::new(2, ORDER, &[conductivity, temperature, h, w], &steps);
    let summary = run_book(&book)?;
    assert_eq!((summary.model, summary.range), (corrected, ends));

    // Without Newton's rule w is a constant. That is a proposal as well, only a poorer one.
    let (h, w) = propose(&conductivity, &temperature, 0)?;
    let poorer = quotient(ORDER, &conductivity, &temperature, &h, &w)?;
    println!("with a constant w: radius {}", poorer.radius);

    // The temperature's own variable is 0 somewhere: no proposal makes it a divisor.
    let y = Model::variable(2, 2)?;
    if let Err(refusal) = quotient(ORDER, &conductivity, &y, &h, &w) {
        println!("refused {} {}", refusal.number, refusal.place);
    }
    // The exported function itself takes slices of any length: here there are no models.
    let none = HandedModels {
        ns: &[],
        counts: &[],
        radii: &[],
        keys: &[],
        coefficients: &[],
    };
    let number = raw::quotient(ORDER, none, &mut [], &mut [], &mut []);
    println!("misused {number}");
    Ok(())
}

/// h near f / g and w near 1 / g, by the library's own calls. From the inverse of g's constant part, w <- w (2 - g w)
/// squares the distance from 1 / g in every round, up to the order; then h <- f w. Radii do not matter for a proposal
/// and are left away. g's first term is the constant one.
fn propose(f: &Model, g: &Model, rounds: usize) -> Result<(Model, Model), Refusal> {
    let (f, g) = (without_radius(*f), without_radius(*g));
    let two = Model::constant(f.n, 2 * UNIT)?;
    let mut w = Model::constant(f.n, UNIT * UNIT / g.coefficients[0])?;
    for _ in 0..rounds {
        let factor = subtract(&two, &multiply(ORDER, &g, &w)?)?;
        w = without_radius(multiply(ORDER, &w, &factor)?);
    }
    let h = without_radius(multiply(ORDER, &f, &w)?);
    Ok((h, w))
}

fn without_radius(model: Model) -> Model {
    Model { radius: 0, ..model }
}

fn input(model: u8) -> Step {
    Step {
        code: 0,
        a: model,
        ..Step::default()
    }
}
