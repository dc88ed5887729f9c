//! A bench log held against a meter's curve: which line contradicts it. examples/bench.md says what the lines mean.

#![forbid(unsafe_code)]

use hechroung::{evaluate, first_contradicting, Model, Reading, UNIT};
use std::error::Error;
use std::fs;

/// The meter and the bench count in steps of 1/1024, which are whole units: nothing is rounded.
const STEP: i64 = UNIT / 1024;

fn main() -> Result<(), Box<dyn Error>> {
    let meter = curve();
    let log = fs::read_to_string("examples/bench.log")?;
    let (mut lines, mut rows) = (Vec::new(), Vec::new());
    for (place, line) in log.lines().enumerate() {
        let numbers: Result<Vec<i64>, _> = line.split(' ').map(str::parse).collect();
        let (setting, low, high) = match numbers.as_deref() {
            Ok([setting, low, high]) => (setting, low, high),
            _ => continue,
        };
        let mut row = Reading {
            low: STEP * low,
            high: STEP * high,
            ..Reading::default()
        };
        row.point[0] = STEP * setting;
        lines.push(place + 1);
        rows.push(row);
    }
    println!("readings {}", rows.len());
    while let Some(reading) = first_contradicting(&meter, &rows)? {
        // Without it, the rest.
        let (line, row) = (lines.remove(reading), rows.remove(reading));
        let ends = evaluate(&meter, row.point)?;
        println!(
            "line {line} contradicts: read {} {} curve {} {}",
            row.low, row.high, ends.low, ends.high
        );
    }
    println!("of the other {} none contradicts", rows.len());
    Ok(())
}

/// Litres a minute over the pump's setting, within 20 steps, from the data sheet. Keys: x has hex 1000_0000.
fn curve() -> Model {
    let values = [2970, 666, -410, 82];
    let mut curve = Model {
        count: values.len(),
        radius: 20 * STEP as u64,
        ..Model::ZERO
    };
    for (place, value) in values.into_iter().enumerate() {
        curve.keys[place] = (place as u32) << 28;
        curve.coefficients[place] = STEP * value;
    }
    curve
}
