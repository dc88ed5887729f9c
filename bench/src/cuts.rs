//! A range of a box cut into 64 pieces beside the 64 substitutions that it makes, in one run; each answer is compared
//! with the second implementation's. And how wide the ranges of some curves are by depth, beside their true ranges.

use crate::inputs::{factors_at, factors_in, Kind};
use crate::products::stored;
use crate::timing::{best, median};
use hechroung::{cut_range, substitute, Ends, Model, MOST_TERMS, UNIT};
use reference::cuts;
use reference::generate::Random;
use std::collections::BTreeMap;
use std::hint::black_box;

const SEEDS: u64 = 6;
const INPUTS: usize = 16;
const ROUNDS: usize = 40;
const DEEPEST: u8 = 6;
const PIECES: usize = 64;

/// Microseconds of a call, of its 64 substitutions, and of the second implementation's call.
type Times = [f64; 3];

pub fn print(seed: u64) {
    println!(
        "| Range of a cut box, {PIECES} pieces | Terms | Call, µs | {PIECES} substitutions, µs | \
         Ratio, median of {SEEDS} seeds | Lowest | Highest | Ours / second |"
    );
    println!("|---|---|---|---|---|---|---|---|");
    row("powers 0 to 14 of one variable", seed, |random| {
        let keys: Vec<u32> = (0..15).map(|power| power << 28).collect();
        (14, factors_at(random, 1, &keys, Kind::Quarters).0)
    });
    row("4 variables, degree up to 4", seed, |random| {
        (4, factors_in(random, 4, 15, 4, Kind::Quarters).0)
    });
    row("8 variables, degree up to 4", seed, |random| {
        (4, factors_in(random, 8, 15, 4, Kind::Quarters).0)
    });
    println!();
    widths();
}

/// Times models of one kind: each has its order.
fn row(name: &str, seed: u64, made: impl Fn(&mut Random) -> (u8, Model)) {
    let terms = made(&mut Random::new(seed)).1.count;
    let times: Vec<Times> = (seed..seed + SEEDS)
        .map(|seed| measured(&mut Random::new(seed), &made))
        .collect();
    let [call, substitutions, second] =
        [0, 1, 2].map(|way| median(times.iter().map(|times| times[way])));
    let ratios = || times.iter().map(|[call, several, _]| call / several);
    let lowest = ratios().fold(f64::INFINITY, f64::min);
    let highest = ratios().fold(0.0, f64::max);
    let middle = median(ratios());
    println!(
        "| {name} | {terms} | {call:.1} | {substitutions:.1} | {middle:.3} | {lowest:.3} | {highest:.3} | {:.3} |",
        call / second
    );
}

fn measured(random: &mut Random, made: &impl Fn(&mut Random) -> (u8, Model)) -> Times {
    let variable = 1;
    let mut inputs = Vec::new();
    while inputs.len() < INPUTS {
        let (order, model) = made(random);
        // Some have more than 64 terms on a piece.
        if let Ok(ends) = cut_range(order, variable, DEEPEST, &model) {
            let theirs = cuts::cut_range(&stored(&model), variable, DEEPEST, order).ends;
            let wide = (i128::from(ends.low), i128::from(ends.high));
            assert_eq!(
                wide,
                (theirs.low, theirs.high),
                "both implementations agree"
            );
            inputs.push((order, model));
        }
    }
    let pieces: Vec<Vec<Model>> = inputs
        .iter()
        .map(|(_, model)| (0..PIECES).map(|j| piece(model.n, j)).collect())
        .collect();
    best(ROUNDS, INPUTS, |way, input| {
        let (order, model) = &inputs[input];
        match way {
            0 => drop(black_box(cut_range(*order, variable, DEEPEST, model))),
            1 => pieces[input].iter().for_each(|piece| {
                let _ = black_box(substitute(*order, variable, model, piece));
            }),
            _ => drop(black_box(cuts::cut_range(
                &stored(model),
                variable,
                DEEPEST,
                *order,
            ))),
        }
    })
}

/// What is put in for variable 1 of n on piece j of 64.
fn piece(n: u8, j: usize) -> Model {
    let half = UNIT / PIECES as i64;
    let mut model = Model {
        n,
        count: 2,
        ..Model::ZERO
    };
    model.keys[1] = 1 << 28;
    model.coefficients[0] = -UNIT + (2 * j as i64 + 1) * half;
    model.coefficients[1] = half;
    model
}

// ---- widths by depth

/// A polynomial with whole coefficients over one number of parts, by the exponents of four variables.
#[derive(Clone)]
struct Polynomial {
    parts: i128,
    terms: BTreeMap<[u8; 4], i128>,
}

impl Polynomial {
    /// A constant and the multiples of the four variables, over so many parts.
    fn line(parts: i128, constant: i128, slopes: [i128; 4]) -> Polynomial {
        let mut terms = BTreeMap::from([([0; 4], constant)]);
        for (variable, slope) in slopes.into_iter().enumerate() {
            let mut exponents = [0; 4];
            exponents[variable] = 1;
            terms.insert(exponents, slope);
        }
        Polynomial { parts, terms }
    }

    fn times(&self, other: &Polynomial) -> Polynomial {
        let mut terms = BTreeMap::new();
        for (k, a) in &self.terms {
            for (l, b) in &other.terms {
                let mut exponents = *k;
                exponents.iter_mut().zip(l).for_each(|(e, f)| *e += f);
                *terms.entry(exponents).or_insert(0) += a * b;
            }
        }
        Polynomial {
            parts: self.parts * other.parts,
            terms,
        }
    }

    fn plus(&self, other: &Polynomial) -> Polynomial {
        let mut terms = BTreeMap::new();
        for (mine, parts) in [(self, other.parts), (other, self.parts)] {
            for (exponents, c) in &mine.terms {
                *terms.entry(*exponents).or_insert(0) += c * parts;
            }
        }
        Polynomial {
            parts: self.parts * other.parts,
            terms,
        }
    }

    /// Coefficients to the nearest unit; what that leaves goes into the radius, rounded up.
    fn model(&self, n: u8) -> Model {
        let unit = i128::from(UNIT);
        let mut model = Model { n, ..Model::ZERO };
        let mut left = 0;
        for (exponents, c) in &self.terms {
            let rounded = (2 * unit * c + self.parts).div_euclid(2 * self.parts);
            left += (unit * c - self.parts * rounded).abs();
            if rounded != 0 {
                let [a, b, c, d] = exponents.map(u32::from);
                assert!(model.count < MOST_TERMS, "there is room for the term");
                model.keys[model.count] = a << 28 | b << 24 | c << 20 | d << 16;
                model.coefficients[model.count] = i64::try_from(rounded).expect("it fits");
                model.count += 1;
            }
        }
        model.radius = u64::try_from((left + self.parts - 1) / self.parts).expect("it fits");
        model
    }

    fn value(&self, point: [f64; 4]) -> f64 {
        let term = |(exponents, c): (&[u8; 4], &i128)| {
            let powers = point.iter().zip(exponents);
            *c as f64 * powers.map(|(x, e)| x.powi((*e).into())).product::<f64>()
        };
        self.terms.iter().map(term).sum::<f64>() / self.parts as f64
    }

    /// The least value times a sign: the best point of a grid, then smaller and smaller steps from there.
    fn least(&self, n: usize, sign: f64) -> f64 {
        let steps = [4096, 512, 64, 24][n - 1];
        let at = |place: usize| 2.0 * place as f64 / steps as f64 - 1.0;
        let value = |point: [f64; 4]| sign * self.value(point);
        let mut found = ([0.0; 4], f64::INFINITY);
        let mut places = [0; 4];
        loop {
            let mut point = [0.0; 4];
            (0..n).for_each(|variable| point[variable] = at(places[variable]));
            let here = value(point);
            if here < found.1 {
                found = (point, here);
            }
            let Some(next) = (0..n).find(|&variable| places[variable] < steps) else {
                break;
            };
            places[..next].fill(0);
            places[next] += 1;
        }
        let mut step = 2.0 / steps as f64;
        while step > 1e-10 {
            let before = found.1;
            for variable in 0..n {
                for moved in [-step, step] {
                    let mut point = found.0;
                    point[variable] = (point[variable] + moved).clamp(-1.0, 1.0);
                    let there = value(point);
                    if there < found.1 {
                        found = (point, there);
                    }
                }
            }
            if found.1 >= before {
                step /= 2.0;
            }
        }
        found.1
    }
}

/// The curves of the table: a name, how many variables, an order and the polynomial.
fn curves() -> [(&'static str, usize, u8, Polynomial); 3] {
    let line = Polynomial::line;
    let half = line(2, 1, [2, 0, 0, 0]);
    let quarter = line(4, -1, [4, 0, 0, 0]);
    let third = line(3, 3, [1, 0, 0, 0]);
    let one = half
        .times(&half)
        .times(&quarter)
        .times(&quarter)
        .times(&quarter)
        .times(&third);
    let sum = line(4, -1, [4, 2, 0, 0]);
    let apart = line(1, 0, [1, -1, 0, 0]);
    let two = sum
        .times(&sum)
        .times(&sum)
        .plus(&apart.times(&apart).times(&line(2, 1, [0; 4])));
    let x = line(1, 0, [1, 0, 0, 0]);
    let bowl = line(1, 1, [1, 0, 0, 0]).plus(&x.times(&x));
    let four = bowl
        .times(&line(8, 8, [0, 1, 0, 0]))
        .times(&line(8, 8, [0, 0, -1, 0]))
        .plus(&line(4, 0, [0, 0, 0, 1]));
    [
        ("(x + 1/2)² (x - 1/4)³ (1 + x/3)", 1, 6, one),
        ("(x + y/2 - 1/4)³ + (x - y)²/2", 2, 3, two),
        ("(1 + x + x²) (1 + y/8) (1 - z/8) + w/4", 4, 4, four),
    ]
}

/// A row for each curve: the width of its true range, and how many times as wide the answer is at each depth.
fn widths() {
    println!("| Curve, x cut | Variables | True width | Depth 0 | 1 | 2 | 3 | 4 | 5 | 6 |");
    println!("|---|---|---|---|---|---|---|---|---|---|");
    for (name, n, order, polynomial) in curves() {
        let model = polynomial.model(n as u8);
        let truth = -polynomial.least(n, -1.0) - polynomial.least(n, 1.0);
        let widths = (0..=DEEPEST).map(|depth| {
            let Ends { low, high } = cut_range(order, 1, depth, &model).expect("it is accepted");
            format!("{:.3}", (high - low) as f64 / UNIT as f64 / truth)
        });
        let widths: Vec<String> = widths.collect();
        println!("| {name} | {n} | {truth:.6} | {} |", widths.join(" | "));
    }
    println!();
}
