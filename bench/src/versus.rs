//! Two builds of the library by turns in one run, on the same inputs: for each row the ratio of their times, new / old,
//! once for each seed. Every answer of one is compared with the other's, and the run stops where they differ.
//! usage: versus NEW.so OLD.so SEEDS [layout-2] [ranges-differ | integrals-differ]; with layout-2 the old build has
//! keys of 16 bits, and no row in 8 variables is timed. With the last word the ends of ranges, or those of integrals
//! and the exact ones, are not compared, for two builds with different rules for them. Of integrals the new ends must
//! then lie within the old ones

mod inputs;
mod loaded;
mod timing;

use hechroung::{Model, MOST_VARS, UNIT};
use inputs::{cubic, factors, factors_in, integrand, largest, largest_in, typical, up_to_degree};
use inputs::{draft_model, keys, quotient_models, Kind, Parity, STEPS, VARIABLES};
use loaded::{Borrowed, Layout, Library, ANTIDERIVATIVE};
use reference::book::{Step, INPUT, MULTIPLY};
use reference::generate::{Draft, Random};
use std::hint::black_box;
use timing::{best, median};

const PRODUCTS: usize = 64;
const SHEETS: usize = 16;
const PRODUCT_ROUNDS: usize = 300;
const SHEET_ROUNDS: usize = 60;
/// How many quotients, or substitutions, a sheet of them has.
const STEPS_ALIKE: usize = 11;
/// More than the longest record.
const ROOM: usize = 1_024;

/// What both builds have one rule for.
#[derive(Clone, Copy, PartialEq)]
enum Alike {
    All,
    AllButRanges,
    AllButIntegrals,
}

/// The new build and the old one.
type Builds = [Library; 2];

/// The times of both builds for one seed.
type Times = [f64; 2];

/// What is timed of a new seed's inputs.
type Measure = Box<dyn Fn(&Builds, &mut Random) -> Times>;

fn main() {
    let words: Vec<String> = std::env::args().skip(1).collect();
    let (words, alike) = match &words[..] {
        [first @ .., last] if last == "ranges-differ" => (first, Alike::AllButRanges),
        [first @ .., last] if last == "integrals-differ" => (first, Alike::AllButIntegrals),
        all => (all, Alike::All),
    };
    let ([new, old, seeds], layout) = (match words {
        [first @ .., last] if last == "layout-2" => (first, Layout::Two),
        all => (all, Layout::Now),
    }) else {
        panic!("usage: versus NEW.so OLD.so SEEDS [layout-2] [ranges-differ | integrals-differ]");
    };
    let seeds: u64 = seeds.parse().expect("SEEDS is a number");
    assert!(seeds > 0, "at least one seed");
    let builds = [Library::load(new, Layout::Now), Library::load(old, layout)];
    println!("| Seeds: {seeds} | New, µs | Old, µs | New / old, median | Lowest | Highest |");
    println!("|---|---|---|---|---|---|");
    let mut rows = rows(alike);
    if layout == Layout::Now {
        rows.extend(rows_of_eight(alike));
    }
    for (name, measure) in rows {
        let times: Vec<Times> = (0..seeds)
            .map(|seed| measure(&builds, &mut Random::new(seed)))
            .collect();
        print_row(name, &times);
    }
}

fn rows(alike: Alike) -> Vec<(&'static str, Measure)> {
    vec![
        (
            "product, sparse 64 x 64, refused",
            product(64, 15, Kind::Any),
        ),
        ("product, sparse 64 x 64, kept", product(64, 15, Kind::Kept)),
        ("product, dense 64 x 64", product(64, 4, Kind::Kept)),
        ("product, dense 15 x 15", product(15, 4, Kind::Kept)),
        ("product, dense 4 x 4", product(4, 4, Kind::Kept)),
        ("product, sparse 1 x 1", product(1, 15, Kind::Kept)),
        (
            "product, dense 15 x 1",
            product_of(4, |random| by_one_term(random, 15)),
        ),
        (
            "product, dense 64 x 1",
            product_of(4, |random| by_one_term(random, 64)),
        ),
        ("product, sparse 8 x 8", product(8, 15, Kind::Kept)),
        ("product, sparse 24 x 24", product(24, 15, Kind::Kept)),
        ("add, dense, 15 terms", call(4, 15, within_box)),
        ("add, dense, 64 terms", call(4, 64, within_box)),
        ("subtract, dense, 15 terms", call(5, 15, within_box)),
        ("negate, dense, 15 terms", call(3, 15, within_box)),
        ("sweep, dense, 15 terms", call(8, 15, within_box)),
        ("substitute, dense, 15 terms", call(7, 15, within_box)),
        ("substitute, 1 term into 15", call(7, 15, of_one_term)),
        ("substitute, 1 term into 64", call(7, 64, of_one_term)),
        (
            "antiderivative, dense, 64 terms",
            call(ANTIDERIVATIVE, 64, within_box),
        ),
        (
            "antiderivative, dense, 4 terms",
            call(ANTIDERIVATIVE, 4, within_box),
        ),
        ("range, sparse, 64 terms", range(64, 15, alike)),
        ("range, dense, 15 terms", range(15, 4, alike)),
        (
            "integral, sparse, 64 terms",
            integral(64, 15, Parity::Any, alike),
        ),
        (
            "integral, even, 64 terms",
            integral(64, 15, Parity::Even, alike),
        ),
        (
            "integral, dense, 15 terms",
            integral(15, 4, Parity::Any, alike),
        ),
        ("evaluate, dense, 15 terms", evaluate(15, 4)),
        ("run, typical", run(typical, alike)),
        (
            "run, substitutions, 4 terms",
            run(|random| substitutions(random, 4), alike),
        ),
        (
            "run, substitutions, 15 terms",
            run(|random| substitutions(random, 15), alike),
        ),
        (
            "run, quotients, 4 terms",
            run(|random| quotients(random, 4), alike),
        ),
        (
            "run, quotients, 15 terms",
            run(|random| quotients(random, 15), alike),
        ),
        ("run, largest", run(|random| largest(random, STEPS), alike)),
        (
            "run, largest, 1 step",
            run(|random| largest(random, 1), alike),
        ),
        (
            "run, largest, 8 steps",
            run(|random| largest(random, 8), alike),
        ),
        ("tests 1 to 6, largest", Box::new(tests)),
    ]
}

/// What both builds can do in 8 variables.
fn rows_of_eight(alike: Alike) -> Vec<(&'static str, Measure)> {
    vec![
        (
            "8 variables, product, sparse 64 x 64, kept",
            product_of(15, |random| factors_in(random, 8, 64, 15, Kind::Kept)),
        ),
        (
            "8 variables, product, all up to degree 1",
            product_of(2, |random| up_to_degree(random, 1)),
        ),
        (
            "8 variables, product, all up to degree 2",
            product_of(2, |random| up_to_degree(random, 2)),
        ),
        (
            "8 variables, product, 1 and 63 of degree 3",
            product_of(3, cubic),
        ),
        (
            "8 variables, run, largest",
            run(|random| largest_in(random, 8, STEPS), alike),
        ),
    ]
}

fn product(terms: usize, order: u8, kind: Kind) -> Measure {
    product_of(order, move |random| factors(random, terms, order, kind))
}

fn product_of(order: u8, factors: impl Fn(&mut Random) -> (Model, Model) + 'static) -> Measure {
    Box::new(move |builds, random| {
        let pairs: Vec<_> = (0..PRODUCTS)
            .map(|_| factors(random))
            .map(|(f, g)| (Borrowed::new(f), Borrowed::new(g)))
            .collect();
        for (f, g) in &pairs {
            let answer = |build: &Library| build.multiply(order, f, g).widened();
            let [new, old] = builds.each_ref().map(answer);
            assert_eq!(new, old, "both builds give one product");
        }
        best(PRODUCT_ROUNDS, PRODUCTS, |way, input| {
            let (f, g) = &pairs[input];
            let _ = black_box(builds[way].multiply(order, f, g));
        })
    })
}

/// The single call that a code names, of dense models in four variables with order 4, in variable 4; a sweep at a
/// threshold that drops most terms. The second model is made so small that it may be put in for a variable.
fn call(code: u8, terms: usize, small: fn(Model) -> Model) -> Measure {
    const ORDER: u8 = 4;
    const VARIABLE: u8 = 4;
    const THRESHOLD: i64 = 50;
    Box::new(move |builds, random| {
        let pairs: Vec<_> = (0..PRODUCTS)
            .map(|_| factors(random, terms, ORDER, Kind::Kept))
            .map(|(f, g)| (Borrowed::new(f), Borrowed::new(small(g))))
            .collect();
        let answer = |build: &Library, f, g| build.called(code, ORDER, VARIABLE, THRESHOLD, f, g);
        for (f, g) in &pairs {
            let [new, old] = builds.each_ref().map(|build| answer(build, f, g).widened());
            assert_eq!(new, old, "both builds give one model");
            assert_eq!(new.refusal, 0, "the call is accepted");
        }
        best(PRODUCT_ROUNDS, PRODUCTS, |way, input| {
            let (f, g) = &pairs[input];
            let _ = black_box(answer(&builds[way], f, g));
        })
    })
}

/// The model with half of its constant coefficient, so that it may be put in for a variable.
fn within_box(mut model: Model) -> Model {
    model.coefficients[0] /= 2;
    model
}

/// Its constant term alone, halved.
fn of_one_term(model: Model) -> Model {
    let mut one = Model {
        n: model.n,
        count: 1,
        radius: model.radius,
        ..Model::ZERO
    };
    one.keys[0] = model.keys[0];
    one.coefficients[0] = model.coefficients[0];
    within_box(one)
}

/// A dense factor and one of one term.
fn by_one_term(random: &mut Random, terms: usize) -> (Model, Model) {
    let (f, g) = factors(random, terms, 4, Kind::Kept);
    (f, of_one_term(g))
}

/// A sheet that puts a model of this many terms into another, over and over.
fn substitutions(random: &mut Random, terms: usize) -> Vec<u8> {
    let keys = keys(random, terms, 4);
    let models = (0..2).map(|_| draft_model(random, &keys)).collect();
    let mut steps: Vec<Step> = (0..2).map(|number| Step::one(INPUT, number)).collect();
    steps.push(Step::constant((UNIT / 2) as i32));
    steps.push(Step::two(MULTIPLY, 1, 2));
    steps.extend((0..STEPS_ALIKE).map(|_| Step::substitute(0, 3, VARIABLES)));
    Draft::new(VARIABLES, 4, models, steps).bytes()
}

/// A sheet of quotients of models of this many terms.
fn quotients(random: &mut Random, terms: usize) -> Vec<u8> {
    let models = quotient_models(random, terms, 4);
    let mut steps: Vec<Step> = (0..4).map(|number| Step::one(INPUT, number)).collect();
    steps.extend((0..STEPS_ALIKE).map(|_| Step::quotient(0, 1, 2, 3)));
    Draft::new(VARIABLES, 4, models, steps).bytes()
}

fn range(terms: usize, order: u8, alike: Alike) -> Measure {
    Box::new(move |builds, random| {
        let models: Vec<_> = (0..PRODUCTS)
            .map(|_| Borrowed::new(factors(random, terms, order, Kind::Kept).0))
            .collect();
        for f in &models {
            let [new, old] = builds.each_ref().map(|build| build.range(f));
            assert!(
                alike == Alike::AllButRanges || new == old,
                "both builds give one range"
            );
        }
        best(PRODUCT_ROUNDS, PRODUCTS, |way, input| {
            let _ = black_box(builds[way].range(&models[input]));
        })
    })
}

/// The integral of models of which each term counts, or only those that happen to be even in every variable.
fn integral(terms: usize, order: u8, parity: Parity, alike: Alike) -> Measure {
    Box::new(move |builds, random| {
        let models: Vec<_> = (0..PRODUCTS)
            .map(|_| Borrowed::new(integrand(random, terms, order, parity)))
            .collect();
        for f in &models {
            let [new, old] = builds.each_ref().map(|build| build.integral(f));
            if alike == Alike::AllButIntegrals {
                assert_inside([new[0], new[1]], [old[0], old[1]]);
            } else {
                assert_eq!(new, old, "both builds give one integral");
            }
        }
        best(PRODUCT_ROUNDS, PRODUCTS, |way, input| {
            let _ = black_box(builds[way].integral(&models[input]));
        })
    })
}

fn evaluate(terms: usize, order: u8) -> Measure {
    const POINT: [i64; MOST_VARS] = [UNIT / 2, -UNIT / 3, UNIT / 5, -UNIT / 7, 0, 0, 0, 0];
    Box::new(move |builds, random| {
        let models: Vec<_> = (0..PRODUCTS)
            .map(|_| Borrowed::new(factors(random, terms, order, Kind::Kept).0))
            .collect();
        for f in &models {
            let [new, old] = builds.each_ref().map(|build| build.evaluate(f, &POINT));
            assert_eq!(new, old, "both builds give one value");
        }
        best(PRODUCT_ROUNDS, PRODUCTS, |way, input| {
            let _ = black_box(builds[way].evaluate(&models[input], &POINT));
        })
    })
}

fn assert_inside(new: [i64; 2], old: [i64; 2]) {
    let inside = old[0] <= new[0] && new[1] <= old[1];
    assert!(
        inside,
        "the new ends {new:?} lie within the old ones {old:?}"
    );
}

fn run(sheet: impl Fn(&mut Random) -> Vec<u8> + 'static, alike: Alike) -> Measure {
    Box::new(move |builds, random| {
        let sheets: Vec<_> = (0..SHEETS).map(|_| sheet(random)).collect();
        for sheet in &sheets {
            let answers = builds.each_ref().map(|build| build.run(sheet).widened());
            if alike == Alike::AllButIntegrals {
                assert_inside(answers[0].integral(), answers[1].integral());
            }
            let [new, old] = answers.map(|answer| match alike {
                Alike::All => answer,
                Alike::AllButRanges => answer.without_range(),
                Alike::AllButIntegrals => answer.without_integral(),
            });
            assert_eq!(new, old, "both builds give one result");
            assert_eq!(new.refusal, 0, "the sheet is accepted");
        }
        best(SHEET_ROUNDS, SHEETS, |way, input| {
            let _ = black_box(builds[way].run(&sheets[input]));
        })
    })
}

/// A record that there is none of is asked for, which makes all tests and copies nothing.
fn tests(builds: &Builds, random: &mut Random) -> Times {
    let sheets: Vec<_> = (0..SHEETS).map(|_| largest(random, STEPS)).collect();
    for sheet in &sheets {
        let [new, old] = builds.each_ref().map(|build| records(build, sheet));
        assert_eq!(new, old, "both builds give the same records");
    }
    best(SHEET_ROUNDS, SHEETS, |way, input| {
        let _ = black_box(builds[way].record(&sheets[input], usize::MAX, &mut []));
    })
}

/// All records of a sheet.
fn records(build: &Library, sheet: &[u8]) -> Vec<Vec<u8>> {
    let mut room = [0; ROOM];
    let mut records = Vec::new();
    loop {
        let length = build.record(sheet, records.len(), &mut room);
        if length == 0 {
            return records;
        }
        records.push(room[..length].to_vec());
    }
}

fn print_row(name: &str, times: &[Times]) {
    let [new, old] = [0, 1].map(|way| median(times.iter().map(|times| times[way])));
    let ratios = || times.iter().map(|[new, old]| new / old);
    let lowest = ratios().fold(f64::INFINITY, f64::min);
    let highest = ratios().fold(0.0, f64::max);
    let middle = median(ratios());
    println!("| {name} | {new:.2} | {old:.2} | {middle:.3} | {lowest:.3} | {highest:.3} |");
}
