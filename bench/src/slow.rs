//! A search for sheets that run slowly, by their time for each product that they make. Windows of home slots, or of the
//! numbers after them that sums keep, and hill climbing look for factors whose products meet in the table's searches;
//! substitutions and quotients make many products by one step. The slowest of each kind is printed beside the
//! benchmark's largest sheet of as many variables.

use crate::inputs::{all_of_degree, keys_in, largest_in, shift, ORDER, STEPS};
use crate::timing::median;
use reference::book::{Step, INPUT, MULTIPLY};
use reference::generate::{Draft, DraftModel, Random};
use std::hint::black_box;
use std::ops::RangeInclusive;
use std::time::Instant;

/// A number of a wide key, by which windows of keys are chosen.
type Number = fn(u64) -> u64;

const WINDOWS: usize = 5_000;
const CLIMBS: usize = 20;
const CLIMB_STEPS: usize = 200;
const SUBSTITUTIONS: usize = 1_000;
const QUOTIENTS: usize = 1_000;
const TERMS: usize = 64;
const MODELS: usize = 16;
/// How often a sheet is run in the search, and how often to be sure of one of the slowest.
const RUNS: usize = 2;
const SURE_RUNS: usize = 40;
/// So many of the slowest are run again.
const SLOWEST: usize = 16;
/// The largest coefficient of most models: no sum of products of two is rounded to anything but 0, so that no product
/// has too many terms.
const SMALL: i64 = 60;
/// What product_hash_slots multiplies by where only variables 1 to 4 occur.
const HIGH_FACTOR: u64 = 1_555_934_479;

/// Sheets of n variables with factors in some of them alone.
struct Field {
    n: u8,
    variables: RangeInclusive<u8>,
    /// All keys of degree up to the order in these variables.
    all: Vec<u32>,
}

impl Field {
    fn new(n: u8, variables: RangeInclusive<u8>) -> Field {
        let all = (0..=ORDER).flat_map(|degree| all_of_degree(variables.clone(), degree));
        Field {
            n,
            all: all.collect(),
            variables,
        }
    }

    fn keys(&self, random: &mut Random, terms: usize, order: u8) -> Vec<u32> {
        keys_in(random, self.variables.clone(), terms, order)
    }

    /// All keys in the order of a number of their wide keys.
    fn by(&self, number: fn(u64) -> u64) -> Vec<u32> {
        let mut keys = self.all.clone();
        keys.sort_by_key(|&key| number(wide(key)));
        keys
    }
}

pub fn print(random: &mut Random) {
    for (n, variables) in [(4, 1..=4), (8, 1..=8), (8, 5..=8)] {
        let (first, last) = variables.clone().into_inner();
        println!(
            "| {n} variables, factors in {first} to {last} | Tries | Slowest, µs a product | \
             Largest sheet, µs a product | Ratio |"
        );
        println!("|---|---|---|---|---|");
        print_field(random, &Field::new(n, variables));
        println!();
    }
}

fn print_field(random: &mut Random, field: &Field) {
    let largest = (0..16).map(|_| Candidate {
        bytes: largest_in(random, field.n, STEPS),
        products: STEPS - 2,
    });
    let usual = median(largest.map(|sheet| sheet.time(SURE_RUNS)));
    let numbers: [(&str, Number); 2] = [
        ("windows of home slots", mixed),
        ("windows of sums that sums keep", kept_by_sums),
    ];
    for (name, number) in numbers {
        let keys = field.by(number);
        row(name, WINDOWS, usual, || {
            let window = |random: &mut Random| {
                let start = random.size(0, keys.len() - 1);
                let around = keys.iter().cycle().skip(start).take(TERMS);
                around.copied().collect::<Vec<u32>>()
            };
            let windows: Vec<Vec<u32>> = (0..MODELS).map(|_| window(random)).collect();
            products(random, field.n, &windows)
        });
    }
    let mut climb = Climb::new(random, field);
    let climbs = CLIMBS * CLIMB_STEPS;
    let mut step = 0;
    row("hill climbing on entries passed", climbs, usual, || {
        if step % CLIMB_STEPS == 0 {
            climb = Climb::new(random, field);
        }
        step += 1;
        climb.step(random, field);
        products(random, field.n, &climb.factors)
    });
    row("substitutions", SUBSTITUTIONS, usual, || {
        substitution(random, field)
    });
    row("quotients", QUOTIENTS, usual, || quotient(random, field));
}

fn row(name: &str, tries: usize, usual: f64, mut make: impl FnMut() -> Candidate) {
    let mut slowest: Vec<(f64, Candidate)> = Vec::new();
    for _ in 0..tries {
        let candidate = make();
        slowest.push((candidate.time(RUNS), candidate));
        slowest.sort_by(|(a, _), (b, _)| b.total_cmp(a));
        slowest.truncate(SLOWEST);
    }
    let time = slowest
        .iter()
        .map(|(_, candidate)| candidate.time(SURE_RUNS))
        .fold(0.0, f64::max);
    println!(
        "| {name} | {tries} | {time:.2} | {usual:.2} | {:.2} |",
        time / usual
    );
}

/// A sheet, and how many products it makes.
struct Candidate {
    bytes: Vec<u8>,
    products: usize,
}

impl Candidate {
    fn new(products: usize, draft: Draft) -> Candidate {
        let bytes = draft.bytes();
        hechroung::run(&bytes).expect("a sheet that is timed is accepted");
        Candidate { bytes, products }
    }

    /// Microseconds a product, the best of so many runs.
    fn time(&self, runs: usize) -> f64 {
        let mut best = f64::INFINITY;
        for _ in 0..runs {
            let started = Instant::now();
            let _ = black_box(hechroung::run(&self.bytes));
            best = best.min(started.elapsed().as_secs_f64() * 1e6);
        }
        best / self.products as f64
    }
}

/// As many products as a sheet can have of models with these keys, one of the first half with one of the second; of
/// many models the pairs are so many that no branch predictor learns them.
fn products(random: &mut Random, n: u8, keys: &[Vec<u32>]) -> Candidate {
    let models: Vec<DraftModel> = keys.iter().map(|keys| small(random, keys)).collect();
    let count = models.len() as u8;
    let mut steps: Vec<Step> = (0..count).map(|number| Step::one(INPUT, number)).collect();
    while steps.len() < STEPS {
        let first = random.byte(0, count / 2 - 1);
        let second = random.byte(count / 2, count - 1);
        steps.push(Step::two(MULTIPLY, first, second));
    }
    let draft = Draft::new(n, ORDER, models, steps);
    Candidate::new(STEPS - usize::from(count), draft)
}

fn small(random: &mut Random, keys: &[u32]) -> DraftModel {
    let mut terms: Vec<(u32, i32)> = keys
        .iter()
        .map(|&key| (key, (random.between(1, SMALL) * random.sign()) as i32))
        .collect();
    terms.sort_unstable();
    DraftModel::wide(0, &terms)
}

// ---- where the table's searches go
/// The exponents of a key, in the places of a wide key: seven bits each above the lowest eight, which hold their sum.
fn wide(key: u32) -> u64 {
    let exponents = [1, 2, 3, 4, 5, 6, 7, 8].map(|v| u64::from(key >> shift(v) & 15));
    let upper = exponents.iter().fold(0, |number, e| number << 7 | e);
    (upper << 8) + exponents.iter().sum::<u64>()
}

/// What the number of a sum of two keys is the sum of: the halves of a wide key, the lower one times a factor.
fn joined(key: u64) -> u64 {
    ((key & 0xFFFF_FFFF) * 3_247_425_551 + (key >> 32)) & 0xFFFF_FFFF
}

/// The number that says where the search for a wide key begins.
fn mixed(key: u64) -> u64 {
    let last = (key & 0xFFFF_FFFF) >> 8;
    (joined(key) * (2 * last + HIGH_FACTOR)) & 0xFFFF_FFFF
}

/// The same without what the last variables add to the factor: of a sum of two keys it is the sum.
fn kept_by_sums(key: u64) -> u64 {
    (joined(key) * HIGH_FACTOR) & 0xFFFF_FFFF
}

/// The bits by which a search goes on: the exponents of variables 1 to 4, moved on by what stands below, then that.
fn way(key: u64) -> u64 {
    let lower = key % (1 << 36);
    let first = (key >> 36) + ((lower * 0x9E3_779B) >> 36);
    first % (1 << 28) + (lower << 28)
}

/// How many entries the searches of all products pass.
fn passed(f: &[u32], g: &[u32]) -> usize {
    let homes = 4 * f.len() * g.len();
    let mut slots = vec![0_usize; homes + 2 * (f.len() * g.len() + 1)];
    let mut entries = vec![0_u64];
    let mut passed = 0;
    for &a in f {
        for &b in g {
            let key = wide(a) + wide(b);
            let mut slot = ((mixed(key) * homes as u64) >> 32) as usize;
            let mut bits = way(key);
            while slots[slot] != 0 && entries[slots[slot]] != key {
                slot = homes + 2 * slots[slot] + (bits % 2) as usize;
                bits /= 2;
                passed += 1;
            }
            if slots[slot] == 0 {
                slots[slot] = entries.len();
                entries.push(key);
            }
        }
    }
    passed
}

/// Factors that are changed key by key, unless fewer entries are passed then.
struct Climb {
    factors: [Vec<u32>; 2],
    passed: usize,
}

impl Climb {
    fn new(random: &mut Random, field: &Field) -> Climb {
        let factors = [(); 2].map(|()| field.keys(random, TERMS, ORDER));
        Climb {
            passed: passed(&factors[0], &factors[1]),
            factors,
        }
    }

    fn step(&mut self, random: &mut Random, field: &Field) {
        let which = random.size(0, 1);
        let place = random.size(0, TERMS - 1);
        let key = *random.pick(&field.all);
        if self.factors[which].contains(&key) {
            return;
        }
        let old = std::mem::replace(&mut self.factors[which][place], key);
        let now = passed(&self.factors[0], &self.factors[1]);
        if now < self.passed {
            self.factors[which][place] = old;
        } else {
            self.passed = now;
        }
    }
}

// ---- steps that make many products
/// Substitutions for a variable, each of as many products as its highest power.
fn substitution(random: &mut Random, field: &Field) -> Candidate {
    let mut f = field.keys(random, TERMS - 1, ORDER);
    let variable = *field.variables.end();
    let highest = random.byte(8, 15);
    f.retain(|key| key >> shift(variable) & 15 <= u32::from(highest));
    f.push(u32::from(highest) << shift(variable));
    f.sort_unstable();
    f.dedup();
    let g = field.keys(random, TERMS, ORDER);
    let models = [&f, &g].map(|keys| small(random, keys)).to_vec();
    let mut steps = vec![Step::one(INPUT, 0), Step::one(INPUT, 1)];
    steps.resize(STEPS, Step::substitute(0, 1, variable));
    let draft = Draft::new(field.n, ORDER, models, steps);
    Candidate::new((STEPS - 2) * usize::from(highest), draft)
}

/// Quotients, each of three products.
fn quotient(random: &mut Random, field: &Field) -> Candidate {
    let near_one = |random: &mut Random, keys: &[u32]| {
        let mut model = small(random, keys);
        model.terms[0] = (0, 1 << 20);
        model
    };
    let order = *random.pick(&[4, 8, ORDER]);
    let at = field.keys(random, TERMS, order);
    let models = (0..4).map(|_| near_one(random, &at)).collect();
    let mut steps: Vec<Step> = (0..4).map(|number| Step::one(INPUT, number)).collect();
    steps.resize(STEPS, Step::quotient(0, 1, 2, 3));
    let draft = Draft::new(field.n, order, models, steps);
    Candidate::new(3 * (STEPS - 4), draft)
}
