//! Rows of readings held against a model, by both implementations: what the exported function stores, with slices that
//! are long enough and with each of them one place too short, what the wrapper hands out, the single evaluations before
//! the first contradiction, and that no function within the model passes through the reading that contradicts.

use crate::agree::{self, pair, same, to_model};
use hechroung::raw::{self, Handed, HandedReadings, MISUSED};
use hechroung::{evaluate, first_contradicting, Model, Reading, MOST_VARS};
use reference::exact::readings::is_passed_through;
use reference::generate::readings::{call, KINDS};
use reference::generate::Random;
use reference::model::LARGEST_DEGREE;
use reference::readings::{Call, ReadingsAnswer, MOST_READINGS};
use std::collections::{BTreeMap, BTreeSet};

/// What stands in a slice before a call.
const BEFORE: u64 = 0xA5A5_A5A5_A5A5_A5A5;
/// Of each named way to make a row so many are compared whatever the seed.
const NAMED: usize = 60;
/// The refusals that rows have to reach, and those that they have to reach at so many places, as the contradiction too.
const REFUSALS: [u8; 5] = [5, 6, 7, 9, 15];
const AT_MANY_PLACES: [u8; 4] = [6, 7, 9, 15];
const MANY_PLACES: usize = 100;

/// What rows were answered with.
#[derive(Default)]
pub struct Seen {
    rows: u64,
    none: u64,
    contradicted: BTreeMap<usize, u64>,
    refused: BTreeMap<u8, BTreeMap<usize, u64>>,
    lengths: BTreeSet<usize>,
    passed_through: u64,
}

/// Rows that are compared whatever the seed.
pub fn named() -> Vec<Call> {
    let mut random = Random::new(12);
    let mut made = |_| KINDS.map(|kind| (kind.make)(&mut random).0);
    (0..NAMED).flat_map(&mut made).collect()
}

/// A generated row.
pub fn row(seed: u64, number: u64) -> Call {
    call(seed, number)
}

/// The slices of a row.
struct Flat {
    points: Vec<i64>,
    lows: Vec<i64>,
    highs: Vec<i64>,
}

impl Flat {
    fn of(rows: &[Reading]) -> Flat {
        Flat {
            points: rows.iter().flat_map(|row| row.point).collect(),
            lows: rows.iter().map(|row| row.low).collect(),
            highs: rows.iter().map(|row| row.high).collect(),
        }
    }

    fn handed(&self) -> HandedReadings<'_> {
        HandedReadings {
            points: &self.points,
            lows: &self.lows,
            highs: &self.highs,
        }
    }
}

/// The number that is returned and what the slice of so many places then holds.
fn stored(f: Handed<'_>, rows: HandedReadings<'_>, places: usize) -> (u8, Vec<u64>) {
    let mut numbers = vec![BEFORE; places];
    let number = raw::readings(f, rows, &mut numbers);
    (number, numbers)
}

/// The second implementation's answer as it has to be stored.
fn translated(expected: &ReadingsAnswer, places: usize) -> (u8, Vec<u64>) {
    let (number, first) = match expected {
        ReadingsAnswer::NoneContradicts => (0, [0, 0, 0]),
        ReadingsAnswer::Contradicts(reading) => (0, [0, 1, *reading as u64]),
        ReadingsAnswer::Refused(refusal) => {
            let (number, place) = pair(*refusal);
            (number, [place as u64, 0, 0])
        }
    };
    let mut numbers = vec![BEFORE; places];
    numbers[..3].copy_from_slice(&first);
    (number, numbers)
}

/// The same row with each slice in turn one place too short: nothing may be changed.
fn short_slices(f: Handed<'_>, flat: &Flat) -> Result<(), String> {
    let rows = flat.handed();
    same(&stored(f, rows, 2), &(MISUSED, vec![BEFORE; 2]))?;
    let misused = (MISUSED, vec![BEFORE; 3]);
    let places = f.count.min(f.keys.len());
    if let Some(fewer) = places.checked_sub(1) {
        let (keys, coefficients) = (&f.keys[..fewer], &f.coefficients[..fewer]);
        same(&stored(Handed { keys, ..f }, rows, 3), &misused)?;
        same(&stored(Handed { coefficients, ..f }, rows, 3), &misused)?;
    }
    if let Some(fewer) = flat.lows.len().checked_sub(1) {
        let points = &flat.points[..flat.points.len() - 1];
        same(&stored(f, HandedReadings { points, ..rows }, 3), &misused)?;
        let highs = &flat.highs[..fewer];
        same(&stored(f, HandedReadings { highs, ..rows }, 3), &misused)?;
    }
    Ok(())
}

/// Every reading before the one that contradicts, or all of them, has a number in common with the single evaluation.
fn single_evaluations(
    f: &Model,
    rows: &[Reading],
    expected: &ReadingsAnswer,
) -> Result<(), String> {
    let (before, at) = match expected {
        ReadingsAnswer::NoneContradicts => (rows, None),
        ReadingsAnswer::Contradicts(reading) => (&rows[..*reading], Some(&rows[*reading])),
        ReadingsAnswer::Refused(_) => return Ok(()),
    };
    let apart = |row: &Reading| -> Result<bool, String> {
        let ends = evaluate(f, row.point).map_err(|refusal| refusal.to_string())?;
        Ok(row.high < ends.low || ends.high < row.low)
    };
    for row in before {
        same(&apart(row)?, &false)?;
    }
    at.map_or(Ok(()), |row| same(&apart(row)?, &true))
}

/// Compares one row and notes what was seen.
pub fn compare(call: &Call, seen: &mut Seen) -> Result<(), String> {
    let expected = call.answer();
    let f = to_model(&call.f);
    let handed = Handed {
        n: f.n,
        count: f.count,
        radius: f.radius,
        keys: &f.keys,
        coefficients: &f.coefficients,
    };
    let rows: Vec<Reading> = call
        .readings
        .iter()
        .map(|reading| Reading {
            point: reading.point,
            low: reading.low,
            high: reading.high,
        })
        .collect();
    let flat = Flat::of(&rows);
    for places in [3, 5] {
        same(
            &stored(handed, flat.handed(), places),
            &translated(&expected, places),
        )?;
    }
    let wrapped = match expected {
        ReadingsAnswer::NoneContradicts => Ok(None),
        ReadingsAnswer::Contradicts(reading) => Ok(Some(reading)),
        ReadingsAnswer::Refused(refusal) => Err(pair(refusal)),
    };
    let ours = first_contradicting(&f, &rows);
    same(&ours.map_err(|r| (r.number, r.place)), &wrapped)?;
    short_slices(handed, &flat)?;
    single_evaluations(&f, &rows, &expected)?;
    if let ReadingsAnswer::Contradicts(reading) = expected {
        let model = call.f.sound(LARGEST_DEGREE).ok_or("the model is sound")?;
        let reading = &call.readings[reading];
        if is_passed_through(&model, reading) {
            return Err(format!(
                "a function within the model passes through {reading:?}"
            ));
        }
        seen.passed_through += 1;
    }
    seen.note(&expected, rows.len());
    Ok(())
}

/// Compares one row that a line names.
pub fn compare_alone(call: &Call) -> Result<agree::Seen, String> {
    compare(call, &mut Seen::default())?;
    Ok(match call.answer() {
        ReadingsAnswer::Refused(refusal) => agree::Seen::of(Some(pair(refusal))),
        accepted => agree::Seen {
            text: format!("{accepted:?}"),
            ..agree::Seen::of(None)
        },
    })
}

impl Seen {
    fn note(&mut self, answer: &ReadingsAnswer, length: usize) {
        self.rows += 1;
        self.lengths.insert(length);
        match answer {
            ReadingsAnswer::NoneContradicts => self.none += 1,
            ReadingsAnswer::Contradicts(reading) => {
                *self.contradicted.entry(*reading).or_default() += 1;
            }
            ReadingsAnswer::Refused(refusal) => {
                let (number, place) = pair(*refusal);
                let places = self.refused.entry(number).or_default();
                *places.entry(place).or_default() += 1;
            }
        }
    }

    pub fn add(&mut self, other: Seen) {
        self.rows += other.rows;
        self.none += other.none;
        self.passed_through += other.passed_through;
        self.lengths.extend(other.lengths);
        for (place, count) in other.contradicted {
            *self.contradicted.entry(place).or_default() += count;
        }
        for (number, places) in other.refused {
            for (place, count) in places {
                let mine = self.refused.entry(number).or_default();
                *mine.entry(place).or_default() += count;
            }
        }
    }

    pub fn print(&self) {
        let told = |places: &BTreeMap<usize, u64>| {
            let count: u64 = places.values().sum();
            format!("{count} at {} places", places.len())
        };
        println!(
            "{} rows of {} lengths: none contradicts {}, contradicted {} ({} held against all functions within the model)",
            self.rows,
            self.lengths.len(),
            self.none,
            told(&self.contradicted),
            self.passed_through
        );
        for (number, places) in &self.refused {
            println!("refused {number}: {}", told(places));
        }
    }

    /// Answers, places and lengths that no row had.
    pub fn unreached(&self) -> Vec<String> {
        let few =
            |places: Option<&BTreeMap<usize, u64>>| places.map_or(0, BTreeMap::len) < MANY_PLACES;
        let mut missing = Vec::new();
        if self.none == 0 {
            missing.push("none contradicts".into());
        }
        if few(Some(&self.contradicted)) {
            missing.push("contradicted at many places".into());
        }
        for number in REFUSALS {
            let places = self.refused.get(&number);
            if places.is_none() || AT_MANY_PLACES.contains(&number) && few(places) {
                missing.push(format!("refusal {number}"));
            }
        }
        for length in [0, 1, MOST_READINGS, MOST_READINGS + 1] {
            if !self.lengths.contains(&length) {
                missing.push(format!("a row of {length}"));
            }
        }
        missing
    }
}

/// A row has eight coordinates for each reading on both sides.
const _: () = assert!(MOST_VARS == reference::model::MOST_VARIABLES);
