//! The record reader.

mod common;

use common::pair;
use reference::generate::{self, damage, faults, sound, Draft, Random};
use reference::records::{open, Record};
use reference::run::run_sheet;
use reference::sheet;

/// Walks a sheet and compares with the draft it was made from.
fn assert_walk(draft: &Draft) {
    let bytes = draft.bytes();
    let opening = open(&bytes);
    assert_eq!(opening.refusal, None);
    let mut reader = opening.reader;
    for model in &draft.models {
        assert_eq!(reader.next(), Some(Record::Model(&model.record(draft.n))));
    }
    for step in &draft.steps {
        assert_eq!(reader.next(), Some(Record::Step(&step.to_bytes())));
    }
    for _ in 0..10 {
        assert_eq!(reader.next(), None);
    }
}

#[test]
fn walks_hand_out_every_record() {
    let mut random = Random::new(41);
    for shape in sound::SHAPES {
        for _ in 0..150 {
            assert_walk(&sound::sheet(&mut random, shape));
        }
    }
}

/// Records are parts of the sheet itself, one after another from its front.
#[test]
fn records_are_not_copied() {
    let mut random = Random::new(42);
    for _ in 0..100 {
        let bytes = sound::sheet(&mut random, sound::LARGE).bytes();
        let mut offset = 0;
        for record in open(&bytes).reader {
            let part = &bytes[offset..offset + record.bytes().len()];
            assert!(std::ptr::eq(part, record.bytes()));
            offset += part.len();
        }
        assert_eq!(offset + 8, bytes.len());
    }
}

#[test]
fn a_refused_opening_hands_out_none() {
    let mut random = Random::new(43);
    for kind in &damage::KINDS {
        for _ in 0..30 {
            let sample = kind.sample(&mut random);
            let mut opening = open(&sample.bytes);
            let read = sheet::read(&sample.bytes);
            assert_eq!(opening.refusal, read.refusal);
            if opening.refusal.is_some() {
                assert!((0..3).all(|_| opening.reader.next().is_none()));
            }
        }
    }
}

/// Opening makes tests 1 to 6 only.
#[test]
fn sheets_whose_run_is_refused_are_walked() {
    let mut random = Random::new(44);
    for kind in &faults::KINDS {
        let sample = kind.sample(&mut random);
        let (number, _) = pair(run_sheet(&sample.bytes).refusal).expect("a refused run");
        assert!([7, 8, 9, 12].contains(&number));
        let opening = open(&sample.bytes);
        assert_eq!(opening.refusal, None);
        assert!(opening.reader.count() > 0);
    }
}

#[test]
fn openings_agree_with_reads() {
    for number in 0..1_000 {
        let bytes = generate::sheet(45, number).bytes;
        assert_eq!(open(&bytes).refusal, sheet::read(&bytes).refusal);
    }
}
