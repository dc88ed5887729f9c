//! Reproducible inputs for a comparison: the same seed gives the same input on
//! every machine.
//!
//! A generator says what refusal it expects only where that follows from how
//! the input was made, never from running it.

pub mod archive;
pub mod books;
pub mod chebyshev;
pub mod cuts;
pub mod damage;
pub mod doubles;
pub mod draft;
pub mod eight_variables;
pub mod faults;
pub mod functions;
pub mod hostile;
pub mod integrands;
pub mod limits;
pub mod mixes;
pub mod models;
pub mod noise;
pub mod pitfalls;
pub mod proposals;
pub mod quotients;
pub mod radii;
pub mod random;
pub mod readings;
pub mod reorderings;
pub mod samples;
pub mod sound;

pub use draft::{Draft, DraftModel};
pub use random::Random;

/// What is known of a generated sheet.
#[derive(Clone, Copy, Debug, PartialEq, Eq)]
pub enum Expected {
    Unknown,
    Accepted,
    /// Refused with this number and place.
    Refused(u8, usize),
}

/// A generated sheet.
#[derive(Clone, Debug, PartialEq, Eq)]
pub struct Sample {
    pub name: String,
    pub bytes: Vec<u8>,
    pub expected: Expected,
}

impl Sample {
    pub fn new(name: impl Into<String>, bytes: Vec<u8>, expected: Expected) -> Sample {
        Sample {
            name: name.into(),
            bytes,
            expected,
        }
    }
}

/// A way to make sheets, with what it expects of them.
#[derive(Clone, Copy, Debug)]
pub struct Kind {
    pub name: &'static str,
    pub make: fn(&mut Random) -> (Vec<u8>, Expected),
}

/// A way to make calls of one request, with what it expects of them.
#[derive(Clone, Copy, Debug)]
pub struct CallKind<C, E = Expected> {
    pub name: &'static str,
    pub make: fn(&mut Random) -> (C, E),
}

const fn kind<C, E>(name: &'static str, make: fn(&mut Random) -> (C, E)) -> CallKind<C, E> {
    CallKind { name, make }
}

impl Kind {
    pub fn sample(&self, random: &mut Random) -> Sample {
        let (bytes, expected) = (self.make)(random);
        Sample::new(self.name, bytes, expected)
    }
}

/// Every named sheet.
pub fn named_sheets() -> Vec<Sample> {
    [
        limits::samples(),
        pitfalls::samples(),
        radii::samples(),
        integrands::samples(),
        eight_variables::samples(),
    ]
    .concat()
}

/// A stream of sheets of every kind, one for each number from 0. Numbers are
/// independent of each other, so that a comparison can go straight to one.
pub fn sheet(seed: u64, number: u64) -> Sample {
    let mut random = Random::new(seed ^ number.wrapping_mul(0x9E37_79B9_7F4A_7C15));
    match random.below(11) {
        0..=3 => {
            let shape = *random.pick(&sound::SHAPES);
            let draft = sound::sheet(&mut random, shape);
            Sample::new("sound", draft.bytes(), Expected::Unknown)
        }
        4..=6 => random.pick(&damage::KINDS).sample(&mut random),
        7..=8 => random.pick(&faults::KINDS).sample(&mut random),
        9 => random.pick(&mixes::KINDS).sample(&mut random),
        _ => random.pick(&noise::KINDS).sample(&mut random),
    }
}
