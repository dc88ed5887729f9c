//! The archive, low degrees first (document 02, CR 14): a model of up to four
//! variables as bytes whose terms stand by total degree and then key.

use crate::calls::{require, ModelAnswer};
use crate::model::{
    degree, key_of_half, monomial_of_key, Model, Monomial, Polynomial, FEW_VARIABLES,
    LARGEST_DEGREE, LARGEST_SPAN, MOST_TERMS,
};
use crate::refusal::Refusal;
use crate::stored::StoredModel;
use crate::write::WriteAnswer;
use std::sync::OnceLock;

/// How many monomials of four variables have a degree of at most 15.
pub const RANKS: usize = 3_876;
/// The bytes before the terms: n, radius, count.
pub const HEAD: usize = 6;
/// The bytes of a term: rank, coefficient.
pub const TERM: usize = 6;

/// What the terms of an archive stand by.
fn place(monomial: &Monomial) -> (u32, Monomial) {
    (degree(monomial), *monomial)
}

/// All monomials of four variables of degree at most 15, by total degree and then
/// key: every key of 16 bits is looked at, and what is left is sorted, once.
pub fn in_order() -> &'static [Monomial] {
    static ORDER: OnceLock<Vec<Monomial>> = OnceLock::new();
    ORDER.get_or_init(|| {
        let keys = 0..=u16::MAX;
        let all = keys.map(|half| monomial_of_key(key_of_half(half)));
        let mut order: Vec<Monomial> = all.filter(|m| degree(m) <= LARGEST_DEGREE).collect();
        order.sort_by_key(place);
        assert_eq!(order.len(), RANKS, "the paper counts as many");
        order
    })
}

/// The rank of a monomial of four variables of degree at most 15.
pub fn rank_of(monomial: &Monomial) -> u16 {
    let found = in_order().binary_search_by_key(&place(monomial), place);
    found.expect("all such monomials are in the order") as u16
}

/// Writes the archive of f to the front of the buffer. Tests 3 (n), 5 and 11. Bytes
/// beyond the length stay, and a refused store changes none.
pub fn store(f: &StoredModel, buffer: &mut [u8]) -> WriteAnswer {
    match try_store(f, buffer) {
        Ok(length) => WriteAnswer {
            length,
            refusal: None,
        },
        Err(refusal) => WriteAnswer {
            length: 0,
            refusal: Some(refusal),
        },
    }
}

fn try_store(f: &StoredModel, buffer: &mut [u8]) -> Result<usize, Refusal> {
    require(has_few_variables(f.n), Refusal::Limits)?;
    let f = f.sound(LARGEST_DEGREE).ok_or(Refusal::Model(0))?;
    let bytes = bytes_of(&f);
    let front = buffer.get_mut(..bytes.len()).ok_or(Refusal::Buffer)?;
    front.copy_from_slice(&bytes);
    Ok(bytes.len())
}

fn has_few_variables(n: u8) -> bool {
    (1..=FEW_VARIABLES).contains(&usize::from(n))
}

/// The span bounds the radius and every coefficient, so that four bytes hold them.
fn bytes_of(f: &Model) -> Vec<u8> {
    let mut bytes = vec![f.n as u8];
    bytes.extend((f.radius as u32).to_le_bytes());
    bytes.push(f.polynomial.len() as u8);
    let mut terms: Vec<(&Monomial, &i128)> = f.polynomial.iter().collect();
    terms.sort_by_key(|(monomial, _)| place(monomial));
    for (monomial, &coefficient) in terms {
        bytes.extend(rank_of(monomial).to_le_bytes());
        bytes.extend((coefficient as i32).to_le_bytes());
    }
    bytes
}

/// Reads the first terms of an archive, all if more are asked for than there are.
/// Tests 1 (the length), 3 (n), 17 of the terms read, and then 5: the count, the
/// radius, and the terms read.
pub fn restore(bytes: &[u8], most: usize) -> ModelAnswer {
    ModelAnswer::from(try_restore(bytes, most))
}

fn try_restore(bytes: &[u8], most: usize) -> Result<Model, Refusal> {
    let archive = Archive::of(bytes).ok_or(Refusal::Length)?;
    require(has_few_variables(archive.n), Refusal::Limits)?;
    let read = &archive.terms[..most.min(archive.terms.len())];
    require_ranks_rise(read)?;
    let few_enough = archive.terms.len() <= MOST_TERMS;
    require(few_enough, Refusal::Model(0))?;
    archive.model(read).ok_or(Refusal::Model(0))
}

/// The first term whose rank is no rank, or does not rise, is the place.
fn require_ranks_rise(read: &[(u16, i32)]) -> Result<(), Refusal> {
    let mut least = 0;
    for (number, &(rank, _)) in read.iter().enumerate() {
        let rank = usize::from(rank);
        require((least..RANKS).contains(&rank), Refusal::Rank(number))?;
        least = rank + 1;
    }
    Ok(())
}

/// The fields of an archive as they stand.
struct Archive {
    n: u8,
    radius: u32,
    terms: Vec<(u16, i32)>,
}

impl Archive {
    /// None if the length is below 6 or other than 6 + 6 × the count.
    fn of(bytes: &[u8]) -> Option<Archive> {
        let (head, body) = bytes.split_at_checked(HEAD)?;
        let &[n, r0, r1, r2, r3, count] = head else {
            unreachable!("a head has six bytes");
        };
        if body.len() != TERM * usize::from(count) {
            return None;
        }
        let terms = body.chunks_exact(TERM).map(|term| {
            let rank = u16::from_le_bytes([term[0], term[1]]);
            let coefficient = i32::from_le_bytes([term[2], term[3], term[4], term[5]]);
            (rank, coefficient)
        });
        Some(Archive {
            n,
            radius: u32::from_le_bytes([r0, r1, r2, r3]),
            terms: terms.collect(),
        })
    }

    /// The model of the terms read, whose ranks rise, if it keeps every rule; degrees
    /// are at most 15 by their ranks.
    fn model(&self, read: &[(u16, i32)]) -> Option<Model> {
        let n = usize::from(self.n);
        let mut polynomial = Polynomial::new();
        for &(rank, coefficient) in read {
            let monomial = in_order()[usize::from(rank)];
            if coefficient == 0 || monomial[n..].iter().any(|&exponent| exponent > 0) {
                return None;
            }
            polynomial.insert(monomial, i128::from(coefficient));
        }
        let model = Model {
            n,
            polynomial,
            radius: i128::from(self.radius),
        };
        (model.span() <= LARGEST_SPAN).then_some(model)
    }
}

/// A call with its arguments, so that calls can be generated and compared as values.
#[derive(Clone, Debug, PartialEq, Eq)]
pub enum Call {
    /// The buffer is what it holds before.
    Store {
        f: Box<StoredModel>,
        buffer: Vec<u8>,
    },
    Restore {
        bytes: Vec<u8>,
        most: usize,
    },
}

/// What either call answers; a store also by its buffer.
#[derive(Clone, Debug, PartialEq, Eq)]
pub enum CallAnswer {
    Stored {
        answer: WriteAnswer,
        buffer: Vec<u8>,
    },
    Restored(Box<ModelAnswer>),
}

impl CallAnswer {
    pub fn refusal(&self) -> Option<Refusal> {
        match self {
            CallAnswer::Stored { answer, .. } => answer.refusal,
            CallAnswer::Restored(answer) => answer.refusal,
        }
    }
}

impl Call {
    /// The call's name, for counts and messages.
    pub fn name(&self) -> &'static str {
        match self {
            Call::Store { .. } => "store",
            Call::Restore { .. } => "restore",
        }
    }

    /// Makes the call.
    pub fn answer(&self) -> CallAnswer {
        match self {
            Call::Store { f, buffer } => {
                let mut buffer = buffer.clone();
                let answer = store(f, &mut buffer);
                CallAnswer::Stored { answer, buffer }
            }
            Call::Restore { bytes, most } => CallAnswer::Restored(Box::new(restore(bytes, *most))),
        }
    }
}
