//! Models to store and archives to restore: whole and in part, damaged, and refused
//! by each number at many terms.

use super::hostile;
use super::models::{self, Scale, LARGEST_SPAN};
use super::random::Random;
use super::{kind, CallKind, DraftModel, Expected};
use crate::archive::{in_order, rank_of, Call, HEAD, RANKS, TERM};
use crate::model::{monomial_of_key, FEW_VARIABLES, MOST_TERMS};
use crate::stored::StoredModel;

/// The most terms that an archive's byte can count.
const MOST_COUNTED: usize = 255;

/// A call of either kind, one for each number from 0; numbers are independent of
/// each other.
pub fn call(seed: u64, number: u64) -> Call {
    let mut random = Random::new(seed ^ number.wrapping_mul(0x8EBC_6AF0_9C88_C6E3));
    match random.below(8) {
        0 | 1 => hostile_store(&mut random),
        2 => sound_store(&mut random),
        3 | 4 => damaged(&mut random),
        5 => noise(&mut random),
        _ => (random.pick(&KINDS).make)(&mut random).0,
    }
}

/// An archive before it is bytes, which may break any rule but that of its length.
#[derive(Clone, Debug, PartialEq, Eq)]
pub struct DraftArchive {
    pub n: u8,
    pub radius: u32,
    pub terms: Vec<(u16, i32)>,
}

impl DraftArchive {
    /// The archive of a sound model of up to four variables.
    pub fn of(n: u8, draft: &DraftModel) -> DraftArchive {
        let rank = |key| rank_of(&monomial_of_key(key));
        let mut terms: Vec<(u16, i32)> =
            draft.terms.iter().map(|&(key, c)| (rank(key), c)).collect();
        terms.sort();
        DraftArchive {
            n,
            radius: draft.radius,
            terms,
        }
    }

    /// The bytes, assembled apart from the store so that the two can be compared.
    pub fn bytes(&self) -> Vec<u8> {
        let radius = self.radius.to_le_bytes();
        let mut bytes = [&[self.n], &radius[..], &[self.terms.len() as u8]].concat();
        for (rank, coefficient) in &self.terms {
            bytes.extend(rank.to_le_bytes());
            bytes.extend(coefficient.to_le_bytes());
        }
        bytes
    }

    fn restored(&self, most: usize) -> Call {
        Call::Restore {
            bytes: self.bytes(),
            most,
        }
    }
}

fn few_variables(random: &mut Random) -> u8 {
    random.byte(1, FEW_VARIABLES as u8)
}

/// A sound model of up to four variables, with as many terms as asked for at most.
pub fn sound(random: &mut Random, most_terms: usize) -> (u8, DraftModel) {
    let n = few_variables(random);
    let count = match random.below(4) {
        0 => most_terms,
        _ => random.size(0, most_terms),
    };
    let scale = *random.pick(&models::SCALES);
    let draft = models::of_scale(random, n, 15, count, scale);
    (n, draft)
}

fn sound_archive(random: &mut Random) -> DraftArchive {
    let most_terms = *random.pick(&[3, 12, MOST_TERMS]);
    let (n, draft) = sound(random, most_terms);
    DraftArchive::of(n, &draft)
}

/// A number of terms to read: none, some, all or more.
fn any_most(random: &mut Random, count: usize) -> usize {
    match random.below(5) {
        0 => count,
        1 => count + 1,
        2 => *random.pick(&[0, 64, 65, 255, 256, 1 << 32, usize::MAX]),
        _ => random.size(0, count),
    }
}

fn whole_length(count: usize) -> usize {
    HEAD + TERM * count
}

/// A buffer that holds anything, mostly as long as needed or nearly.
fn any_buffer(random: &mut Random, needed: usize) -> Vec<u8> {
    let length = match random.below(6) {
        0 => needed,
        1 => needed - 1,
        2 => needed + random.size(1, 20),
        3 => random.size(0, needed),
        _ => whole_length(MOST_TERMS),
    };
    random.bytes(length)
}

/// Models of any n, often broken.
fn hostile_store(random: &mut Random) -> Call {
    let n = match random.below(4) {
        0 => models::any_n(random),
        _ => few_variables(random),
    };
    let mut f = Box::new(hostile::model(random, n, 15));
    if random.one_in(6) {
        f.n = hostile::small_number(random, 1, FEW_VARIABLES as u8);
    }
    let buffer = any_buffer(random, whole_length(f.count.min(MOST_TERMS)));
    Call::Store { f, buffer }
}

fn sound_store(random: &mut Random) -> Call {
    let (n, draft) = sound(random, MOST_TERMS);
    let f = Box::new(hostile::stored(random, n, &draft));
    let buffer = any_buffer(random, whole_length(f.count));
    Call::Store { f, buffer }
}

/// An archive with up to two faults, in its fields or its bytes.
fn damaged(random: &mut Random) -> Call {
    let mut archive = sound_archive(random);
    let most = any_most(random, archive.terms.len());
    for _ in 0..random.below(3) {
        spoil(random, &mut archive);
    }
    let mut bytes = archive.bytes();
    if random.one_in(4) {
        damage(random, &mut bytes);
    }
    Call::Restore { bytes, most }
}

fn spoil(random: &mut Random, archive: &mut DraftArchive) {
    let count = archive.terms.len();
    let place = random.size(0, count.max(1) - 1);
    match random.below(8) {
        0 => archive.n = *random.pick(&[0, 5, 8, 255]),
        1 => archive.n = few_variables(random),
        2 => archive.radius = *random.pick(&[(1 << 30) + 1, 1 << 31, u32::MAX, 1 << 30]),
        _ if count == 0 => archive.terms.push((random.next_u64() as u16, 1)),
        3 => archive.terms[place].0 = random.next_u64() as u16,
        4 => archive.terms[place].0 = archive.terms[place.saturating_sub(1)].0,
        5 => archive.terms.swap(place, place.saturating_sub(1)),
        6 => archive.terms[place].1 = *random.pick(&[0, i32::MIN, i32::MAX, 1 << 30]),
        _ => archive.terms[place].0 = *random.pick(&[RANKS as u16 - 1, RANKS as u16, u16::MAX]),
    }
}

/// Changes a byte or the length.
fn damage(random: &mut Random, bytes: &mut Vec<u8>) {
    let place = random.size(0, bytes.len() - 1);
    match random.below(4) {
        0 => bytes[place] = random.byte(0, 255),
        1 => bytes[place] ^= 1 << random.below(8),
        2 => bytes.truncate(place),
        _ => bytes.extend(random.bytes(place % 13 + 1)),
    }
}

/// Any bytes, mostly with a length that fits the count.
fn noise(random: &mut Random) -> Call {
    let count = match random.below(3) {
        0 => random.size(0, 3),
        _ => random.size(0, MOST_COUNTED),
    };
    let mut bytes = random.bytes(whole_length(count));
    bytes[0] = random.byte(0, 5);
    bytes[5] = count as u8;
    if random.one_in(6) {
        let length = random.size(0, 20);
        bytes = random.bytes(length);
    }
    let most = any_most(random, count);
    Call::Restore { bytes, most }
}

/// Accepted in whole and in part, and refused by each number, 17 at many terms.
pub const KINDS: [CallKind<Call>; 16] = [
    kind("a whole archive", whole),
    kind("faults beyond the terms read", faults_beyond),
    kind("a span above the limit beyond the terms read", span_beyond),
    kind("a buffer of the length", buffer_of_length),
    kind("1, below the head", below_head),
    kind("1, another count", other_count),
    kind("3 of a restore", bad_n),
    kind("17, no rank", no_rank),
    kind("17, not rising", not_rising),
    kind("17 among more than 64", not_rising_of_many),
    kind("5, more than 64", more_than_64),
    kind("5, a radius", bad_radius),
    kind("5, a term", bad_term),
    kind("3 of a store", store_bad_n),
    kind("5 of a store", store_broken),
    kind("11", short_buffer),
];

const ACCEPTED: Expected = Expected::Accepted;

fn broken() -> Expected {
    Expected::Refused(5, 0)
}

fn whole(random: &mut Random) -> (Call, Expected) {
    let archive = sound_archive(random);
    let beyond = random.size(0, 9);
    (archive.restored(archive.terms.len() + beyond), ACCEPTED)
}

/// A sound archive with at least so many terms.
fn archive_with(random: &mut Random, least: usize) -> DraftArchive {
    loop {
        let (n, draft) = sound(random, MOST_TERMS);
        if draft.terms.len() >= least {
            return DraftArchive::of(n, &draft);
        }
    }
}

/// Terms that are not read may have anything.
fn faults_beyond(random: &mut Random) -> (Call, Expected) {
    let mut archive = archive_with(random, 2);
    let most = random.size(0, archive.terms.len() - 1);
    for term in &mut archive.terms[most..] {
        *term = match random.below(3) {
            0 => (random.next_u64() as u16, random.next_u64() as i32),
            1 => (0, 0),
            _ => *term,
        };
    }
    (archive.restored(most), ACCEPTED)
}

/// The span of what is read is the largest; a term more is beyond.
fn span_beyond(random: &mut Random) -> (Call, Expected) {
    let n = few_variables(random);
    let count = random.size(0, 8);
    let draft = models::of_scale(random, n, 14, count, Scale::Full);
    let mut archive = DraftArchive::of(n, &draft);
    let most = archive.terms.len();
    // x^15 is the last of all.
    archive.terms.push((RANKS as u16 - 1, random.sign() as i32));
    if random.one_in(2) {
        (archive.restored(most), ACCEPTED)
    } else {
        (archive.restored(most + 1), broken())
    }
}

fn below_head(random: &mut Random) -> (Call, Expected) {
    let length = random.size(0, HEAD - 1);
    let bytes = random.bytes(length);
    let most = any_most(random, 3);
    (Call::Restore { bytes, most }, Expected::Refused(1, 0))
}

/// A count or a length that does not fit the other, whatever else is wrong.
fn other_count(random: &mut Random) -> (Call, Expected) {
    let mut archive = sound_archive(random);
    let most = any_most(random, archive.terms.len());
    spoil(random, &mut archive);
    let mut bytes = archive.bytes();
    match random.below(3) {
        0 => bytes[5] = bytes[5].wrapping_add(random.byte(1, 255)),
        1 => bytes.extend(vec![0; random.size(1, 3 * TERM)]),
        _ => {
            bytes.pop();
        }
    }
    (Call::Restore { bytes, most }, Expected::Refused(1, 0))
}

/// Whatever the ranks, the radius and the count are.
fn bad_n(random: &mut Random) -> (Call, Expected) {
    let mut archive = match random.below(2) {
        0 => sound_archive(random),
        _ => many(random),
    };
    spoil(random, &mut archive);
    let most = any_most(random, archive.terms.len());
    archive.n = *random.pick(&[0, 5, 8, 9, 128, 255]);
    (archive.restored(most), Expected::Refused(3, 0))
}

/// Faults of 5 that do not come before 17.
fn spoil_rules(random: &mut Random, archive: &mut DraftArchive) {
    if random.one_in(2) {
        archive.radius = u32::MAX;
    }
    if random.one_in(2) {
        let place = random.size(0, archive.terms.len() - 1);
        archive.terms[place].1 = 0;
    }
    if random.one_in(2) {
        archive.n = few_variables(random);
    }
}

/// Reads up to the term with this number and perhaps further.
fn reading_past(random: &mut Random, archive: &DraftArchive, place: usize) -> Call {
    let most = match random.below(2) {
        0 => place + 1,
        _ => any_most(random, archive.terms.len()).max(place + 1),
    };
    archive.restored(most)
}

fn no_rank(random: &mut Random) -> (Call, Expected) {
    let mut archive = archive_with(random, 1);
    let place = random.size(0, archive.terms.len() - 1);
    spoil_rules(random, &mut archive);
    archive.terms[place].0 = match random.below(3) {
        0 => RANKS as u16,
        1 => u16::MAX,
        _ => random.between(RANKS as i64, u16::MAX.into()) as u16,
    };
    let call = reading_past(random, &archive, place);
    (call, Expected::Refused(17, place))
}

/// The rank of the term before, or a lower one; what comes after may rise again.
fn make_fall(random: &mut Random, archive: &mut DraftArchive, place: usize) {
    let before = archive.terms[place - 1].0;
    archive.terms[place].0 = match random.below(3) {
        0 => before,
        1 => 0,
        _ => random.between(0, before.into()) as u16,
    };
}

fn not_rising(random: &mut Random) -> (Call, Expected) {
    let mut archive = archive_with(random, 2);
    let place = random.size(1, archive.terms.len() - 1);
    spoil_rules(random, &mut archive);
    make_fall(random, &mut archive, place);
    let call = reading_past(random, &archive, place);
    (call, Expected::Refused(17, place))
}

/// More than 64 terms whose ranks rise; n is 4, and nothing else is wrong.
fn many(random: &mut Random) -> DraftArchive {
    let count = match random.below(4) {
        0 => MOST_TERMS + 1,
        1 => MOST_COUNTED,
        _ => random.size(MOST_TERMS + 1, MOST_COUNTED),
    };
    let mut terms = Vec::new();
    for number in 0..count {
        // One rank out of each share of all.
        let low = number * RANKS / count;
        let high = (number + 1) * RANKS / count - 1;
        terms.push((random.size(low, high) as u16, random.sign() as i32));
    }
    DraftArchive {
        n: FEW_VARIABLES as u8,
        radius: random.below(LARGEST_SPAN as u64 / 2) as u32,
        terms,
    }
}

fn not_rising_of_many(random: &mut Random) -> (Call, Expected) {
    let mut archive = many(random);
    let place = random.size(1, archive.terms.len() - 1);
    spoil_rules(random, &mut archive);
    make_fall(random, &mut archive, place);
    let call = reading_past(random, &archive, place);
    (call, Expected::Refused(17, place))
}

/// However few are read.
fn more_than_64(random: &mut Random) -> (Call, Expected) {
    let archive = many(random);
    let most = any_most(random, archive.terms.len());
    (archive.restored(most), broken())
}

/// However few are read.
fn bad_radius(random: &mut Random) -> (Call, Expected) {
    let mut archive = sound_archive(random);
    archive.radius = *random.pick(&[(1 << 30) + 1, 1 << 31, u32::MAX]);
    let most = any_most(random, archive.terms.len());
    (archive.restored(most), broken())
}

/// A coefficient of 0 or one above the span, or a variable that the model has not,
/// among the terms read.
fn bad_term(random: &mut Random) -> (Call, Expected) {
    let mut archive = archive_with(random, 1);
    let place = random.size(0, archive.terms.len() - 1);
    match random.below(3) {
        0 => archive.terms[place].1 = 0,
        1 => archive.terms[place].1 = *random.pick(&[i32::MIN, i32::MAX, -(1 << 30) - 1]),
        _ => {
            archive.n = random.byte(1, 3);
            archive.terms = vec![(strange_rank(random, archive.n), 1)];
        }
    }
    let place = place.min(archive.terms.len() - 1);
    let call = reading_past(random, &archive, place);
    (call, broken())
}

/// The rank of a monomial that has a variable above n.
fn strange_rank(random: &mut Random, n: u8) -> u16 {
    loop {
        let rank = random.size(0, RANKS - 1);
        if in_order()[rank][usize::from(n)..].iter().any(|&k| k > 0) {
            return rank as u16;
        }
    }
}

/// A sound model, and the length that its archive needs.
fn to_store(random: &mut Random) -> (Box<StoredModel>, usize) {
    let (n, draft) = sound(random, MOST_TERMS);
    let f = Box::new(hostile::stored(random, n, &draft));
    let needed = whole_length(f.count);
    (f, needed)
}

fn buffer_of_length(random: &mut Random) -> (Call, Expected) {
    let (f, needed) = to_store(random);
    let beyond = random.size(0, 2);
    let buffer = random.bytes(needed + beyond);
    (Call::Store { f, buffer }, ACCEPTED)
}

fn short_buffer(random: &mut Random) -> (Call, Expected) {
    let (f, needed) = to_store(random);
    let length = match random.below(2) {
        0 => needed - 1,
        _ => random.size(0, needed - 1),
    };
    let buffer = random.bytes(length);
    (Call::Store { f, buffer }, Expected::Refused(11, 0))
}

/// A sound model of five variables and more, or one of no such number; the buffer
/// may be too short.
fn store_bad_n(random: &mut Random) -> (Call, Expected) {
    let n = random.byte(5, 8);
    let mut f = Box::new(hostile::model(random, n, 15));
    f.n = *random.pick(&[0, n, 9, 255]);
    let buffer = any_buffer(random, HEAD);
    (Call::Store { f, buffer }, Expected::Refused(3, 0))
}

fn store_broken(random: &mut Random) -> (Call, Expected) {
    let (mut f, _) = to_store(random);
    match random.below(3) {
        0 => f.count = 65,
        1 => f.radius = (1 << 30) + 1,
        _ => {
            f.count = f.count.max(1);
            f.terms[0].coefficient = 0;
        }
    }
    let buffer = any_buffer(random, HEAD);
    (Call::Store { f, buffer }, broken())
}
