//! The archive: the exported functions and the wrapper against the second implementation, which makes the order by
//! sorting. What is restored in full is stored again, and what is stored is restored, in whole and in part.

use crate::agree::{pair, same, to_model, unless, Seen};
use crate::case::Case;
use hechroung::raw::{self, Handed, MISUSED};
use hechroung::{Model, LONGEST_ARCHIVED};
use reference::archive::{Call, CallAnswer};
use reference::calls::ModelAnswer;
use reference::generate::{archive, Expected, Random};
use reference::model::MOST_TERMS;
use reference::stored::StoredModel;
use reference::write::WriteAnswer;

/// What the gate runs.
pub const CALLS: u64 = 200_000;
/// Calls of each kind that the second implementation names with what they must answer.
const OF_EACH_KIND: u64 = 400;
/// Lengths of keys, coefficients and numbers with which every call fits.
pub const ENOUGH: [u8; 3] = [64, 64, 5];
/// What slices hold before a call, so that a change would show.
const KEY: u32 = 0xA5A5_A5A5;
const COEFFICIENT: i64 = -0x5A5A_5A5A;
const NUMBER: u64 = u64::MAX;

/// The case of a number: at times a slice is too short, or longer than it has to be.
pub fn case(seed: u64, number: u64) -> Case {
    let mut random = Random::new(seed ^ number.wrapping_mul(0xA24B_AED4_963E_E407));
    let call = archive::call(seed, number);
    let mut lengths = ENOUGH;
    if random.below(8) == 0 {
        let slice = random.below(3) as usize;
        lengths[slice] = random.below(70) as u8;
    }
    Case::Archive(call, lengths)
}

/// Cases that are compared whatever the seed, of each kind; the second implementation must answer them as it says.
pub fn named() -> Vec<Case> {
    let mut cases = Vec::new();
    for kind in archive::KINDS {
        let mut random = Random::new(1);
        for _ in 0..OF_EACH_KIND {
            let (call, expected) = (kind.make)(&mut random);
            let found = call.answer().refusal().map(pair);
            match expected {
                Expected::Refused(number, place) => {
                    assert_eq!(found, Some((number, place)), "{}", kind.name)
                }
                Expected::Accepted => assert_eq!(found, None, "{}", kind.name),
                Expected::Unknown => {}
            }
            cases.push(Case::Archive(call, ENOUGH));
        }
    }
    cases
}

pub fn compare(call: &Call, lengths: [u8; 3]) -> Result<Seen, String> {
    let lengths = lengths.map(usize::from);
    match (call, call.answer()) {
        (Call::Store { f, buffer: before }, CallAnswer::Stored { answer, buffer }) => {
            compare_store(f, before, &answer, &buffer, lengths)
        }
        (Call::Restore { bytes, most }, CallAnswer::Restored(answer)) => {
            compare_restore(bytes, *most, &answer, lengths)
        }
        _ => unreachable!("a call is answered by its own kind"),
    }
}

fn compare_store(
    f: &StoredModel,
    before: &[u8],
    answer: &WriteAnswer,
    after: &[u8],
    [keys, coefficients, numbers]: [usize; 3],
) -> Result<Seen, String> {
    let model = to_model(f);
    let handed = Handed {
        n: model.n,
        count: model.count,
        radius: model.radius,
        keys: &model.keys[..keys.min(MOST_TERMS)],
        coefficients: &model.coefficients[..coefficients.min(MOST_TERMS)],
    };
    let mut buffer = before.to_vec();
    let mut stored = vec![NUMBER; numbers];
    let number = raw::store(handed, &mut buffer, &mut stored);
    let named = model.count.min(MOST_TERMS);
    if keys.min(coefficients) < named || numbers < 2 {
        same(
            &(number, &buffer[..], stored),
            &(MISUSED, before, vec![NUMBER; numbers]),
        )?;
        return Ok(Seen {
            misused: true,
            ..Seen::of(None)
        });
    }
    let refusal = answer.refusal.map(pair);
    let (owed, place) = refusal.unwrap_or_default();
    let mut expected = vec![place as u64, answer.length as u64];
    expected.resize(numbers, NUMBER);
    same(&(number, &buffer[..], stored), &(owed, after, expected))?;
    let mut buffer = before.to_vec();
    let length = hechroung::store(&model, &mut buffer);
    same(
        &(length, &buffer[..]),
        &(unless(answer.refusal, answer.length), after),
    )?;
    if let Ok(length) = length {
        restored_again(&model, &buffer[..length])?;
    }
    Ok(Seen::of(refusal))
}

/// What was stored is restored: all of it is the very model, fewer terms are the first ones by degree and key.
fn restored_again(model: &Model, bytes: &[u8]) -> Result<(), String> {
    let whole = hechroung::restore(bytes, model.count);
    same(&whole.map(|model| described(&model)), &Ok(described(model)))?;
    let degree = |key: u32| (0..8).map(|i| key >> (4 * i) & 15).sum::<u32>();
    let mut by_degree: Vec<(u32, i64)> = model.terms().collect();
    by_degree.sort_by_key(|(key, _)| (degree(*key), *key));
    for terms in [0, 1, model.count / 2, model.count.saturating_sub(1)] {
        let mut first = by_degree[..terms.min(model.count)].to_vec();
        first.sort_unstable();
        let part = hechroung::restore(bytes, terms);
        let expected = Ok((model.n, model.radius, first));
        same(&part.map(|part| described(&part)), &expected)?;
    }
    Ok(())
}

/// n, the radius and the terms: what stands after these says nothing.
fn described(model: &Model) -> (u8, u64, Vec<(u32, i64)>) {
    (model.n, model.radius, model.terms().collect())
}

fn compare_restore(
    bytes: &[u8],
    most: usize,
    answer: &ModelAnswer,
    [keys, coefficients, numbers]: [usize; 3],
) -> Result<Seen, String> {
    let mut found = (
        vec![KEY; keys],
        vec![COEFFICIENT; coefficients],
        vec![NUMBER; numbers],
    );
    let number = raw::restore(bytes, most, &mut found.0, &mut found.1, &mut found.2);
    if keys.min(coefficients) < MOST_TERMS || numbers < 4 {
        let untouched = (
            vec![KEY; keys],
            vec![COEFFICIENT; coefficients],
            vec![NUMBER; numbers],
        );
        same(&(number, found), &(MISUSED, untouched))?;
        return Ok(Seen {
            misused: true,
            ..Seen::of(None)
        });
    }
    let refusal = answer.refusal.map(pair);
    let (owed, place) = refusal.unwrap_or_default();
    let model = to_model(&answer.model);
    let mut expected = (
        model.keys.to_vec(),
        model.coefficients.to_vec(),
        vec![
            place as u64,
            u64::from(model.n),
            model.count as u64,
            model.radius,
        ],
    );
    expected.0.resize(keys, KEY);
    expected.1.resize(coefficients, COEFFICIENT);
    expected.2.resize(numbers, NUMBER);
    same(&(number, found), &(owed, expected))?;
    let handed = hechroung::restore(bytes, most);
    same(&handed, &unless(answer.refusal, model))?;
    if let (Ok(whole), true) = (handed, most >= usize::from(*bytes.get(5).unwrap_or(&0))) {
        let mut buffer = [0; LONGEST_ARCHIVED];
        let length = hechroung::store(&whole, &mut buffer);
        same(&length.map(|length| &buffer[..length]), &Ok(bytes))?;
    }
    Ok(Seen::of(refusal))
}
