//! Sheets that are opened and stepped through, by the wrapper and by the exported functions themselves.

use crate::agree::{pair, same, unless, Seen};
use crate::sheets::patterned;
use hechroung::{raw, Kind};
use reference::records::{self, Record};
use reference::refusal::Refusal;

/// How often a sheet is asked for a record that is not there.
const AFTER_THE_END: usize = 2;

/// A record as it should be handed out: the number of its kind, its place and its bytes.
type Expected<'sheet> = (u8, usize, &'sheet [u8]);

/// Opening, each record with its kind, its bytes and the place of the next, and no record after the last. `room` is the
/// length of the slice that a record's bytes are put into.
pub fn compare(sheet: &[u8], room: usize) -> Result<Seen, String> {
    let opening = records::open(sheet);
    let expected = expected(sheet, opening.reader, opening.refusal);
    let refusal = opening.refusal.map(pair);
    compare_wrapper(sheet, &expected, opening.refusal)?;
    compare_exported(sheet, room, &expected, refusal)?;
    Ok(Seen::of(refusal))
}

/// The records lie one after the other from the sheet's start. After the last of them there is none; of a refused
/// sheet there is none at its end.
fn expected<'sheet>(
    sheet: &'sheet [u8],
    records: impl Iterator<Item = Record<'sheet>>,
    refusal: Option<Refusal>,
) -> Vec<Expected<'sheet>> {
    let mut at = refusal.map_or(0, |_| sheet.len());
    let mut all = Vec::new();
    for record in records {
        let number = match record {
            Record::Model(_) => 1,
            Record::Step(_) => 2,
        };
        all.push((number, at, record.bytes()));
        at += record.bytes().len();
    }
    all.extend([(0, at, &sheet[..0]); AFTER_THE_END]);
    all
}

fn compare_wrapper(
    sheet: &[u8],
    expected: &[Expected],
    refusal: Option<Refusal>,
) -> Result<(), String> {
    let opened = hechroung::open(sheet);
    same(
        &opened.as_ref().map(|_| ()),
        &unless(refusal, ()).as_ref().map(|_| ()),
    )?;
    let Ok(mut records) = opened else {
        return Ok(());
    };
    for &(number, at, bytes) in expected {
        same(&records.place(), &at)?;
        let record = records.next().map(|record| {
            let number = match record.kind {
                Kind::Model => 1,
                Kind::Step => 2,
            };
            (number, record.bytes)
        });
        same(&record, &(number != 0).then(|| (number, bytes.to_vec())))?;
    }
    Ok(())
}

fn compare_exported(
    sheet: &[u8],
    room: usize,
    expected: &[Expected],
    refusal: Option<(u8, usize)>,
) -> Result<(), String> {
    let (number, place) = refusal.unwrap_or_default();
    let mut numbers = [u64::MAX; 3];
    let opened = raw::open(sheet, &mut numbers);
    let first = expected[0].1;
    same(
        &(opened, numbers),
        &(number, [place as u64, first as u64, u64::MAX]),
    )?;
    for &(number, at, bytes) in expected {
        let (mut buffer, mut expected_buffer) = (patterned(room), patterned(room));
        let copied = bytes.len().min(room);
        expected_buffer[..copied].copy_from_slice(&bytes[..copied]);
        let mut numbers = [u64::MAX; 3];
        let found = raw::next(sheet, at, &mut buffer, &mut numbers);
        let length = bytes.len() as u64;
        same(
            &(found, buffer, numbers),
            &(
                number,
                expected_buffer,
                [length, at as u64 + length, u64::MAX],
            ),
        )?;
    }
    Ok(())
}
