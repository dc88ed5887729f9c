//! Readings of the bench held against a model.

use crate::raw::{self, HandedReadings};
use crate::{accepted, narrowed, Model, Refusal, MOST_VARS};

/// The readings of a row, at most.
pub const MOST_READINGS: usize = 256;

/// A point, as [`crate::evaluate`] takes it, and a low and a high value, in units.
#[derive(Clone, Copy, Debug, Default, PartialEq, Eq)]
pub struct Reading {
    /// Where it was read.
    pub point: [i64; MOST_VARS],
    /// The lowest value that it stands for.
    pub low: i64,
    /// The highest.
    pub high: i64,
}

/// The number, from 0, of the first reading that contradicts the model, or `None`. A reading contradicts when its band
/// and the ends of the evaluation at its point have no number in common; ends that touch have one. No function within
/// the model passes through that reading. Of the others nothing is promised, not even that a function within the model
/// passes through them. Refusals 15 at place 0 for a longer row than [`MOST_READINGS`], 5, then with the reading as
/// place 15 (a low value above its high one), 6, 9, each of all readings before the next, then 7 of an evaluation. It
/// takes some 20 KB of stack itself.
///
/// ```
/// use hechroung::{first_contradicting, Model, Reading, UNIT};
///
/// let half = Model::constant(1, UNIT / 2)?;
/// let read = |low, high| Reading { low, high, ..Reading::default() };
/// let rows = [read(0, UNIT / 2), read(UNIT / 2 + 1, UNIT)];
/// assert_eq!(first_contradicting(&half, &rows)?, Some(1));
/// assert_eq!(first_contradicting(&half, &rows[..1])?, None);
/// # Ok::<(), hechroung::Refusal>(())
/// ```
pub fn first_contradicting(f: &Model, rows: &[Reading]) -> Result<Option<usize>, Refusal> {
    // A longer row is handed over by one reading more than there may be, which is refused.
    let rows = &rows[..rows.len().min(MOST_READINGS + 1)];
    let mut points = [0; MOST_VARS * (MOST_READINGS + 1)];
    let (mut lows, mut highs) = ([0; MOST_READINGS + 1], [0; MOST_READINGS + 1]);
    for (i, row) in rows.iter().enumerate() {
        points[MOST_VARS * i..MOST_VARS * (i + 1)].copy_from_slice(&row.point);
        lows[i] = row.low;
        highs[i] = row.high;
    }
    let handed = HandedReadings {
        points: &points[..MOST_VARS * rows.len()],
        lows: &lows[..rows.len()],
        highs: &highs[..rows.len()],
    };
    let mut numbers = [0; 3];
    let number = raw::readings(f.handed(), handed, &mut numbers);
    let [place, any, reading] = numbers;
    accepted(number, place)?;
    Ok((any == 1).then(|| narrowed(reading)))
}
