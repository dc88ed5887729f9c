//! Narrower ranges by cutting the box.

use crate::{accepted, raw, Ends, Model, Refusal};

/// The range over the box, variable i cut into 2^k equal pieces: the overlap of the undivided range with what the
/// ranges of the pieces cover, on each of which the model is substituted for with order d. Every function within the
/// model stays inside it. A deeper cut is not always narrower. Refusals 3, 5, 6, 14 for k above 6, then the first 8 or
/// 7 of the pieces, with the piece, from 0, as place.
///
/// ```
/// use hechroung::{cut_range, Model, UNIT};
///
/// // 1 + x + x², which lies between 3/4 and 3.
/// let mut bowl = Model { count: 3, ..Model::ZERO };
/// bowl.keys[..3].copy_from_slice(&[0, 0x1000_0000, 0x2000_0000]);
/// bowl.coefficients[..3].copy_from_slice(&[UNIT; 3]);
/// let (whole, halves) = (cut_range(2, 1, 0, &bowl)?, cut_range(2, 1, 1, &bowl)?);
/// assert_eq!((whole.low, whole.high), (0, 3 * UNIT));
/// assert_eq!((halves.low, halves.high), (3 * UNIT / 4, 3 * UNIT));
/// # Ok::<(), hechroung::Refusal>(())
/// ```
pub fn cut_range(d: u8, i: u8, k: u8, f: &Model) -> Result<Ends, Refusal> {
    let mut ends = [0; 2];
    let mut numbers = [0; 1];
    let number = raw::cut_range(d, i, k, f.handed(), &mut ends, &mut numbers);
    let [place] = numbers;
    accepted(number, place)?;
    let [low, high] = ends;
    Ok(Ends { low, high })
}
