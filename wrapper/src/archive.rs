//! The archive: models in bytes, low degrees first.

use crate::{accepted, answered, narrowed, raw, Model, Refusal, MOST_TERMS};

/// The length of the longest model in the archive.
pub const LONGEST_ARCHIVED: usize = 6 + 6 * MOST_TERMS;

/// Stores a model of 1 to 4 variables into the buffer, its terms by total degree and then key: the length. Refusals 3
/// (n is not 1 to 4), 5, 11; a refused call changes no byte, and bytes beyond the length stay.
///
/// ```
/// use hechroung::{restore, store, Model, LONGEST_ARCHIVED};
///
/// // 7 + 2y³ + 5x, within 9: by key y³ comes before x, by degree after it.
/// let mut curve = Model { n: 2, count: 3, radius: 9, ..Model::ZERO };
/// curve.keys[..3].copy_from_slice(&[0, 0x0300_0000, 0x1000_0000]);
/// curve.coefficients[..3].copy_from_slice(&[7, 2, 5]);
/// let mut buffer = [0; LONGEST_ARCHIVED];
/// let length = store(&curve, &mut buffer)?;
/// assert_eq!(restore(&buffer[..length], usize::MAX)?, curve);
///
/// let low = restore(&buffer[..length], 2)?;
/// assert_eq!((&low.keys[..2], &low.coefficients[..2]), (&[0, 0x1000_0000][..], &[7, 5][..]));
/// # Ok::<(), hechroung::Refusal>(())
/// ```
pub fn store(model: &Model, buffer: &mut [u8]) -> Result<usize, Refusal> {
    let mut numbers = [0; 2];
    let number = raw::store(model.handed(), buffer, &mut numbers);
    let [place, length] = numbers;
    accepted(number, place)?;
    Ok(narrowed(length))
}

/// The model of the first terms of one that is stored, or of all if there are fewer. All give the very model that was
/// stored; fewer give exactly the first ones by total degree and then key, with the stored radius. **Fewer terms are no
/// band around the curve**: what was left out is not in the radius; the sizes of all terms left out would have to be
/// added to it. Refusals 1, 3, 17 at the first term read whose rank is 3,876 or more or does not rise, 5.
pub fn restore(bytes: &[u8], terms: usize) -> Result<Model, Refusal> {
    answered(|model, numbers| {
        raw::restore(
            bytes,
            terms,
            &mut model.keys,
            &mut model.coefficients,
            numbers,
        )
    })
}
