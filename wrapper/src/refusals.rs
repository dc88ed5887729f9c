//! What is refused, and in which words.

use core::fmt;

/// The number of a refusal in documents 01 and 02, 1 to 17, and its place.
///
/// ```
/// let refusal = hechroung::Model::variable(1, 2).unwrap_err();
/// assert_eq!((refusal.number, refusal.place), (6, 0));
/// assert!(refusal.sentence().contains("a variable is 1 to n"));
/// ```
#[derive(Clone, Copy, Debug, PartialEq, Eq, PartialOrd, Ord)]
pub struct Refusal {
    /// Which test failed.
    pub number: u8,
    /// The model, step, reading or term that failed it, from 0, where the test is of one; else 0.
    pub place: usize,
}

/// Those of `hechroung_sentence` in include/hechroung.h, word for word.
const SENTENCES: [&str; 17] = [
    "The length is wrong: a sheet has 16 to 8792 bytes, an archived model 6 and 6 more for each of its terms; hand \
     over all of its bytes and no others.",
    "The sheet's last two bytes are not its mark, hex 4D 4B for up to four variables or 4D 57 for more: see whether \
     it is a sheet and was not cut short.",
    "A number is outside its limits: n is 1 to 8 and fits the sheet's mark (1 to 4 in the archive), the order 1 to \
     15; there are 0 to 16 models and 1 to 64 steps.",
    "The sheet's parts do not fit its length, which is the offset of the first step, 8 bytes for each step and 8: \
     mend the trailer.",
    "The model that the place names breaks a rule: it has at most 64 terms, keys that rise, no coefficient of 0, no \
     variable above n, degrees up to the order, a span up to 2^30 and its book's n, and ends before the steps.",
    "The step that the place names, or an argument, breaks its form: operands are earlier steps, a variable is 1 to \
     n, a constant -2^30 to 2^30, a threshold 0 to 2^30, and what is not used is 0.",
    "The span, the sizes of all coefficients and the radius together, rises above 2^30 units: scale the inputs down.",
    "More than 64 terms are left: lower the order, or sweep small terms before.",
    "The box is left: what is put in for a variable, its radius included, and each coordinate has to lie from -1 to \
     1; scale it.",
    "The models differ in n: give all models of a call the same.",
    "The buffer is too short: 8792 bytes are enough for every sheet, 390 for every archived model.",
    "Uncertified: the proposal w does not show that the divisor is nowhere zero; bring w nearer to 1 / g, and see \
     whether g has a zero in the box.",
    "A model to convert into a Chebyshev curve has another n than 1: hand over a model of one variable.",
    "The box is to be cut to a depth above 6: take a depth of 0 to 6.",
    "A row has more than 256 readings, or the reading that the place names has a low value above its high one: cut \
     the row into shorter ones, or mend the reading.",
    "A value in doubles is infinite or no number, or the radius is negative: mend what was delivered.",
    "The rank of the archived term that the place names is 3876 or more, or does not rise: the bytes are damaged, or \
     no archived model.",
];

impl Refusal {
    /// What is wrong, and what to do about it.
    #[must_use]
    pub fn sentence(&self) -> &'static str {
        let place = usize::from(self.number).checked_sub(1);
        place
            .and_then(|place| SENTENCES.get(place))
            .copied()
            .unwrap_or("No call returns this number.")
    }
}

impl fmt::Display for Refusal {
    fn fmt(&self, out: &mut fmt::Formatter<'_>) -> fmt::Result {
        let sentence = self.sentence();
        write!(out, "refused {} {}: {sentence}", self.number, self.place)
    }
}

#[cfg(core_error)]
impl core::error::Error for Refusal {}

#[cfg(all(feature = "std", not(core_error)))]
impl std::error::Error for Refusal {}
