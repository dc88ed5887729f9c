//! Sheets that the reader accepts, each with a reordering of its variables.

use super::random::Random;
use crate::renaming::Reordering;
use crate::sheet;

/// Any reordering of n variables, all equally likely.
pub fn reordering(random: &mut Random, n: usize) -> Reordering {
    let mut to: Vec<usize> = (0..n).collect();
    for last in (1..n).rev() {
        to.swap(last, random.size(0, last));
    }
    Reordering::new(&to).expect("places are only exchanged")
}

/// A sheet that passes tests 1 to 6, whatever its run gives, and a reordering of
/// its variables; one for each number from 0, independent of each other. Sheets
/// of one variable, and reorderings that change nothing, come seldom.
pub fn renamed(seed: u64, number: u64) -> (Vec<u8>, Reordering) {
    let mut random = Random::new(seed ^ number.wrapping_mul(0xE703_7ED1_A0B4_28DB));
    loop {
        let bytes = super::sheet(random.next_u64(), number).bytes;
        let Ok(book) = sheet::sound_book(&bytes) else {
            continue;
        };
        let other = reordering(&mut random, book.n);
        if other != Reordering::unchanged(book.n) || random.one_in(16) {
            return (bytes, other);
        }
    }
}
