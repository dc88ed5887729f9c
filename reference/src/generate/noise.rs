//! Random bytes, some with a plausible trailer so that later tests are reached.

use super::random::Random;
use super::sound;
use super::{models, Expected, Kind};
use crate::sheet::Mark;

pub const KINDS: [Kind; 4] = [
    Kind {
        name: "random bytes",
        make: any_bytes,
    },
    Kind {
        name: "random bytes with the mark",
        make: marked_bytes,
    },
    Kind {
        name: "random bytes with a fitting trailer",
        make: fitting_bytes,
    },
    Kind {
        name: "a sound sheet with changed bytes",
        make: changed_bytes,
    },
];

type Made = (Vec<u8>, Expected);

fn length(random: &mut Random) -> usize {
    match random.below(5) {
        0 => random.size(0, 40),
        1 => random.size(16, 600),
        2 => random.size(6_700, 6_760),
        3 => random.size(8_750, 8_810),
        _ => random.size(0, 9_000),
    }
}

fn any_bytes(random: &mut Random) -> Made {
    let count = length(random);
    (random.bytes(count), Expected::Unknown)
}

fn marked_bytes(random: &mut Random) -> Made {
    let count = length(random).max(16);
    let mut bytes = random.bytes(count);
    let mark = *random.pick(&Mark::ALL);
    bytes[count - 2..].copy_from_slice(&mark.bytes());
    (bytes, Expected::Unknown)
}

/// Mostly zeros before a trailer that passes tests 1 to 4: empty models and
/// inputs are then common, and some sheets are accepted.
fn fitting_bytes(random: &mut Random) -> Made {
    let steps = random.size(1, 64);
    let offset = random.size(0, 200);
    let models = if offset.is_multiple_of(5) && random.one_in(2) {
        (offset / 5).min(16)
    } else {
        random.size(0, 16)
    };
    let mut bytes = vec![0; offset + 8 * steps];
    for _ in 0..random.below(8) {
        let place = random.size(0, bytes.len() - 1);
        bytes[place] = random.byte(0, 255);
    }
    let n = models::any_n(random);
    bytes.extend([n, random.byte(1, 15)]);
    bytes.extend([models as u8, steps as u8]);
    bytes.extend((offset as u16).to_le_bytes());
    bytes.extend(Mark::of_variables(n.into()).bytes());
    (bytes, Expected::Unknown)
}

fn changed_bytes(random: &mut Random) -> Made {
    let shape = *random.pick(&sound::SHAPES);
    let mut bytes = sound::sheet(random, shape).bytes();
    for _ in 0..random.size(1, 3) {
        let place = random.size(0, bytes.len() - 1);
        bytes[place] ^= 1 << random.below(8);
    }
    (bytes, Expected::Unknown)
}
