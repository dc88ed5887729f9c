//! A slice that is one place too short is answered with MISUSED, and nothing is changed; with just enough room the call
//! is answered.

use hechroung::raw::{
    self, Handed, HandedBook, HandedCurve, HandedModels, HandedReadings, MISUSED,
};

/// The constant 1 / U, in one variable.
const SHEET: [u8; 16] = [1, 0, 0, 0, 1, 0, 0, 0, 1, 1, 0, 1, 0, 0, 0x4D, 0x4B];

/// What slices hold before a call, so that a change would show.
const MARK: u8 = 0xA5;

/// Slices of a run's answer, of these lengths.
struct Room {
    keys: Vec<u32>,
    coefficients: Vec<i64>,
    numbers: Vec<u64>,
    ends: Vec<i64>,
    shares: Vec<u64>,
}

impl Room {
    fn new([keys, coefficients, numbers, ends]: [usize; 4]) -> Room {
        Room::with_shares([keys, coefficients, numbers, ends, 0])
    }

    fn with_shares([keys, coefficients, numbers, ends, shares]: [usize; 5]) -> Room {
        Room {
            keys: vec![MARK.into(); keys],
            coefficients: vec![MARK.into(); coefficients],
            numbers: vec![MARK.into(); numbers],
            ends: vec![MARK.into(); ends],
            shares: vec![MARK.into(); shares],
        }
    }

    fn unchanged(&self) -> bool {
        self.keys.iter().all(|k| *k == MARK.into())
            && self.coefficients.iter().all(|c| *c == MARK.into())
            && self.numbers.iter().all(|x| *x == MARK.into())
            && self.ends.iter().all(|e| *e == MARK.into())
            && self.shares.iter().all(|s| *s == MARK.into())
    }

    fn run(&mut self) -> u8 {
        raw::run(
            &SHEET,
            &mut self.keys,
            &mut self.coefficients,
            &mut self.numbers,
            &mut self.ends,
        )
    }

    fn shares(&mut self, sheet: &[u8]) -> u8 {
        raw::shares(
            sheet,
            &mut self.keys,
            &mut self.coefficients,
            &mut self.numbers,
            &mut self.ends,
            &mut self.shares,
        )
    }

    fn shares_book(&mut self, book: HandedBook<'_>) -> u8 {
        raw::shares_book(
            book,
            &mut self.keys,
            &mut self.coefficients,
            &mut self.numbers,
            &mut self.ends,
            &mut self.shares,
        )
    }

    fn quotient(&mut self, models: HandedModels<'_>) -> u8 {
        raw::quotient(
            1,
            models,
            &mut self.keys,
            &mut self.coefficients,
            &mut self.numbers,
        )
    }

    /// 1 - x² / 2, with the smallest radius above 0.
    fn doubles(&mut self) -> u8 {
        raw::doubles(
            [1.0, -0.0, -0.5],
            f64::from_bits(1),
            &mut self.keys,
            &mut self.coefficients,
            &mut self.numbers,
        )
    }

    fn run_book(&mut self, book: HandedBook<'_>) -> u8 {
        raw::run_book(
            book,
            &mut self.keys,
            &mut self.coefficients,
            &mut self.numbers,
            &mut self.ends,
        )
    }
}

#[test]
fn a_run_needs_64_keys_64_coefficients_4_numbers_and_6_ends() {
    const ENOUGH: [usize; 4] = [64, 64, 4, 6];
    for short in 0..4 {
        let mut lengths = ENOUGH;
        lengths[short] -= 1;
        let mut room = Room::new(lengths);
        assert_eq!(room.run(), MISUSED, "slice {short}");
        assert!(room.unchanged(), "slice {short}");
    }
    let mut room = Room::new(ENOUGH);
    assert_eq!(room.run(), 0);
    assert_eq!(
        (room.numbers[1], room.numbers[2], room.coefficients[0]),
        (1, 1, 1)
    );
    assert_eq!(room.ends, [1, 1, 2, 2, 2, 0]);
}

#[test]
fn a_rewrite_needs_2_numbers() {
    let mut buffer = [MARK; 16];
    let mut numbers = [u64::from(MARK)];
    assert_eq!(raw::rewrite(&SHEET, &mut buffer, &mut numbers), MISUSED);
    assert_eq!((buffer, numbers), ([MARK; 16], [u64::from(MARK)]));
    let mut numbers = [u64::from(MARK); 2];
    assert_eq!(raw::rewrite(&SHEET, &mut buffer, &mut numbers), 0);
    assert_eq!((buffer, numbers), (SHEET, [0, 16]));
}

/// One model of the constant 1 / U, and one step that takes it.
const BOOK: HandedBook<'static> = HandedBook {
    n: 1,
    d: 1,
    model_count: 1,
    step_count: 1,
    ns: &[1],
    counts: &[1],
    radii: &[0],
    keys: &[0; 64],
    coefficients: &[1; 64],
    fields: &[0; 4],
    values: &[0],
};

/// The same with one slice a place too short.
fn short_books() -> [HandedBook<'static>; 7] {
    [
        HandedBook { ns: &[], ..BOOK },
        HandedBook {
            counts: &[],
            ..BOOK
        },
        HandedBook { radii: &[], ..BOOK },
        HandedBook {
            keys: &BOOK.keys[1..],
            ..BOOK
        },
        HandedBook {
            coefficients: &BOOK.coefficients[1..],
            ..BOOK
        },
        HandedBook {
            fields: &BOOK.fields[1..],
            ..BOOK
        },
        HandedBook {
            values: &[],
            ..BOOK
        },
    ]
}

#[test]
fn a_run_of_a_book_needs_every_model_every_step_and_room() {
    const ENOUGH: [usize; 4] = [64, 64, 4, 6];
    for (k, book) in short_books().into_iter().enumerate() {
        let mut room = Room::new(ENOUGH);
        assert_eq!(room.run_book(book), MISUSED, "slice {k}");
        assert!(room.unchanged(), "slice {k}");
    }
    for short in 0..4 {
        let mut lengths = ENOUGH;
        lengths[short] -= 1;
        let mut room = Room::new(lengths);
        assert_eq!(room.run_book(BOOK), MISUSED, "slice {short}");
        assert!(room.unchanged(), "slice {short}");
    }
    let mut room = Room::new(ENOUGH);
    assert_eq!(room.run_book(BOOK), 0);
    assert_eq!(room.numbers, [0, 1, 1, 0]);
    assert_eq!((room.keys[0], room.coefficients[0]), (0, 1));
    assert_eq!(room.coefficients[1..], [0; 63]);
    assert_eq!(room.ends, [1, 1, 2, 2, 2, 0]);
}

/// Room for a run and 256 shares.
const ENOUGH_SHARES: [usize; 5] = [64, 64, 4, 6, 256];

#[test]
fn shares_need_a_run_s_room_and_256_places() {
    for short in 0..5 {
        let mut lengths = ENOUGH_SHARES;
        lengths[short] -= 1;
        let mut room = Room::with_shares(lengths);
        assert_eq!(room.shares(&SHEET), MISUSED, "slice {short}");
        assert!(room.unchanged(), "slice {short}");
        assert_eq!(room.shares_book(BOOK), MISUSED, "slice {short}");
        assert!(room.unchanged(), "slice {short}");
    }
    for (k, book) in short_books().into_iter().enumerate() {
        let mut room = Room::with_shares(ENOUGH_SHARES);
        assert_eq!(room.shares_book(book), MISUSED, "slice {k}");
        assert!(room.unchanged(), "slice {k}");
    }
}

/// Radii 2 and 3 without terms, their product, and a sum above the span; then the product once more.
const RADII: HandedBook<'static> = HandedBook {
    n: 1,
    d: 1,
    model_count: 3,
    step_count: 6,
    ns: &[1; 3],
    counts: &[0; 3],
    radii: &[2, 3, 1 << 30],
    keys: &[0; 192],
    coefficients: &[0; 192],
    fields: &[
        0, 0, 0, 0, 0, 1, 0, 0, 6, 0, 1, 0, 0, 2, 0, 0, 4, 3, 0, 0, 6, 0, 1, 0,
    ],
    values: &[0; 6],
};

#[test]
fn shares_stand_at_four_places_a_step() {
    const U: u64 = 1 << 20;
    let mut lengths = ENOUGH_SHARES;
    lengths[4] += 1;
    let mut rows = vec![0; 256];
    rows[0] = 2 * U;
    rows[4] = 3 * U;
    (rows[8], rows[11]) = (6, U - 6);
    let mut sheet = [0; 100];
    let mut numbers = [0; 2];
    for (count, number, place) in [(3, 0, 0), (6, 7, 4)] {
        let book = HandedBook {
            step_count: count,
            ..RADII
        };
        if count == 6 {
            rows[12] = U << 30;
        }
        let mut room = Room::with_shares(lengths);
        assert_eq!((room.shares_book(book), room.numbers[0]), (number, place));
        // What lies after it stays.
        assert_eq!(
            (&room.shares[..256], room.shares[256]),
            (&rows[..], MARK.into())
        );
        let mut plain = Room::new([64, 64, 4, 6]);
        assert_eq!(plain.run_book(book), number);
        assert_eq!(
            (&room.keys, &room.coefficients),
            (&plain.keys, &plain.coefficients)
        );
        assert_eq!((&room.numbers, &room.ends), (&plain.numbers, &plain.ends));
        // The same as a sheet.
        assert_eq!(raw::write(book, &mut sheet, &mut numbers), 0);
        let mut room = Room::with_shares(lengths);
        assert_eq!(
            (room.shares(&sheet[..numbers[1] as usize]), room.numbers[0]),
            (number, place)
        );
        assert_eq!(
            (&room.shares[..256], room.shares[256]),
            (&rows[..], MARK.into())
        );
    }
    // A sheet that is not read has zeros.
    let mut room = Room::with_shares(ENOUGH_SHARES);
    assert_eq!(room.shares(&[]), 1);
    assert_eq!(room.shares, [0; 256]);
}

#[test]
fn an_opening_and_a_step_need_2_numbers() {
    let mut bytes = [MARK; 8];
    let mut numbers = [u64::from(MARK)];
    assert_eq!(raw::open(&SHEET, &mut numbers), MISUSED);
    assert_eq!(raw::next(&SHEET, 0, &mut bytes, &mut numbers), MISUSED);
    assert_eq!((bytes, numbers), ([MARK; 8], [u64::from(MARK)]));
    let mut numbers = [u64::from(MARK); 2];
    assert_eq!(raw::open(&SHEET, &mut numbers), 0);
    assert_eq!(numbers, [0, 0]);
    assert_eq!(raw::next(&SHEET, 0, &mut bytes[..3], &mut numbers), 2);
    assert_eq!((&bytes[..4], numbers), (&[1, 0, 0, MARK][..], [8, 8]));
    assert_eq!(raw::next(&SHEET, 8, &mut bytes, &mut numbers), 0);
    assert_eq!((bytes[0], numbers), (1, [0, 8]));
}

#[test]
fn a_write_needs_every_model_every_step_and_2_numbers() {
    // eleven bytes of the model, eight of the step, eight of the trailer
    const LENGTH: usize = 27;
    for (k, book) in short_books().into_iter().enumerate() {
        let mut buffer = [MARK; LENGTH];
        let mut numbers = [u64::from(MARK); 2];
        assert_eq!(
            raw::write(book, &mut buffer, &mut numbers),
            MISUSED,
            "slice {k}"
        );
        assert_eq!(
            (buffer, numbers),
            ([MARK; LENGTH], [u64::from(MARK); 2]),
            "slice {k}"
        );
    }
    let mut buffer = [MARK; LENGTH];
    let mut numbers = [u64::from(MARK)];
    assert_eq!(raw::write(BOOK, &mut buffer, &mut numbers), MISUSED);
    assert_eq!((buffer, numbers), ([MARK; LENGTH], [u64::from(MARK)]));
    let mut numbers = [u64::from(MARK); 2];
    assert_eq!(raw::write(BOOK, &mut buffer, &mut numbers), 0);
    assert_eq!(numbers, [0, LENGTH as u64]);
    assert_eq!(buffer[..11], [0, 0, 0, 0, 1, 0, 0, 1, 0, 0, 0]);
}

#[test]
fn a_call_needs_its_places_and_room() {
    let (keys, coefficients) = ([0u32; 2], [1i64; 2]);
    let model = Handed {
        n: 1,
        count: 2,
        radius: 0,
        keys: &keys,
        coefficients: &coefficients,
    };
    let short = [
        Handed {
            keys: &keys[1..],
            ..model
        },
        Handed {
            coefficients: &coefficients[1..],
            ..model
        },
    ];
    for f in short {
        let mut room = Room::new([64, 64, 4, 4]);
        let called = raw::call(
            3,
            1,
            0,
            0,
            f,
            Handed::NONE,
            &mut room.keys,
            &mut room.coefficients,
            &mut room.numbers,
        );
        assert_eq!(called, MISUSED);
        assert_eq!(raw::ends(1, f, &[], &mut room.ends), MISUSED);
        assert!(room.unchanged());
    }
    for short in 0..3 {
        let mut lengths = [64, 64, 4, 4];
        lengths[short] -= 1;
        let mut room = Room::new(lengths);
        let called = raw::call(
            3,
            1,
            0,
            0,
            Handed::NONE,
            Handed::NONE,
            &mut room.keys,
            &mut room.coefficients,
            &mut room.numbers,
        );
        assert_eq!(called, MISUSED, "slice {short}");
        assert!(room.unchanged(), "slice {short}");
    }
    let mut three = [i64::from(MARK); 3];
    assert_eq!(raw::ends(1, Handed::NONE, &[], &mut three), MISUSED);
    assert_eq!(three, [i64::from(MARK); 3]);
    for code in [0, 9, 11, 255] {
        let mut room = Room::new([64, 64, 4, 4]);
        let none = Handed::NONE;
        let called = raw::call(
            code,
            1,
            0,
            0,
            model,
            none,
            &mut room.keys,
            &mut room.coefficients,
            &mut room.numbers,
        );
        assert_eq!(called, MISUSED, "code {code}");
        assert!(room.unchanged());
    }
}

/// The exact integral stands after the ends; with another code, and beside a refusal, it is 0.
#[test]
fn an_integral_has_its_quotient_and_its_remainder() {
    let square = Handed {
        n: 1,
        count: 1,
        radius: 2,
        keys: &[0x2000_0000],
        coefficients: &[-1],
    };
    let broken = Handed { n: 9, ..square };
    let mark = i64::from(MARK);
    // -2/3 of a unit; the range is 0 and -1, and 2 to either side; at 1 the value is -1.
    for (code, model, number, ends) in [
        (2, square, 0, [-5, 4, -1, 70_945_875]),
        (1, square, 0, [-3, 2, 0, 0]),
        (3, square, 0, [-3, 1, 0, 0]),
        (2, broken, 5, [0; 4]),
        (1, broken, 5, [0; 4]),
    ] {
        let mut stored = [mark; 5];
        let point: &[i64] = if code == 3 {
            &[1 << 20, 0, 0, 0, 0, 0, 0, 0]
        } else {
            &[7; 4]
        };
        assert_eq!(raw::ends(code, model, point, &mut stored), number);
        assert_eq!((&stored[..4], stored[4]), (&ends[..], mark), "code {code}");
    }
}

/// Evaluate looks at eight coordinates, whatever n is; the others take a point of any length.
#[test]
fn a_point_has_eight_coordinates() {
    let last = Handed {
        n: 8,
        count: 1,
        radius: 0,
        keys: &[0x0000_0001],
        coefficients: &[3 << 20],
    };
    let point = [7, 6, 5, 4, 3, 2, 1, 1 << 19, 1 << 40];
    let mark = i64::from(MARK);
    for length in 0..=9 {
        let mut stored = [mark; 4];
        let number = raw::ends(3, last, &point[..length], &mut stored);
        let expected = if length < 8 {
            (MISUSED, [mark; 4])
        } else {
            (0, [3 << 19, 3 << 19, 0, 0])
        };
        assert_eq!((number, stored), expected, "{length} coordinates");
        let mut stored = [mark; 4];
        assert_eq!(raw::ends(1, last, &point[..length], &mut stored), 0);
        assert_eq!(stored, [-3 << 20, 3 << 20, 0, 0], "{length} coordinates");
    }
}

/// Code 10, the antiderivative: order and variable are tested, the second model is not looked at.
#[test]
fn an_antiderivative_takes_its_order_and_its_variable() {
    let x = Handed {
        n: 1,
        count: 1,
        radius: 7,
        keys: &[0x1000_0000],
        coefficients: &[6],
    };
    let second = Handed {
        n: 99,
        radius: u64::MAX,
        ..Handed::NONE
    };
    // The number, and the place, n, the count and the radius.
    let expected = [
        ((2, 1), 0, [0, 1, 1, 7]),
        ((1, 1), 0, [0, 1, 0, 10]),
        ((0, 1), 3, [0, 1, 0, 0]),
        ((16, 9), 3, [0, 1, 0, 0]),
        ((2, 0), 6, [0, 1, 0, 0]),
        ((2, 2), 6, [0, 1, 0, 0]),
    ];
    for ((d, i), number, numbers) in expected {
        let mut room = Room::new([64, 64, 4, 0]);
        let called = raw::call(
            10,
            d,
            i,
            i64::MIN,
            x,
            second,
            &mut room.keys,
            &mut room.coefficients,
            &mut room.numbers,
        );
        assert_eq!(
            (called, &room.numbers[..]),
            (number, &numbers[..]),
            "{d} {i}"
        );
        let term = if numbers[2] == 1 {
            (0x2000_0000, 3)
        } else {
            (0, 0)
        };
        assert_eq!((room.keys[0], room.coefficients[0]), term, "{d} {i}");
    }
}

/// Four times the model of 1, in one variable: 1 over 1, with 1 as the proposal.
const ONES: HandedModels<'static> = HandedModels {
    ns: &[1; 4],
    counts: &[1; 4],
    radii: &[0; 4],
    keys: &[0; 256],
    coefficients: &[1 << 20; 256],
};

#[test]
fn a_quotient_needs_four_models_and_room() {
    const ENOUGH: [usize; 4] = [64, 64, 4, 0];
    let short = [
        HandedModels {
            ns: &ONES.ns[1..],
            ..ONES
        },
        HandedModels {
            counts: &ONES.counts[1..],
            ..ONES
        },
        HandedModels {
            radii: &ONES.radii[1..],
            ..ONES
        },
        HandedModels {
            keys: &ONES.keys[1..],
            ..ONES
        },
        HandedModels {
            coefficients: &ONES.coefficients[1..],
            ..ONES
        },
        HandedModels {
            ns: &[],
            counts: &[],
            radii: &[],
            keys: &[],
            coefficients: &[],
        },
    ];
    for (k, models) in short.into_iter().enumerate() {
        let mut room = Room::new(ENOUGH);
        assert_eq!(room.quotient(models), MISUSED, "slice {k}");
        assert!(room.unchanged(), "slice {k}");
    }
    for short in 0..3 {
        let mut lengths = ENOUGH;
        lengths[short] -= 1;
        let mut room = Room::new(lengths);
        assert_eq!(room.quotient(ONES), MISUSED, "slice {short}");
        assert!(room.unchanged(), "slice {short}");
    }
    let mut room = Room::new(ENOUGH);
    assert_eq!(room.quotient(ONES), 0);
    assert_eq!(room.numbers, [0, 1, 1, 0]);
    assert_eq!((room.keys[0], room.coefficients[0]), (0, 1 << 20));
    assert_eq!(room.coefficients[1..], [0; 63]);
    // A refusal is stored as an answer: the fourth model has another n, and then breaks a rule.
    for (n, expected) in [(2, [0, 1, 0, 0]), (9, [3, 1, 0, 0])] {
        let mut room = Room::new(ENOUGH);
        let number = room.quotient(HandedModels {
            ns: &[1, 1, 1, n],
            ..ONES
        });
        assert_eq!(
            (number, room.numbers),
            (if n == 2 { 10 } else { 5 }, expected.to_vec())
        );
        assert_eq!((room.keys, room.coefficients), (vec![0; 64], vec![0; 64]));
    }
    // More than four models: the others are not looked at, and places after the answer stay.
    let mut room = Room::new([65, 65, 5, 0]);
    let number = room.quotient(HandedModels {
        ns: &[1, 1, 1, 1, 9],
        counts: &[1, 1, 1, 1, 99],
        ..ONES
    });
    assert_eq!(number, 0);
    assert_eq!(
        (room.keys[64], room.coefficients[64], room.numbers[4]),
        (MARK.into(), MARK.into(), MARK.into())
    );
}

/// 3 T_1, within 2 units, and more after it that is not looked at.
const CURVE: HandedCurve<'static> = HandedCurve {
    coefficients: &[0, 3, 0, 0, 0, 0, 0, 0, 0, 0, 0, 0, 0, 0, 0, 0, 7, -7],
    radius: 2,
};

/// The same with one coefficient too few.
const SHORT_CURVE: HandedCurve<'static> = HandedCurve {
    coefficients: &[0, 3, 0, 0, 0, 0, 0, 0, 0, 0, 0, 0, 0, 0, 0],
    ..CURVE
};

#[test]
fn a_call_on_curves_needs_16_coefficients_of_each_and_room() {
    const MARKED: (u8, [i64; 16], [u64; 2]) = (MISUSED, [MARK as i64; 16], [MARK as u64; 2]);
    let called = |code, f, g, coefficients: usize, numbers: usize| {
        let (_, mut stored, mut written) = MARKED;
        let number = raw::curve(
            code,
            f,
            g,
            &mut stored[..coefficients],
            &mut written[..numbers],
        );
        (number, stored, written)
    };
    // The second curve of negate is not looked at, but its length is.
    for code in 3..=6 {
        assert_eq!(called(code, SHORT_CURVE, CURVE, 16, 2), MARKED, "{code}");
        assert_eq!(called(code, CURVE, SHORT_CURVE, 16, 2), MARKED, "{code}");
        assert_eq!(called(code, CURVE, CURVE, 15, 2), MARKED, "{code}");
        assert_eq!(called(code, CURVE, CURVE, 16, 1), MARKED, "{code}");
    }
    for code in [0, 1, 2, 7, 255] {
        assert_eq!(called(code, CURVE, CURVE, 16, 2), MARKED, "{code}");
    }
    let broken = HandedCurve {
        radius: 1 << 31,
        ..CURVE
    };
    // The number; the first three coefficients, and the place and the radius. 9 T_1 T_1 is too small to count.
    for (code, g, number, first, numbers) in [
        (3, broken, 0, [0, -3, 0], [0, 2]),
        (4, CURVE, 0, [0, 6, 0], [0, 4]),
        (5, CURVE, 0, [0, 0, 0], [0, 4]),
        (6, CURVE, 0, [0, 0, 0], [0, 1]),
        (4, broken, 5, [0, 0, 0], [1, 0]),
    ] {
        let mut coefficients = [0; 16];
        coefficients[..3].copy_from_slice(&first);
        let expected = (number, coefficients, numbers);
        assert_eq!(called(code, CURVE, g, 16, 2), expected, "{code}");
    }
}

#[test]
fn a_range_of_a_curve_needs_16_coefficients_and_2_ends() {
    let mark = i64::from(MARK);
    let mut ends = [mark; 3];
    assert_eq!(raw::curve_range(SHORT_CURVE, &mut ends), MISUSED);
    assert_eq!(raw::curve_range(CURVE, &mut ends[..1]), MISUSED);
    assert_eq!(ends, [mark; 3]);
    assert_eq!(raw::curve_range(CURVE, &mut ends), 0);
    assert_eq!(ends, [-5, 5, mark]);
    let broken = HandedCurve {
        radius: 1 << 31,
        ..CURVE
    };
    assert_eq!(raw::curve_range(broken, &mut ends), 5);
    assert_eq!(ends, [0, 0, mark]);
}

#[test]
fn a_conversion_to_powers_needs_16_coefficients_and_room() {
    let called = |f, room: &mut Room| {
        raw::to_powers(f, &mut room.keys, &mut room.coefficients, &mut room.numbers)
    };
    const ENOUGH: [usize; 4] = [64, 64, 4, 0];
    let mut room = Room::new(ENOUGH);
    assert_eq!(called(SHORT_CURVE, &mut room), MISUSED);
    assert!(room.unchanged());
    for short in 0..3 {
        let mut lengths = ENOUGH;
        lengths[short] -= 1;
        let mut room = Room::new(lengths);
        assert_eq!(called(CURVE, &mut room), MISUSED, "slice {short}");
        assert!(room.unchanged(), "slice {short}");
    }
    let mut room = Room::new([65, 65, 5, 0]);
    assert_eq!(called(CURVE, &mut room), 0);
    let mark = u64::from(MARK);
    assert_eq!(room.numbers, [0, 1, 1, 2, mark]);
    assert_eq!((room.keys[0], room.coefficients[0]), (0x1000_0000, 3));
    assert_eq!(room.coefficients[1..64], [0; 63]);
    assert_eq!(
        (room.keys[64], room.coefficients[64]),
        (MARK.into(), MARK.into())
    );
}

#[test]
fn a_conversion_back_needs_its_places_and_room() {
    const MARKED: (u8, [i64; 17], [u64; 3]) = (MISUSED, [MARK as i64; 17], [MARK as u64; 3]);
    let called = |f, coefficients: usize, numbers: usize| {
        let (_, mut stored, mut written) = MARKED;
        let number = raw::from_powers(f, &mut stored[..coefficients], &mut written[..numbers]);
        (number, stored, written)
    };
    // 1 + 2 x² is 2 T_0 + T_2.
    let model = Handed {
        n: 1,
        count: 2,
        radius: 7,
        keys: &[0, 0x2000_0000],
        coefficients: &[1, 2],
    };
    let short_keys = Handed {
        keys: &[0],
        ..model
    };
    let short_coefficients = Handed {
        coefficients: &[1],
        ..model
    };
    assert_eq!(called(short_keys, 16, 2), MARKED);
    assert_eq!(called(short_coefficients, 16, 2), MARKED);
    assert_eq!(called(model, 15, 2), MARKED);
    assert_eq!(called(model, 16, 1), MARKED);
    let (number, coefficients, numbers) = called(model, 17, 3);
    assert_eq!((number, coefficients[..4].to_vec()), (0, vec![2, 0, 1, 0]));
    assert_eq!(coefficients[3..16], [0; 13]);
    assert_eq!(
        (coefficients[16], numbers),
        (MARK.into(), [0, 7, MARK.into()])
    );
    // Two variables, and a key that breaks a rule.
    for (other, number) in [
        (Handed { n: 2, ..model }, 13),
        (Handed { n: 9, ..model }, 5),
    ] {
        let (found, coefficients, numbers) = called(other, 16, 2);
        assert_eq!((found, coefficients[..16].to_vec()), (number, vec![0; 16]));
        assert_eq!(numbers[..2], [0, 0]);
    }
}

#[test]
fn a_cut_range_needs_its_places_2_ends_and_1_number() {
    const MARKED: (u8, [i64; 3], [u64; 2]) = (MISUSED, [MARK as i64; 3], [MARK as u64; 2]);
    let called = |k, f, ends: usize, numbers: usize| {
        let (_, mut stored, mut written) = MARKED;
        let number = raw::cut_range(1, 1, k, f, &mut stored[..ends], &mut written[..numbers]);
        (number, stored, written)
    };
    // (2^29 + 1) + (2^29 - 1) x, whose span is the limit: its right half has more.
    let model = Handed {
        n: 1,
        count: 2,
        radius: 0,
        keys: &[0, 0x1000_0000],
        coefficients: &[(1 << 29) + 1, (1 << 29) - 1],
    };
    let short_keys = Handed {
        keys: &[0],
        ..model
    };
    let short_coefficients = Handed {
        coefficients: &[1],
        ..model
    };
    for k in [0, 1, 7] {
        assert_eq!(called(k, short_keys, 2, 1), MARKED, "depth {k}");
        assert_eq!(called(k, short_coefficients, 2, 1), MARKED, "depth {k}");
        assert_eq!(called(k, model, 1, 1), MARKED, "depth {k}");
        assert_eq!(called(k, model, 2, 0), MARKED, "depth {k}");
    }
    // The number; both ends, and the place. What lies after it stays.
    let mark = i64::from(MARK);
    for (k, number, low, high, place) in [(0, 0, 2, 1 << 30, 0), (1, 7, 0, 0, 1), (7, 14, 0, 0, 0)]
    {
        let expected = (number, [low, high, mark], [place, MARK.into()]);
        assert_eq!(called(k, model, 3, 2), expected, "depth {k}");
        let enough = called(k, model, 2, 1);
        assert_eq!(enough, expected, "depth {k}");
    }
}

#[test]
fn a_curve_in_doubles_needs_64_keys_64_coefficients_and_4_numbers() {
    const ENOUGH: [usize; 4] = [64, 64, 4, 0];
    for short in 0..3 {
        let mut lengths = ENOUGH;
        lengths[short] -= 1;
        let mut room = Room::new(lengths);
        assert_eq!(room.doubles(), MISUSED, "slice {short}");
        assert!(room.unchanged(), "slice {short}");
    }
    let mut room = Room::new(ENOUGH);
    assert_eq!(room.doubles(), 0);
    assert_eq!(room.numbers, [0, 1, 2, 1]);
    assert_eq!(room.keys[..3], [0, 0x2000_0000, 0]);
    assert_eq!(room.coefficients[..3], [1 << 20, -(1 << 19), 0]);
}

/// Two readings at 0, the second of which contradicts the constant 1 / U.
const ROWS: HandedReadings<'static> = HandedReadings {
    points: &[0; 16],
    lows: &[0, 2],
    highs: &[1, 3],
};

#[test]
fn readings_need_8_coordinates_and_a_high_value_each_and_3_numbers() {
    let model = Handed {
        n: 1,
        count: 1,
        radius: 0,
        keys: &[0],
        coefficients: &[1],
    };
    let held = |f, rows, places| {
        let mut numbers = vec![u64::from(MARK); places];
        (raw::readings(f, rows, &mut numbers), numbers)
    };
    let misused = |places| (MISUSED, vec![u64::from(MARK); places]);
    let (points, highs) = (&ROWS.points[1..], &ROWS.highs[1..]);
    assert_eq!(
        held(model, HandedReadings { points, ..ROWS }, 3),
        misused(3)
    );
    assert_eq!(held(model, HandedReadings { highs, ..ROWS }, 3), misused(3));
    assert_eq!(held(model, ROWS, 2), misused(2));
    assert_eq!(held(Handed { keys: &[], ..model }, ROWS, 3), misused(3));
    let coefficients = &[];
    assert_eq!(
        held(
            Handed {
                coefficients,
                ..model
            },
            ROWS,
            3
        ),
        misused(3)
    );
    assert_eq!(held(model, ROWS, 3), (0, vec![0, 1, 1]));
    // What lies after it stays.
    assert_eq!(held(model, ROWS, 4), (0, vec![0, 1, 1, MARK.into()]));
}

/// 3 + x / 2 in one variable.
const LINE: ([u32; 2], [i64; 2]) = ([0, 0x1000_0000], [3, 1 << 19]);

fn stored(lengths: [usize; 3]) -> (u8, Vec<u8>, Vec<u64>) {
    let [keys, coefficients, numbers] = lengths;
    let line = Handed {
        n: 1,
        count: 2,
        radius: 2,
        keys: &LINE.0[..keys],
        coefficients: &LINE.1[..coefficients],
    };
    let mut buffer = vec![MARK; 20];
    let mut numbers = vec![MARK.into(); numbers];
    let number = raw::store(line, &mut buffer, &mut numbers);
    (number, buffer, numbers)
}

#[test]
fn a_store_needs_its_terms_and_2_numbers() {
    const ENOUGH: [usize; 3] = [2, 2, 2];
    for short in 0..3 {
        let mut lengths = ENOUGH;
        lengths[short] -= 1;
        let (number, buffer, numbers) = stored(lengths);
        assert_eq!(number, MISUSED, "slice {short}");
        assert!(buffer.iter().all(|byte| *byte == MARK), "slice {short}");
        assert!(numbers.iter().all(|x| *x == MARK.into()), "slice {short}");
    }
    let (number, buffer, numbers) = stored(ENOUGH);
    assert_eq!((number, numbers), (0, vec![0, 18]));
    let archived = [
        1, 2, 0, 0, 0, 2, 0, 0, 3, 0, 0, 0, 4, 0, 0, 0, 8, 0, MARK, MARK,
    ];
    assert_eq!(buffer, archived);
}

#[test]
fn a_restore_needs_64_keys_64_coefficients_and_4_numbers() {
    const ENOUGH: [usize; 4] = [64, 64, 4, 0];
    let (_, buffer, _) = stored([2, 2, 2]);
    let restored = |room: &mut Room| {
        raw::restore(
            &buffer[..18],
            2,
            &mut room.keys,
            &mut room.coefficients,
            &mut room.numbers,
        )
    };
    for short in 0..3 {
        let mut lengths = ENOUGH;
        lengths[short] -= 1;
        let mut room = Room::new(lengths);
        assert_eq!(restored(&mut room), MISUSED, "slice {short}");
        assert!(room.unchanged(), "slice {short}");
    }
    let mut room = Room::new(ENOUGH);
    assert_eq!(restored(&mut room), 0);
    assert_eq!(room.numbers, [0, 1, 2, 2]);
    assert_eq!(room.keys[..2], LINE.0);
    assert_eq!(room.coefficients[..2], LINE.1);
}
