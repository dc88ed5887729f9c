//! Eight variables: sheets by hand under both marks, lengths, keys of 32 bits, integrals term by term, evaluation and
//! renaming in all eight; and that generated input has them all.

mod common;

use common::{input, pair, HALF, UNIT};
use reference::book::{Book, SoundBook, Step, ADD, ANTIDERIVATIVE, MULTIPLY, NEGATE, SUBSTITUTE};
use reference::book::{SUBTRACT, VARIABLE};
use reference::calls;
use reference::exact::{check_result, check_sheet, Violation};
use reference::generate::{self, functions, reorderings, sound, Draft, DraftModel, Random};
use reference::model::{monomial_of_key, Model, Monomial, ONE as NO_EXPONENTS};
use reference::operations::{Exact, Integral, DENOMINATOR};
use reference::records::{open, Record};
use reference::renaming::Reordering;
use reference::run::{report_sheet, run, run_book, run_sheet};
use reference::sheet::{read, sound_book, Mark};
use reference::stored::{StoredModel, StoredTerm};
use reference::text::{bytes_of_hex, lines_of_sheet};
use reference::write::{sheet_bytes, write};
use std::collections::BTreeMap;

fn model(radius: u32, terms: &[(u32, i32)]) -> DraftModel {
    DraftModel::wide(radius, terms)
}

/// The program's lines of a sheet whose last step is given.
fn lines(n: u8, d: u8, models: &[DraftModel], last: Step) -> String {
    let mut steps: Vec<Step> = (0..models.len() as u8).map(input).collect();
    steps.push(last);
    lines_of_sheet(&Draft::new(n, d, models.to_vec(), steps).bytes())
}

/// A model in memory, by keys of 32 bits.
fn stored(n: u8, radius: u64, terms: &[(u32, i64)]) -> StoredModel {
    let mut model = StoredModel {
        n,
        count: terms.len(),
        radius,
        ..StoredModel::ZEROS
    };
    for (place, &(key, coefficient)) in model.terms.iter_mut().zip(terms) {
        *place = StoredTerm { key, coefficient };
    }
    model
}

/// 10 x5² x8² with radius 3: one model of 13 bytes, whose key has four, and one step.
const BY_HAND: &str =
    "03 00 00 00 01  02 20 00 00  0A 00 00 00  00 00 00 00 00 00 00 00  08 04 01 01 0D 00 4D 57";

fn by_hand() -> Vec<u8> {
    bytes_of_hex(BY_HAND).expect("hex")
}

/// 10 × 256 / 9 is 284.4, and 256 × 3 is 768. There is no line `exact`.
#[test]
fn a_sheet_of_eight_variables_by_hand() {
    let expected = "radius 3\nterm 0 0 0 0 2 0 0 2 10\nrange -3 13\nintegral -484 1053\n";
    assert_eq!(lines_of_sheet(&by_hand()), expected);
    let sheet = by_hand();
    let records: Vec<Record> = open(&sheet).reader.collect();
    assert_eq!(
        records,
        [Record::Model(&sheet[..13]), Record::Step(&sheet[13..21])]
    );
    let book = read(&sheet).book;
    assert_eq!((book.n, book.models[0].n), (8, 8));
    assert_eq!(book.models[0], stored(8, 3, &[(0x0000_2002, 10)]));
}

fn refusal(bytes: &[u8]) -> Option<(u8, usize)> {
    let answer = run_sheet(bytes);
    let opening = open(bytes);
    assert_eq!(pair(read(bytes).refusal), pair(opening.refusal));
    let found = pair(answer.refusal);
    assert!(found.is_none_or(|(number, _)| number > 6) || pair(opening.refusal) == found);
    found
}

/// The sheet above with other bytes in its trailer, which starts at 21.
fn with(changes: &[(usize, u8)]) -> Option<(u8, usize)> {
    let mut bytes = by_hand();
    for &(place, value) in changes {
        bytes[place] = value;
    }
    refusal(&bytes)
}

#[test]
fn the_mark_and_n_have_to_fit() {
    assert_eq!(with(&[]), None);
    // n = 4 under 4D 57, and n = 5 under 4D 4B.
    assert_eq!(with(&[(21, 4)]), Some((3, 0)));
    assert_eq!(with(&[(21, 5), (28, 0x4B)]), Some((3, 0)));
    for n in [0, 1, 2, 3, 9, 255] {
        assert_eq!(with(&[(21, n)]), Some((3, 0)), "n = {n}");
    }
    for n in [0, 6, 7, 8, 9, 255] {
        assert_eq!(with(&[(21, n), (28, 0x4B)]), Some((3, 0)), "n = {n}");
    }
    // Of n = 5 to 7 the digits of variable 8 are hidden: 5, and not 3.
    for n in 5..=7 {
        assert_eq!(with(&[(21, n)]), Some((5, 0)), "n = {n}");
    }
    // Under the other mark the record has 11 bytes, so that two are left over.
    assert_eq!(with(&[(21, 4), (28, 0x4B)]), Some((5, 1)));
    assert_eq!(with(&[(21, 9), (28, 0x56)]), Some((2, 0)));
    assert_eq!(
        with(&[(21, 4), (25, 0x0C)]),
        Some((3, 0)),
        "3 comes before 4"
    );
    assert_eq!(with(&[(27, 0x57), (28, 0x4D)]), Some((2, 0)));
}

/// A sheet of one variable, one step and zeros before, in all of this length.
fn zeros(length: usize, mark: Mark, n: u8) -> Vec<u8> {
    let offset = (length - 16) as u16;
    let mut bytes = vec![0; length - 8];
    bytes[length - 16..].copy_from_slice(&Step::constant(0).to_bytes());
    bytes.extend([n, 1, 0, 1]);
    bytes.extend(offset.to_le_bytes());
    bytes.extend(mark.bytes());
    bytes
}

#[test]
fn one_longest_length_for_both_marks() {
    for (mark, n) in [
        (Mark::Few, 1),
        (Mark::Few, 4),
        (Mark::Many, 5),
        (Mark::Many, 8),
    ] {
        assert_eq!(refusal(&zeros(16, mark, n)), None);
        // Bytes without models are 5; only above 8,792 the length is refused.
        for length in [17, 6_744, 6_745, 8_791, 8_792] {
            assert_eq!(refusal(&zeros(length, mark, n)), Some((5, 0)), "{length}");
        }
        for length in [8_793, 8_794, 20_000] {
            assert_eq!(refusal(&zeros(length, mark, n)), Some((1, 0)), "{length}");
        }
        // Length before mark before limits.
        assert_eq!(refusal(&zeros(8_793, mark, 9)), Some((1, 0)));
        assert_eq!(refusal(&zeros(8_792, mark, 9)), Some((3, 0)));
    }
}

/// 16 models of 64 terms, 64 steps.
fn largest(n: u8) -> Draft {
    let keys = generate::models::all_keys(n, 4);
    let terms: Vec<(u32, i32)> = keys
        .iter()
        .rev()
        .take(64)
        .rev()
        .map(|&key| (key, -9))
        .collect();
    let steps = (0..64).map(|number| input(number % 16)).collect();
    Draft::new(n, 4, vec![model(1, &terms); 16], steps)
}

#[test]
fn the_largest_sheets() {
    for n in 5..=8 {
        let bytes = largest(n).bytes();
        assert_eq!(bytes.len(), 8_792);
        assert_eq!(refusal(&bytes), None);
        let longer = [&[0], &bytes[..]].concat();
        assert_eq!(refusal(&longer), Some((1, 0)));
    }
    let bytes = largest(4).bytes();
    assert_eq!((bytes.len(), refusal(&bytes)), (6_744, None));
    // One byte more is no longer too long: the offset is wrong, or a byte left over.
    let longer = [&[0], &bytes[..]].concat();
    assert_eq!(refusal(&longer), Some((4, 0)));
    let mut records = largest(4).model_bytes();
    records.push(0);
    assert_eq!(
        refusal(&largest(4).bytes_with_records(&records)),
        Some((5, 16))
    );
}

/// Terms of a single variable, and the highest powers: where each exponent stands in a line.
#[test]
fn each_variable_has_its_place() {
    let of = |n: u8, key: u32| lines(n, 15, &[model(0, &[(key, 5)])], input(0));
    assert_eq!(
        of(8, 0x0000_0001),
        "radius 0\nterm 0 0 0 0 0 0 0 1 5\nrange -5 5\nintegral 0 0\n"
    );
    assert_eq!(
        of(8, 0xF000_0000),
        "radius 0\nterm 15 0 0 0 0 0 0 0 5\nrange -5 5\nintegral 0 0\n"
    );
    assert_eq!(
        of(8, 0x0000_000F),
        "radius 0\nterm 0 0 0 0 0 0 0 15 5\nrange -5 5\nintegral 0 0\n"
    );
    assert_eq!(
        of(5, 0x1234_5000),
        "radius 0\nterm 1 2 3 4 5 5\nrange -5 5\nintegral 0 0\n"
    );
    assert_eq!(of(8, 0xF000_0001), "refused 5 0\n");
    assert_eq!(of(7, 0x0000_0001), "refused 5 0\n");
    for v in 1..=8 {
        let mut exponents = ["0"; 8];
        exponents[v - 1] = "1";
        let expected = format!(
            "radius 0\nterm {} 1048576\nrange -1048576 1048576\nintegral 0 0\n",
            exponents.join(" ")
        );
        assert_eq!(lines(8, 1, &[], Step::variable(v as u8)), expected);
    }
    assert_eq!(lines(8, 1, &[], Step::variable(9)), "refused 6 0\n");
}

/// (1/2 + x1^15)(x1 - 1): x1^16 is swept, and as a key it would be the constant.
#[test]
fn sixteen_does_not_leave_the_word() {
    let models = [
        model(0, &[(0, HALF), (0xF000_0000, UNIT)]),
        model(0, &[(0, -UNIT), (0x1000_0000, UNIT)]),
    ];
    let expected = "radius 1048576\nterm 0 0 0 0 0 0 0 0 -524288\nterm 1 0 0 0 0 0 0 0 524288\n\
        term 15 0 0 0 0 0 0 0 -1048576\nrange -3145728 2097152\nintegral -402653184 134217728\n";
    assert_eq!(lines(8, 15, &models, Step::two(MULTIPLY, 0, 1)), expected);
}

/// x8^15 x8 is not x7, and x5^15 x5 not x4, across the halves of a key.
#[test]
fn sixteen_does_not_reach_the_variable_before() {
    for (v, x) in [(8, 0x0000_0001), (5, 0x0000_1000)] {
        let models = [
            model(0, &[(0, HALF), (15 * x, UNIT)]),
            model(0, &[(x, UNIT), (16 * x, -UNIT)]),
        ];
        let term = |place: usize, c: i32| {
            let mut exponents = ["0"; 8];
            exponents[place - 1] = "1";
            format!("term {} {c}\n", exponents.join(" "))
        };
        // x/2 - y/2, and x^16 and x^15 y swept.
        let expected = format!(
            "radius 2097152\n{}{}range -3145728 3145728\nintegral -536870912 536870912\n",
            term(v, HALF),
            term(v - 1, -HALF)
        );
        assert_eq!(lines(8, 15, &models, Step::two(MULTIPLY, 0, 1)), expected);
    }
    // x6^17 and x5 x7^16: four different monomials above the order.
    let models = [
        model(0, &[(0x0000_0800, UNIT), (0x0000_1080, UNIT)]),
        model(0, &[(0x0000_0080, -UNIT), (0x0000_0900, UNIT)]),
    ];
    let expected = "radius 4194304\nrange -4194304 4194304\nintegral -1073741824 1073741824\n";
    assert_eq!(lines(8, 15, &models, Step::two(MULTIPLY, 0, 1)), expected);
}

/// The ends of an accepted call; q and r are 0.
fn integral(n: u8, radius: u64, terms: &[(u32, i64)]) -> [i128; 2] {
    let answer = calls::integral(&stored(n, radius, terms));
    assert_eq!(answer.refusal, None);
    assert_eq!(answer.integral.exact, Exact::default());
    [answer.integral.ends.low, answer.integral.ends.high]
}

#[test]
fn integrals_term_by_term() {
    // 256/9 is 28.4; the radius counts 256 times.
    assert_eq!(integral(8, 0, &[(0x0000_2002, 1)]), [28, 29]);
    assert_eq!(integral(8, 0, &[(0x0000_2002, -1)]), [-29, -28]);
    assert_eq!(integral(8, 3, &[(0x0000_2002, 10)]), [284 - 768, 285 + 768]);
    assert_eq!(integral(8, 0, &[(0x0000_2002, 9)]), [256, 256]);
    // 32/3 is 10.7, and 64 · -5/15 is -21.3.
    assert_eq!(integral(5, 0, &[(0x0000_2000, 1)]), [10, 11]);
    assert_eq!(integral(6, 0, &[(0x2000_0400, -5)]), [-22, -21]);
    // Thirds that would cancel are rounded apart: 85.3 - 85.3.
    let thirds = [(0x0000_0002, -1), (0x0000_2000, 1)];
    assert_eq!(integral(8, 0, &thirds), [-1, 1]);
    // In four variables they cancel.
    let few = calls::integral(&stored(4, 0, &[(0x0002_0000, -1), (0x2000_0000, 1)]));
    assert_eq!(few.integral, Integral::default());
    // Odd terms give 0, in any variable; nothing else is looked at.
    assert_eq!(
        integral(8, 1, &[(0x0000_0001, 7), (0x2000_0021, -9)]),
        [-256, 256]
    );
    assert_eq!(integral(7, 0, &[(0, 5)]), [640, 640]);
    // x^14 is the highest even power: 256/15 is 17.07.
    assert_eq!(integral(8, 0, &[(0x0000_000E, 1)]), [17, 18]);
    assert_eq!(integral(8, 0, &[(0, -(1 << 30))]), [-(1 << 38), -(1 << 38)]);
}

#[test]
fn n_of_nine() {
    let nine = stored(9, 0, &[]);
    assert_eq!(pair(calls::constant(9, 0).refusal), Some((3, 0)));
    assert_eq!(pair(calls::variable(9, 1).refusal), Some((3, 0)));
    assert_eq!(pair(calls::negate(&nine).refusal), Some((5, 0)));
    assert_eq!(pair(calls::range(&nine).refusal), Some((5, 0)));
    assert_eq!(pair(calls::evaluate(&nine, &[0; 8]).refusal), Some((5, 0)));
    let eight = stored(8, 0, &[]);
    assert_eq!(pair(calls::add(&eight, &nine).refusal), Some((5, 1)));
    assert_eq!(
        pair(calls::add(&eight, &stored(4, 0, &[])).refusal),
        Some((10, 0))
    );
    assert_eq!(calls::constant(8, 7).model, stored(8, 0, &[(0, 7)]));
    assert_eq!(calls::variable(8, 8).model, stored(8, 0, &[(1, 1 << 20)]));
    assert_eq!(pair(calls::variable(8, 9).refusal), Some((6, 0)));
    assert_eq!(pair(calls::variable(7, 8).refusal), Some((6, 0)));
    // A book of nine variables is 3, and a model of another n in it 5.
    let mut book = Book {
        n: 9,
        ..read(&by_hand()).book
    };
    assert_eq!(pair(run_book(&book).refusal), Some((3, 0)));
    book.n = 7;
    assert_eq!(pair(run_book(&book).refusal), Some((5, 0)));
}

/// 10 + 128 x1 + 64 x2 + .. + x8 with radius 3 at a corner: 128 - 64 + 32 - 16 + 8 - 4 + 2 - 1 is 85.
#[test]
fn an_evaluation_at_a_point_of_eight() {
    let mut terms = vec![(0, 10)];
    terms.extend((0..8).map(|place| (1 << (4 * place), 1 << place)));
    let f = stored(8, 3, &terms);
    let unit = i64::from(UNIT);
    let corner: [i64; 8] = std::array::from_fn(|place| if place % 2 == 0 { unit } else { -unit });
    let answer = calls::evaluate(&f, &corner);
    assert_eq!(answer.refusal, None);
    assert_eq!([answer.ends.low, answer.ends.high], [92, 98]);
    let alone = |place: usize, x: i64| {
        let mut point = [0; 8];
        point[place] = x;
        point
    };
    // Half of 64 is 32; half of 1 is rounded away, with a radius of 1.
    let ends = |point: [i64; 8]| {
        let answer = calls::evaluate(&f, &point);
        [answer.ends.low, answer.ends.high]
    };
    assert_eq!(ends(alone(1, unit / 2)), [39, 45]);
    assert_eq!(ends(alone(7, unit / 2)), [6, 14]);
    let refused = |f: &StoredModel, point: [i64; 8]| pair(calls::evaluate(f, &point).refusal);
    for place in 0..8 {
        assert_eq!(refused(&f, alone(place, unit)), None);
        assert_eq!(refused(&f, alone(place, unit + 1)), Some((9, 0)));
        assert_eq!(refused(&f, alone(place, -unit - 1)), Some((9, 0)));
    }
    for n in 1..8 {
        let mut point = alone(n, 1);
        let constant = stored(n as u8, 0, &[(0, 5)]);
        assert_eq!(refused(&constant, point), Some((6, 0)), "n = {n}");
        point[0] = unit + 1;
        assert_eq!(
            refused(&constant, point),
            Some((6, 0)),
            "6 before 9, n = {n}"
        );
        assert_eq!(refused(&constant, alone(n - 1, unit)), None);
    }
}

fn reordering(to: &[usize]) -> Reordering {
    Reordering::new(to).expect("a reordering")
}

/// Each variable becomes the next, and variable 8 the first.
fn cycle() -> Reordering {
    reordering(&[1, 2, 3, 4, 5, 6, 7, 0])
}

fn sixteenths((key, c): (u32, i32)) -> (u32, i32) {
    (key, c * UNIT / 16)
}

/// A constant, x8, x4² x5 and x1 x3².
fn before() -> Draft {
    let terms = [
        (0, 2),
        (0x0000_0001, 7),
        (0x0002_1000, -3),
        (0x1020_0000, 9),
    ]
    .map(sixteenths);
    let steps = vec![
        input(0),
        Step::variable(8),
        Step::constant(UNIT / 4),
        Step::two(MULTIPLY, 1, 2),
        Step::constant(UNIT),
        Step::two(ADD, 4, 3),
        Step::quotient(3, 5, 3, 4),
        Step::substitute(0, 3, 4),
        Step::antiderivative(7, 8),
        Step::sweep(8, UNIT / 32),
        Step::two(SUBTRACT, 9, 6),
        Step::one(NEGATE, 10),
        Step::two(MULTIPLY, 11, 0),
    ];
    Draft::new(8, 5, vec![model(5, &terms)], steps)
}

/// x8 is x1, x4² x5 is x5² x6, x1 x3² is x2 x4²; v of the quotient is step 3 as before.
fn after() -> Draft {
    let terms = [
        (0, 2),
        (0x0000_2100, -3),
        (0x0102_0000, 9),
        (0x1000_0000, 7),
    ]
    .map(sixteenths);
    let mut draft = before();
    draft.models = vec![model(5, &terms)];
    draft.steps[1] = Step::variable(1);
    draft.steps[7] = Step::substitute(0, 3, 5);
    draft.steps[8] = Step::antiderivative(7, 1);
    draft
}

#[test]
fn a_cycle_of_eight_by_hand() {
    assert_eq!(cycle().sheet(&before().bytes()), Some(after().bytes()));
    assert_eq!(
        cycle().inverse().sheet(&after().bytes()),
        Some(before().bytes())
    );
    let (old, new) = (
        report_sheet(&before().bytes()),
        report_sheet(&after().bytes()),
    );
    assert_eq!(old.answer.refusal, None);
    assert!(old.answer.model.count > 4);
    assert_eq!(new.answer, cycle().answer(&old.answer));
    assert_ne!(new.answer.model, old.answer.model);
    assert_eq!(new.shares, old.shares);
    let lines = [before(), after()].map(|draft| lines_of_sheet(&draft.bytes()));
    assert_eq!(lines[1], cycle().lines(&lines[0]));
    assert!(!lines[0].contains("exact"));
    // Eight times around is the sheet itself, and four times around is not.
    let mut sheet = before().bytes();
    for turn in 1..=8 {
        sheet = cycle().sheet(&sheet).expect("a sheet");
        assert_eq!(sheet == before().bytes(), turn == 8);
    }
}

/// Both round trips, for every n.
#[test]
fn sheets_and_books_come_back() {
    let mut random = Random::new(141);
    for n in 1..=8 {
        for number in 0..60 {
            let shape = sound::SHAPES[number % 3];
            let d = random.byte(1, 15);
            let bytes = sound::accepted_of(&mut random, n, d, shape).bytes();
            let mark = if n <= 4 { [0x4D, 0x4B] } else { [0x4D, 0x57] };
            assert_eq!(bytes[bytes.len() - 2..], mark);
            let book = read(&bytes).book;
            let mut buffer = vec![0xAA; 9_000];
            let written = write(&book, &mut buffer);
            assert_eq!(written.refusal, None);
            assert_eq!(buffer[..written.length], bytes);
            assert!(buffer[written.length..].iter().all(|&byte| byte == 0xAA));
            assert_eq!(read(&buffer[..written.length]).book, book);
            assert_eq!(run_book(&book), run_sheet(&bytes));
        }
    }
}

/// Bands at points and integrals hold for every n above four.
#[test]
fn runs_of_many_variables_are_enclosed() {
    let mut random = Random::new(142);
    for n in 5..=8 {
        let (mut points, mut integrals, mut too_large) = (0, 0, 0);
        for number in 0..400 {
            let shape = sound::SHAPES[number % 2];
            let d = random.byte(1, 15);
            let bytes = sound::accepted_of(&mut random, n, d, shape).bytes();
            let book = sound_book(&bytes).expect("accepted");
            let inside = functions::within_models(&mut random, &book);
            let at = functions::points(&mut random, book.n);
            let checked = check_sheet(&bytes, &inside, &at).expect("accepted");
            let checked = checked.expect("enclosed");
            points += checked.points;
            too_large += checked.points_too_large;
            integrals += usize::from(checked.integral);
        }
        println!("n = {n}: {points} points, {too_large} too large, {integrals} integrals");
        assert!(points > 800 && integrals > 80);
    }
}

/// The check sees an end that is one inside, and a remainder that is not owed.
#[test]
fn a_false_claim_is_seen() {
    let draft = Draft::new(8, 4, vec![model(0, &[(0x0000_2002, 10)])], vec![input(0)]);
    let book = sound_book(&draft.bytes()).expect("a sound sheet");
    let result = run(&book).expect("accepted");
    let inside = functions::within_models(&mut Random::new(5), &book);
    let check = |change: fn(&mut Integral)| {
        let mut claimed = result.clone();
        change(&mut claimed.integral);
        check_result(&book, &claimed, &inside, &[]).err()
    };
    assert_eq!(check(|_| ()), None);
    assert_eq!(
        check(|claim| claim.ends.low += 1),
        Some(Violation::Integral)
    );
    assert_eq!(
        check(|claim| claim.ends.high -= 1),
        Some(Violation::Integral)
    );
    assert_eq!(
        check(|claim| claim.exact.quotient = 284),
        Some(Violation::Exact)
    );
    assert_eq!(
        check(|claim| claim.exact.remainder = 1),
        Some(Violation::Exact)
    );
}

/// The same sheet in the last variables: variable i is variable i + 4, and the first four do not occur.
fn moved(book: &SoundBook) -> SoundBook {
    let monomial = |old: &Monomial| std::array::from_fn(|i| if i < 4 { 0 } else { old[i - 4] });
    let model = |old: &Model| Model {
        n: old.n + 4,
        polynomial: old
            .polynomial
            .iter()
            .map(|(m, &c)| (monomial(m), c))
            .collect(),
        radius: old.radius,
    };
    let step = |old: &Step| Step {
        v: match old.code {
            VARIABLE | SUBSTITUTE | ANTIDERIVATIVE => old.v + 4,
            _ => old.v,
        },
        ..*old
    };
    SoundBook {
        n: book.n + 4,
        order: book.order,
        models: book.models.iter().map(model).collect(),
        steps: book.steps.iter().map(step).collect(),
    }
}

/// Up to four variables nothing is new: a sheet and the same in the last variables have the same answer, with keys 16
/// bits lower. Of an integral that has 16 times the exact value both ends are rounded outward.
#[test]
fn the_last_variables_run_like_the_first() {
    let (mut accepted, mut refused) = (0, 0);
    for number in 0..6_000 {
        let Ok(book) = sound_book(&generate::sheet(145, number).bytes) else {
            continue;
        };
        if book.n > 4 {
            continue;
        }
        let first = report_sheet(&sheet_bytes(&book));
        let last = report_sheet(&sheet_bytes(&moved(&book)));
        assert_eq!(first.shares, last.shares);
        let (first, last) = (first.answer, last.answer);
        assert_eq!(first.refusal, last.refusal);
        if first.refusal.is_some() {
            assert_eq!(first, last);
            refused += 1;
            continue;
        }
        let mut shifted = first.model;
        shifted.n += 4;
        shifted.terms.iter_mut().for_each(|term| term.key >>= 16);
        assert_eq!(last.model, shifted);
        assert_eq!(last.range, first.range);
        let Exact {
            quotient,
            remainder,
        } = first.integral.exact;
        let exact = 16 * (quotient * DENOMINATOR + remainder);
        let of_radius = i128::from(shifted.radius) << shifted.n;
        let low = (last.integral.ends.low + of_radius) * DENOMINATOR;
        let high = (last.integral.ends.high - of_radius) * DENOMINATOR;
        assert!(low <= exact && exact <= high);
        assert!(high - low <= shifted.count as i128 * DENOMINATOR);
        accepted += 1;
    }
    println!("{accepted} accepted, {refused} refused");
    assert!(accepted > 800 && refused > 300);
}

/// Whether the model has terms, and those of variables 5 to 8 alone.
fn is_of_the_last(model: &Model) -> bool {
    let others = model.polynomial.keys().any(|m| m[..4] != NO_EXPONENTS[..4]);
    let last = model.polynomial.keys().any(|m| m[4..] != NO_EXPONENTS[4..]);
    last && !others
}

/// What generated sheets have: every n, models of variables 5 to 8 alone, results in the last variable.
#[test]
fn generated_sheets_have_every_n() {
    let mut by_n: BTreeMap<usize, usize> = BTreeMap::new();
    let (mut models, mut results, mut eighth) = (0, 0, 0);
    for number in 0..6_000 {
        let bytes = generate::sheet(143, number).bytes;
        let Ok(book) = sound_book(&bytes) else {
            continue;
        };
        models += book
            .models
            .iter()
            .filter(|model| is_of_the_last(model))
            .count();
        let answer = run_sheet(&bytes);
        if answer.refusal.is_none() {
            *by_n.entry(book.n).or_default() += 1;
            let result = answer.model.sound(15).expect("a sound result");
            results += usize::from(is_of_the_last(&result));
            let terms = &answer.model.terms[..answer.model.count];
            let in_eighth = |term: &StoredTerm| monomial_of_key(term.key)[7] > 0;
            eighth += usize::from(terms.iter().any(in_eighth));
        }
    }
    println!("{by_n:?}; of variables 5 to 8 alone: {models} models, {results} results; {eighth} with variable 8");
    assert!((1..=8).all(|n| by_n[&n] > 150));
    assert!(models > 1_000 && results > 100 && eighth > 40);
}

/// Reorderings of every n, and of eight variables such that no variable stays.
#[test]
fn generated_reorderings_have_every_n() {
    let mut by_n: BTreeMap<usize, usize> = BTreeMap::new();
    let mut none_stays = 0;
    for number in 0..2_000 {
        let (_, other) = reorderings::renamed(144, number);
        *by_n.entry(other.variables()).or_default() += 1;
        let stays = |(from, &to): (usize, &usize)| from == to;
        let stays = other.places().iter().enumerate().any(stays);
        none_stays += usize::from(other.variables() == 8 && !stays);
    }
    println!("{by_n:?}, {none_stays} of eight in which none stays");
    assert!((2..=8).all(|n| by_n[&n] > 80) && none_stays > 30);
}
