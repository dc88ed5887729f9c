//! The header's figures of stack, at their values: every exported function is entered on a stack of exactly so many
//! bytes. What lies below the stack may not be touched: a call that needs more ends the test by a signal. The few words
//! that the test itself needs to hand over the arguments count as the call's.

use hechroung::raw::{self, Handed, HandedBook, HandedCurve, HandedModels, HandedReadings};
use hechroung::{CURVE_PLACES, MOST_MODELS, MOST_STEPS, MOST_TERMS, MOST_VARS};
use hechroung::{LONGEST_RECORD, LONGEST_SHEET, LONGEST_TEXT};
use reference::archive::Call as ArchiveCall;
use reference::book::{Book, Step, ANTIDERIVATIVE, INPUT, MULTIPLY, QUOTIENT, SUBSTITUTE};
use reference::chebyshev::{Call as CurveCall, StoredChebyshev};
use reference::doubles::Record;
use reference::generate::{
    self, archive, books, chebyshev, cuts, quotients, Draft, DraftModel, Random,
};
use reference::run::trace;
use reference::sheet;
use reference::stored::StoredModel;
use std::arch::asm;
use std::ffi::{c_int, c_void};
use std::process::Command;

/// What the header says, in bytes: a single call; a run of a sheet or a book; the run of a sheet that asks for few
/// products; reading and writing; stepping.
const CALL: usize = 160 << 10;
const RUN: usize = 320 << 10;
const SMALL_RUN: usize = 144 << 10;
const WRITE: usize = 160 << 10;
const STEP: usize = 4 << 10;
/// Generated sheets and books, and pairs of models.
const GENERATED: u64 = 1_000;
/// The most products that a step of a small sheet asks for.
const FEW_PRODUCTS: usize = 256;

/// What may not be touched below a stack: more than any frame.
const BELOW: usize = 4 << 20;
/// What a stack holds before a call, so that its deepest place is seen.
const MARK: u8 = 0xA5;

extern "C" {
    fn mmap(
        at: *mut c_void,
        length: usize,
        access: c_int,
        flags: c_int,
        file: c_int,
        from: i64,
    ) -> *mut c_void;
    fn mprotect(at: *mut c_void, length: usize, access: c_int) -> c_int;
    fn munmap(at: *mut c_void, length: usize) -> c_int;
}

/// A stack of so many bytes, to the page above what is asked; its top is moved down so that exactly so many are left.
struct Stack {
    map: *mut u8,
    length: usize,
    room: usize,
}

impl Stack {
    fn new(room: usize) -> Stack {
        let room = room / 16 * 16;
        let pages = room.div_ceil(4096) * 4096;
        let length = BELOW + pages;
        // SAFETY: a private mapping of its own, of which the lower part is closed.
        let map = unsafe {
            let map = mmap(std::ptr::null_mut(), length, 3, 0x22, -1, 0);
            assert!(map as isize != -1, "there is room for a stack");
            assert_eq!(mprotect(map, BELOW, 0), 0);
            map.cast::<u8>()
        };
        Stack { map, length, room }
    }

    fn bytes(&mut self) -> &mut [u8] {
        // SAFETY: the open part of the mapping, which nothing else uses between calls.
        unsafe { std::slice::from_raw_parts_mut(self.map.add(BELOW), self.room) }
    }

    /// Runs the work on this stack; how many bytes of it were used.
    fn run<F: FnMut()>(&mut self, mut work: F) -> usize {
        extern "C" fn entered<F: FnMut()>(work: *mut c_void) {
            // SAFETY: the pointer is to the work below, which lives until this returns.
            let work = unsafe { &mut *work.cast::<F>() };
            work();
        }
        self.bytes().fill(MARK);
        // SAFETY: the top is aligned to 16 bytes, and the work does not unwind (a panic aborts at the border to C).
        unsafe {
            let top = self.map.add(BELOW + self.room);
            let enter: extern "C" fn(*mut c_void) = entered::<F>;
            asm!(
                "mov r12, rsp",
                "mov rsp, {top}",
                "call {enter}",
                "mov rsp, r12",
                top = in(reg) top,
                enter = in(reg) enter,
                in("rdi") std::ptr::from_mut(&mut work).cast::<c_void>(),
                out("r12") _,
                clobber_abi("C"),
            );
        }
        let room = self.room;
        let untouched = self
            .bytes()
            .iter()
            .take_while(|byte| **byte == MARK)
            .count();
        room - untouched
    }
}

impl Drop for Stack {
    fn drop(&mut self) {
        // SAFETY: the mapping of `new`, which nothing uses any more.
        unsafe { munmap(self.map.cast(), self.length) };
    }
}

/// A model's slices.
struct Borrowed {
    n: u8,
    count: usize,
    radius: u64,
    keys: [u32; MOST_TERMS],
    coefficients: [i64; MOST_TERMS],
}

impl Borrowed {
    fn new(model: &StoredModel) -> Borrowed {
        Borrowed {
            n: model.n,
            count: model.count,
            radius: model.radius,
            keys: model.terms.map(|term| term.key),
            coefficients: model.terms.map(|term| term.coefficient),
        }
    }

    fn handed(&self) -> Handed<'_> {
        Handed {
            n: self.n,
            count: self.count,
            radius: self.radius,
            keys: &self.keys,
            coefficients: &self.coefficients,
        }
    }
}

/// What a call or a run stores.
struct Answer {
    number: u8,
    keys: [u32; MOST_TERMS],
    coefficients: [i64; MOST_TERMS],
    numbers: [u64; 4],
    ends: [i64; 6],
    shares: [u64; 4 * MOST_STEPS],
}

impl Answer {
    const NONE: Answer = Answer {
        number: 0,
        keys: [0; MOST_TERMS],
        coefficients: [0; MOST_TERMS],
        numbers: [0; 4],
        ends: [0; 6],
        shares: [0; 4 * MOST_STEPS],
    };

    fn call(&mut self, code: u8, d: u8, i: u8, f: &Borrowed, g: &Borrowed) {
        self.number = raw::call(
            code,
            d,
            i,
            1,
            f.handed(),
            g.handed(),
            &mut self.keys,
            &mut self.coefficients,
            &mut self.numbers,
        );
    }

    fn quotient(&mut self, d: u8, models: HandedModels<'_>) {
        self.number = raw::quotient(
            d,
            models,
            &mut self.keys,
            &mut self.coefficients,
            &mut self.numbers,
        );
    }

    fn doubles(&mut self, record: &Record) {
        self.number = raw::doubles(
            record.coefficients.map(f64::from_bits),
            f64::from_bits(record.radius),
            &mut self.keys,
            &mut self.coefficients,
            &mut self.numbers,
        );
    }

    fn readings(&mut self, f: &Borrowed, rows: HandedReadings<'_>) {
        self.number = raw::readings(f.handed(), rows, &mut self.numbers);
    }

    fn store(&mut self, f: &Borrowed, buffer: &mut [u8]) {
        self.number = raw::store(f.handed(), buffer, &mut self.numbers);
    }

    fn restore(&mut self, bytes: &[u8], terms: usize) {
        self.number = raw::restore(
            bytes,
            terms,
            &mut self.keys,
            &mut self.coefficients,
            &mut self.numbers,
        );
    }

    fn run(&mut self, sheet: &[u8]) {
        self.number = raw::run(
            sheet,
            &mut self.keys,
            &mut self.coefficients,
            &mut self.numbers,
            &mut self.ends,
        );
    }

    fn run_book(&mut self, book: HandedBook<'_>) {
        self.number = raw::run_book(
            book,
            &mut self.keys,
            &mut self.coefficients,
            &mut self.numbers,
            &mut self.ends,
        );
    }

    fn shares(&mut self, sheet: &[u8]) {
        self.number = raw::shares(
            sheet,
            &mut self.keys,
            &mut self.coefficients,
            &mut self.numbers,
            &mut self.ends,
            &mut self.shares,
        );
    }

    fn shares_book(&mut self, book: HandedBook<'_>) {
        self.number = raw::shares_book(
            book,
            &mut self.keys,
            &mut self.coefficients,
            &mut self.numbers,
            &mut self.ends,
            &mut self.shares,
        );
    }

    fn curve(&mut self, code: u8, f: &StoredChebyshev, g: &StoredChebyshev) {
        self.number = raw::curve(
            code,
            borrowed(f),
            borrowed(g),
            &mut self.coefficients,
            &mut self.numbers,
        );
    }

    fn curve_range(&mut self, f: &StoredChebyshev) {
        self.number = raw::curve_range(borrowed(f), &mut self.ends);
    }

    fn curve_to_powers(&mut self, f: &StoredChebyshev) {
        self.number = raw::to_powers(
            borrowed(f),
            &mut self.keys,
            &mut self.coefficients,
            &mut self.numbers,
        );
    }

    fn curve_from_powers(&mut self, f: &Borrowed) {
        self.number = raw::from_powers(f.handed(), &mut self.coefficients, &mut self.numbers);
    }

    fn cut_range(&mut self, d: u8, i: u8, k: u8, f: &Borrowed) {
        self.number = raw::cut_range(d, i, k, f.handed(), &mut self.ends, &mut self.numbers);
    }
}

/// The slices of a quotient's four models.
struct LentModels {
    ns: [u8; 4],
    counts: [usize; 4],
    radii: [u64; 4],
    keys: Vec<u32>,
    coefficients: Vec<i64>,
}

impl LentModels {
    fn new(models: &[StoredModel; 4]) -> LentModels {
        let terms = || models.iter().flat_map(|model| model.terms.iter());
        LentModels {
            ns: models.map(|model| model.n),
            counts: models.map(|model| model.count),
            radii: models.map(|model| model.radius),
            keys: terms().map(|term| term.key).collect(),
            coefficients: terms().map(|term| term.coefficient).collect(),
        }
    }

    fn handed(&self) -> HandedModels<'_> {
        HandedModels {
            ns: &self.ns,
            counts: &self.counts,
            radii: &self.radii,
            keys: &self.keys,
            coefficients: &self.coefficients,
        }
    }
}

/// A book's slices.
struct LentBook {
    book: Box<Book>,
    ns: Vec<u8>,
    counts: Vec<usize>,
    radii: Vec<u64>,
    keys: Vec<u32>,
    coefficients: Vec<i64>,
    fields: Vec<u8>,
    values: Vec<i64>,
}

impl LentBook {
    fn new(book: Book) -> LentBook {
        let models = &book.models;
        let terms = || models.iter().flat_map(|model| model.terms.iter());
        let steps = &book.steps;
        assert_eq!((models.len(), steps.len()), (MOST_MODELS, MOST_STEPS));
        LentBook {
            ns: models.iter().map(|model| model.n).collect(),
            counts: models.iter().map(|model| model.count).collect(),
            radii: models.iter().map(|model| model.radius).collect(),
            keys: terms().map(|term| term.key).collect(),
            coefficients: terms().map(|term| term.coefficient).collect(),
            fields: steps
                .iter()
                .flat_map(|step| [step.code, step.a, step.b, step.v])
                .collect(),
            values: steps.iter().map(|step| step.value).collect(),
            book: Box::new(book),
        }
    }

    fn handed(&self) -> HandedBook<'_> {
        HandedBook {
            n: self.book.n,
            d: self.book.d,
            model_count: self.book.model_count,
            step_count: self.book.step_count,
            ns: &self.ns,
            counts: &self.counts,
            radii: &self.radii,
            keys: &self.keys,
            coefficients: &self.coefficients,
            fields: &self.fields,
            values: &self.values,
        }
    }
}

/// The numbers of variables of the heaviest inputs: both widths of keys on a sheet.
const HEAVIEST: [u8; 2] = [4, 8];

/// 64 terms in n variables, with all powers of the first variable up to 15.
fn heaviest_keys(n: u8) -> Vec<u32> {
    let mut keys: Vec<u32> = (0..16).map(|power| power << 28).collect();
    let last = (1..).filter(|key| key >> 12 == 0 && (key & 15) + (key >> 4 & 15) + (key >> 8) < 16);
    keys.extend(
        last.take(MOST_TERMS - 16)
            .map(|key: u32| key << (4 * (8 - n))),
    );
    keys.sort_unstable();
    keys
}

/// At these keys coefficients so small that no step leaves the box and that results keep their terms.
fn heaviest_model(n: u8, constant: i32) -> DraftModel {
    DraftModel {
        radius: 5,
        terms: heaviest_keys(n)
            .into_iter()
            .map(|key| (key, if key == 0 { constant } else { 3 }))
            .collect(),
    }
}

/// About 1/2, 1/2, 1 and 2: the first over the second is the third, and the fourth is one over the second.
fn heaviest_operands(n: u8) -> [DraftModel; 4] {
    [1 << 19, 1 << 19, 1 << 20, 1 << 21].map(|constant| heaviest_model(n, constant))
}

/// Sixteen such models; inputs, and then products, substitutions, quotients and antiderivatives in turn up to 64 steps.
fn heaviest_sheet(n: u8) -> Vec<u8> {
    let mut models = heaviest_operands(n).to_vec();
    models.resize(MOST_MODELS, heaviest_model(n, 1 << 19));
    let mut steps: Vec<Step> = (0..4).map(|model| Step::one(INPUT, model)).collect();
    while steps.len() < MOST_STEPS {
        let v = steps.len() as u8 % n + 1;
        steps.push(match steps.len() % 4 {
            0 => Step::two(MULTIPLY, 0, 1),
            1 => Step::substitute(0, 1, v),
            2 => Step::antiderivative(0, v),
            _ => Step::quotient(0, 1, 2, 3),
        });
        assert!(matches!(
            steps.last().map(|step| step.code),
            Some(MULTIPLY | SUBSTITUTE | QUOTIENT | ANTIDERIVATIVE)
        ));
    }
    Draft::new(n, 15, models, steps).bytes()
}

/// The most products that a step of a sheet asks for: one for each pair of terms. A quotient has three products, and the
/// difference of which it makes one may have 64 terms. So may what a substitution multiplies by the model that is put in.
/// A sheet that is refused asks for what its steps up to the refused one do.
fn products_asked(bytes: &[u8]) -> usize {
    let Ok(book) = sheet::sound_book(bytes) else {
        return 0;
    };
    let trace = trace(&book);
    let terms = |step: u8| trace.steps[usize::from(step)].model.polynomial.len();
    let ran = trace.steps.len() + usize::from(trace.refusal.is_some());
    let asked = book.steps.iter().take(ran).map(|step| match step.code {
        MULTIPLY => terms(step.a) * terms(step.b),
        SUBSTITUTE => MOST_TERMS * terms(step.b),
        QUOTIENT => {
            let last = u8::try_from(step.value).expect("a sound quotient names a step");
            (terms(step.b) * terms(step.v)).max(MOST_TERMS * terms(last))
        }
        _ => 0,
    });
    asked.max().unwrap_or(0)
}

/// As many models and steps as there can be in one variable, where no model has more than 16 terms, and the one that is
/// put into another no more than 4.
fn largest_small_sheet() -> Vec<u8> {
    let model = |terms: u32| DraftModel {
        radius: 5,
        terms: (0..terms)
            .map(|power| (power << 28, if power == 0 { 1 << 19 } else { 3 }))
            .collect(),
    };
    let mut models = vec![model(16); MOST_MODELS];
    models[2] = model(4);
    let mut steps: Vec<Step> = (0..3).map(|number| Step::one(INPUT, number)).collect();
    while steps.len() < MOST_STEPS {
        steps.push(match steps.len() % 3 {
            0 => Step::two(MULTIPLY, 0, 1),
            1 => Step::antiderivative(0, 1),
            _ => Step::substitute(0, 2, 1),
        });
    }
    Draft::new(1, 15, models, steps).bytes()
}

fn sheets() -> Vec<Vec<u8>> {
    let named = generate::named_sheets().into_iter();
    let generated = (0..GENERATED).map(|number| generate::sheet(7, number));
    let mut all: Vec<_> = named.chain(generated).map(|sample| sample.bytes).collect();
    all.extend(HEAVIEST.map(heaviest_sheet));
    all
}

fn books_of(sheets: &[Vec<u8>]) -> Vec<LentBook> {
    let read = sheets.iter().map(|bytes| sheet::read(bytes).book);
    let generated = (0..GENERATED).map(|number| books::book(7, number));
    read.chain(generated).map(LentBook::new).collect()
}

/// The most that was used, for a line that the test prints.
fn most(name: &str, figure: usize, used: impl Iterator<Item = usize>) -> usize {
    let most = used.max().expect("there are inputs");
    println!("{name}: {most} of {figure} bytes");
    most
}

#[test]
fn a_call_stays_within_its_figure() {
    let mut stack = Stack::new(CALL);
    let mut pairs: Vec<(Borrowed, Borrowed)> = Vec::new();
    for n in HEAVIEST {
        let heaviest = sheet::read(&heaviest_sheet(n));
        assert_eq!(heaviest.refusal, None);
        let heavy = &heaviest.book.models[..2];
        pairs.push((Borrowed::new(&heavy[0]), Borrowed::new(&heavy[1])));
    }
    for number in 0..GENERATED {
        let book = books::sound_book(&mut Random::new(number));
        let last = book.model_count.saturating_sub(1);
        pairs.push((
            Borrowed::new(&book.models[0]),
            Borrowed::new(&book.models[last]),
        ));
    }
    for code in (1..=8).chain([10]) {
        let mut accepted = 0;
        let used = pairs.iter().enumerate().map(|(k, (f, g))| {
            // The heaviest are of order 15.
            let d = 15 - (k.saturating_sub(HEAVIEST.len() - 1) % 15) as u8;
            let i = 1 + (k % usize::from(f.n.max(1))) as u8;
            let mut answer = Answer::NONE;
            let used = stack.run(|| answer.call(code, d, i, f, g));
            accepted += u64::from(answer.number == 0);
            assert!(
                k >= HEAVIEST.len() || answer.number == 0,
                "the heaviest is accepted"
            );
            used
        });
        most(&format!("call {code}"), CALL, used);
        assert!(accepted > 10, "call {code}: {accepted} accepted");
    }
    for code in 1..=3 {
        let used = pairs.iter().map(|(f, _)| {
            let within = [1 << 19, -3, 7, 1 << 20, -1 << 18, 5, -(1 << 20), 9];
            let mut point = [0; MOST_VARS];
            let used = usize::from(f.n).min(MOST_VARS);
            point[..used].copy_from_slice(&within[..used]);
            let mut ends = [0; 4];
            stack.run(|| {
                let _ = raw::ends(code, f.handed(), &point, &mut ends);
            })
        });
        most(&format!("ends {code}"), CALL, used);
    }
}

#[test]
fn a_quotient_stays_within_its_figure() {
    let mut stack = Stack::new(CALL);
    let stored = |n: u8, models: &[DraftModel; 4]| {
        LentModels::new(
            &models
                .each_ref()
                .map(|draft| StoredModel::store(&draft.model(n))),
        )
    };
    let mut operands = HEAVIEST
        .map(|n| (15, stored(n, &heaviest_operands(n))))
        .into_iter()
        .collect::<Vec<_>>();
    let mut random = Random::new(7);
    for number in 0..GENERATED as usize {
        let made = match number % 2 {
            0 => quotients::accepted(&mut random),
            _ => (quotients::REFUSED[number / 2 % quotients::REFUSED.len()].make)(&mut random),
        };
        operands.push((made.d, stored(made.n, &made.models)));
    }
    let mut accepted = 0;
    let used = operands.iter().enumerate().map(|(k, (d, models))| {
        let mut answer = Answer::NONE;
        let used = stack.run(|| answer.quotient(*d, models.handed()));
        accepted += u64::from(answer.number == 0);
        assert!(
            k >= HEAVIEST.len() || answer.number == 0,
            "the heaviest is accepted"
        );
        used
    });
    most("quotient", CALL, used);
    assert!(accepted > 10, "quotient: {accepted} accepted");
}

/// The slices of a curve.
fn borrowed(curve: &StoredChebyshev) -> HandedCurve<'_> {
    HandedCurve {
        coefficients: &curve.coefficients,
        radius: curve.radius,
    }
}

/// Generated calls, and both conversions of a curve and a model with all places in use.
fn curve_calls() -> Vec<CurveCall> {
    let generated = (0..7 * GENERATED).map(|number| chebyshev::call(7, number));
    let mut all: Vec<_> = generated.collect();
    let f = StoredChebyshev {
        coefficients: [3; CURVE_PLACES],
        radius: 5,
    };
    let powers = DraftModel {
        radius: 5,
        terms: (0..CURVE_PLACES as u32)
            .map(|power| (power << 28, 3))
            .collect(),
    };
    all.extend([
        CurveCall::Multiply { f, g: f },
        CurveCall::ToPowers { f },
        CurveCall::FromPowers {
            f: Box::new(StoredModel::store(&powers.model(1))),
        },
    ]);
    all
}

#[test]
fn a_call_on_curves_stays_within_its_figure() {
    let mut stack = Stack::new(CALL);
    let mut accepted = 0;
    let used = curve_calls().into_iter().map(|call| {
        let mut answer = Answer::NONE;
        let used = match &call {
            CurveCall::Negate { f } => stack.run(|| answer.curve(3, f, f)),
            CurveCall::Add { f, g } => stack.run(|| answer.curve(4, f, g)),
            CurveCall::Subtract { f, g } => stack.run(|| answer.curve(5, f, g)),
            CurveCall::Multiply { f, g } => stack.run(|| answer.curve(6, f, g)),
            CurveCall::Range { f } => stack.run(|| answer.curve_range(f)),
            CurveCall::ToPowers { f } => stack.run(|| answer.curve_to_powers(f)),
            CurveCall::FromPowers { f } => {
                let f = Borrowed::new(f);
                stack.run(|| answer.curve_from_powers(&f))
            }
        };
        let expected = call
            .answer()
            .refusal()
            .map_or(0, |refusal| refusal.number());
        assert_eq!(answer.number, expected, "{call:?}");
        accepted += u64::from(answer.number == 0);
        used
    });
    most("curves", CALL, used);
    assert!(accepted > GENERATED, "curves: {accepted} accepted");
}

#[test]
fn a_cut_range_stays_within_its_figure() {
    let mut stack = Stack::new(CALL);
    let mut accepted = 0;
    let used = (0..GENERATED).map(|number| {
        let call = cuts::call(11, number);
        let f = Borrowed::new(&call.f);
        let mut answer = Answer::NONE;
        let used = stack.run(|| answer.cut_range(call.order, call.i, call.depth, &f));
        let refusal = call.answer().refusal;
        let expected = refusal.map_or(0, |refusal| refusal.number());
        assert_eq!(answer.number, expected, "{call:?}");
        accepted += u64::from(answer.number == 0);
        used
    });
    most("cut range", CALL, used);
    assert!(accepted > GENERATED / 4, "cut range: {accepted} accepted");
}

#[test]
fn a_curve_in_doubles_stays_within_the_figure_of_a_call() {
    let mut stack = Stack::new(CALL);
    let mut accepted = 0;
    let used = (0..GENERATED).map(|number| {
        let record = generate::doubles::record(7, number);
        let mut answer = Answer::NONE;
        let used = stack.run(|| answer.doubles(&record));
        accepted += u64::from(answer.number == 0);
        used
    });
    most("doubles", CALL, used);
    assert!(accepted > 10, "doubles: {accepted} accepted");
}

#[test]
fn a_row_of_readings_stays_within_the_figure_of_a_call() {
    let mut stack = Stack::new(CALL);
    let mut accepted = 0;
    let used = (0..GENERATED).map(|number| {
        let call = generate::readings::call(7, number);
        let f = Borrowed::new(&call.f);
        let points: Vec<i64> = call.readings.iter().flat_map(|row| row.point).collect();
        let lows: Vec<i64> = call.readings.iter().map(|row| row.low).collect();
        let highs: Vec<i64> = call.readings.iter().map(|row| row.high).collect();
        let rows = HandedReadings {
            points: &points,
            lows: &lows,
            highs: &highs,
        };
        let mut answer = Answer::NONE;
        let used = stack.run(|| answer.readings(&f, rows));
        accepted += u64::from(answer.number == 0);
        used
    });
    most("readings", CALL, used);
    assert!(accepted > GENERATED / 4, "readings: {accepted} accepted");
}

#[test]
fn the_archive_stays_within_the_figure_of_a_call() {
    let mut stack = Stack::new(CALL);
    let mut accepted = 0;
    let used = (0..GENERATED).map(|number| {
        let mut answer = Answer::NONE;
        let used = match archive::call(7, number) {
            ArchiveCall::Store { f, mut buffer } => {
                let f = Borrowed::new(&f);
                stack.run(|| answer.store(&f, &mut buffer))
            }
            ArchiveCall::Restore { bytes, most } => stack.run(|| answer.restore(&bytes, most)),
        };
        accepted += u64::from(answer.number == 0);
        used
    });
    most("archive", CALL, used);
    assert!(accepted > GENERATED / 4, "archive: {accepted} accepted");
}

#[test]
fn a_run_stays_within_its_figure() {
    let mut stack = Stack::new(RUN);
    let sheets = sheets();
    let mut answer = Answer::NONE;
    let used = sheets.iter().map(|sheet| stack.run(|| answer.run(sheet)));
    most("run", RUN, used);
    for n in HEAVIEST {
        answer.run(&heaviest_sheet(n));
        assert_eq!(answer.number, 0, "the heaviest is accepted");
    }
    let mut lines = [0; LONGEST_TEXT];
    let used = sheets.iter().map(|sheet| {
        stack.run(|| {
            raw::print(sheet, &mut lines);
        })
    });
    most("print", RUN, used);
    let books = books_of(&sheets);
    let used = books
        .iter()
        .map(|book| stack.run(|| answer.run_book(book.handed())));
    most("run_book", RUN, used);
    let used = sheets
        .iter()
        .map(|sheet| stack.run(|| answer.shares(sheet)));
    most("shares", RUN, used);
    assert_eq!(answer.number, 0, "the heaviest is accepted");
    let used = books
        .iter()
        .map(|book| stack.run(|| answer.shares_book(book.handed())));
    most("shares_book", RUN, used);
}

#[test]
fn the_run_of_a_small_sheet_stays_within_its_figure() {
    let mut stack = Stack::new(SMALL_RUN);
    let mut sheets = sheets();
    sheets.push(largest_small_sheet());
    sheets.retain(|sheet| products_asked(sheet) <= FEW_PRODUCTS);
    assert!(sheets.len() as u64 > GENERATED / 4, "{}", sheets.len());
    let mut answer = Answer::NONE;
    let used = sheets.iter().map(|sheet| stack.run(|| answer.run(sheet)));
    most("small run", SMALL_RUN, used);
    assert_eq!(answer.number, 0, "the largest small sheet is accepted");
    let used = sheets
        .iter()
        .map(|sheet| stack.run(|| answer.shares(sheet)));
    most("small shares", SMALL_RUN, used);
    let mut lines = [0; LONGEST_TEXT];
    let used = sheets.iter().map(|sheet| {
        stack.run(|| {
            raw::print(sheet, &mut lines);
        })
    });
    most("small print", SMALL_RUN, used);
}

#[test]
fn writing_stays_within_its_figure() {
    let mut stack = Stack::new(WRITE);
    let sheets = sheets();
    let (mut buffer, mut numbers) = ([0; LONGEST_SHEET], [0; 2]);
    let used = sheets.iter().map(|sheet| {
        stack.run(|| {
            let _ = raw::rewrite(sheet, &mut buffer, &mut numbers);
        })
    });
    most("rewrite", WRITE, used);
    let books = books_of(&sheets);
    let used = books.iter().map(|book| {
        stack.run(|| {
            let _ = raw::write(book.handed(), &mut buffer, &mut numbers);
        })
    });
    most("write", WRITE, used);
}

#[test]
fn stepping_stays_within_its_figure() {
    let mut stack = Stack::new(STEP);
    let sheets = sheets();
    let (mut bytes, mut numbers) = ([0; LONGEST_RECORD], [0; 2]);
    let used = sheets.iter().map(|sheet| {
        stack.run(|| {
            let _ = raw::open(sheet, &mut numbers);
        })
    });
    most("open", STEP, used);
    let used = sheets.iter().map(|sheet| {
        stack.run(|| {
            let _ = raw::next(sheet, 0, &mut bytes, &mut numbers);
        })
    });
    most("next", STEP, used);
    let used = sheets.iter().map(|sheet| {
        stack.run(|| {
            raw::record(sheet, sheet.len() % 20, &mut bytes);
        })
    });
    most("record", STEP, used);
}

/// The run of the heaviest sheet on a stack of so many bytes, in a process of its own: whether it ends by itself.
fn ends_within(room: usize) -> bool {
    let test = std::env::current_exe().expect("this test is a file");
    let status = Command::new(test)
        .args(["--ignored", "--exact", "the_heaviest_run"])
        .env("STACK_ROOM", room.to_string())
        .output()
        .expect("this test can be started")
        .status;
    assert!(status.success() || status.code().is_none(), "{status}");
    status.success()
}

#[test]
#[ignore = "run by the test below, in a process of its own"]
fn the_heaviest_run() {
    let room = std::env::var("STACK_ROOM").expect("the test below sets it");
    let mut stack = Stack::new(room.parse().expect("it is a number"));
    let mut answer = Answer::NONE;
    let sheet = heaviest_sheet(8);
    stack.run(|| answer.run(&sheet));
    assert_eq!(answer.number, 0);
}

#[test]
fn a_stack_that_is_a_page_too_short_is_seen() {
    let mut answer = Answer::NONE;
    let sheet = heaviest_sheet(8);
    let used = Stack::new(RUN).run(|| answer.run(&sheet));
    let pages = used.div_ceil(4096) * 4096;
    assert!(ends_within(pages));
    assert!(!ends_within(pages - 4096));
}
