//! The calls of the Rust wrapper as one function for a fuzzer. Each input names a call and its arguments; no call may
//! panic, and ways that lead to the same answer have to agree.

use hechroung::{curves, Book, Curve, Doubles, Model, Reading, Refusal, Step};
use hechroung::{CURVE_PLACES, LONGEST_ARCHIVED, LONGEST_SHEET, MOST_TERMS, MOST_VARS};

/// What libFuzzer calls.
///
/// # Safety
///
/// `data` points to `size` bytes.
#[no_mangle]
pub unsafe extern "C" fn LLVMFuzzerTestOneInput(data: *const u8, size: usize) -> i32 {
    if size > 0 {
        let (first, rest) = std::slice::from_raw_parts(data, size).split_at(1);
        let mut input = Input(rest);
        match first[0] % 9 {
            0 => sheet(rest),
            1 => book(&mut input),
            2 => call(&mut input),
            3 => ends(&mut input),
            4 => curve(&mut input),
            5 => doubles(&mut input),
            6 => readings(&mut input),
            7 => archive(&mut input),
            _ => written(rest),
        }
    }
    0
}

/// Bytes taken apart into numbers; after the last one come zeros.
struct Input<'data>(&'data [u8]);

impl Input<'_> {
    fn take(&mut self, bytes: usize) -> u64 {
        let (now, later) = self.0.split_at(bytes.min(self.0.len()));
        self.0 = later;
        now.iter()
            .rev()
            .fold(0, |number, byte| number << 8 | u64::from(*byte))
    }

    fn byte(&mut self) -> u8 {
        self.take(1) as u8
    }

    fn wide(&mut self) -> i64 {
        self.take(8) as i64
    }

    /// Any numbers at all, or rising keys, small coefficients and this n, which mostly make a sound model.
    fn model(&mut self, n: u8) -> Model {
        let form = self.byte();
        let last = 32 - 4 * u32::from(n.clamp(1, 8));
        let mut model = Model {
            n: if form & 1 != 0 { n } else { self.byte() },
            count: if form & 2 != 0 {
                usize::from(self.byte() % 9)
            } else {
                self.take(8) as usize
            },
            radius: if form & 4 != 0 {
                self.take(2)
            } else {
                self.take(8)
            },
            keys: [0; MOST_TERMS],
            coefficients: [0; MOST_TERMS],
        };
        let mut key = 0u32;
        for place in 0..model.count.min(MOST_TERMS) {
            let more = if form & 8 != 0 {
                u32::from(self.byte()) << last
            } else {
                self.take(4) as u32
            };
            key = key.wrapping_add(more);
            model.keys[place] = key;
            model.coefficients[place] = if form & 16 != 0 {
                i64::from(self.take(2) as i16)
            } else {
                self.wide()
            };
        }
        model
    }
}

/// The refusal's number is one, also as words.
fn in_form<T>(answer: &Result<T, Refusal>) {
    if let Err(refusal) = answer {
        assert!((1..=17).contains(&refusal.number));
        assert!(!refusal.to_string().is_empty());
    }
}

/// Run, shares, lines and records of a sheet.
fn sheet(bytes: &[u8]) {
    let run = hechroung::run(bytes);
    in_form(&run);
    let lines = hechroung::lines(bytes);
    match &run {
        Ok(summary) => {
            assert!(lines.starts_with("radius "));
            assert!(summary.model.terms().count() == summary.model.count);
        }
        Err(refusal) => {
            let words = format!("refused {} {}\n", refusal.number, refusal.place);
            assert_eq!(lines, words);
        }
    }
    let shares = hechroung::shares(bytes);
    assert_eq!(
        shares.map(|report| report.summary).map_err(Refusal::from),
        run
    );
    let records: Result<Vec<_>, _> = hechroung::records(bytes).map(Iterator::collect);
    let opened: Result<Vec<_>, _> =
        hechroung::open(bytes).map(|r| r.map(|record| record.bytes).collect());
    assert_eq!(records, opened);
}

/// Read and written back into a buffer of any length.
fn written(bytes: &[u8]) {
    let mut buffer = vec![0; bytes.len()];
    match hechroung::rewrite(bytes, &mut buffer) {
        Ok(length) => assert_eq!(&buffer[..length], bytes),
        Err(refusal) => assert!(refusal.number <= 11),
    }
    let _ = hechroung::rewrite(bytes, &mut buffer[..bytes.len() / 2]);
}

/// A book: run, with shares, and written and run as a sheet.
fn book(input: &mut Input) {
    let (n, d) = (input.byte(), input.byte());
    let (model_count, step_count) = (input.byte() % 19, input.byte() % 70);
    let models: Vec<Model> = (0..model_count).map(|_| input.model(n)).collect();
    let steps: Vec<Step> = (0..step_count)
        .map(|_| Step {
            code: input.byte() % 12,
            a: input.byte(),
            b: input.byte(),
            v: input.byte(),
            value: input.wide(),
        })
        .collect();
    let book = Book::new(n, d, &models, &steps);
    let run = hechroung::run_book(&book);
    in_form(&run);
    let shares = hechroung::shares_book(&book);
    assert_eq!(
        shares.map(|report| report.summary).map_err(Refusal::from),
        run
    );
    let mut buffer = [0; LONGEST_SHEET];
    if let Ok(length) = hechroung::write(&book, &mut buffer) {
        assert_eq!(hechroung::run(&buffer[..length]), run);
    }
}

/// The single calls that answer with a model.
fn call(input: &mut Input) {
    let (code, n) = (input.byte() % 10, input.byte() % 8 + 1);
    let (d, i, value) = (input.byte(), input.byte(), input.wide());
    let (f, g) = (input.model(n), input.model(n));
    let answer = match code {
        0 => Model::constant(n, value),
        1 => Model::variable(n, i),
        2 => hechroung::negate(&f),
        3 => hechroung::add(&f, &g),
        4 => hechroung::subtract(&f, &g),
        5 => hechroung::multiply(d, &f, &g),
        6 => hechroung::substitute(d, i, &f, &g),
        7 => hechroung::sweep(&f, value),
        8 => hechroung::antiderivative(d, i, &f),
        _ => hechroung::quotient(d, &f, &g, &f, &g),
    };
    in_form(&answer);
    if let Ok(model) = answer {
        let turned = hechroung::negate(&model).and_then(|turned| hechroung::negate(&turned));
        assert_eq!(turned, Ok(model));
    }
}

fn ends(input: &mut Input) {
    let (n, i, k) = (input.byte() % 8 + 1, input.byte(), input.byte() % 9);
    let f = input.model(n);
    let point = [0; MOST_VARS].map(|_: i64| i64::from(input.take(4) as i32));
    in_form(&hechroung::range(&f));
    in_form(&hechroung::integral(&f));
    in_form(&hechroung::evaluate(&f, point));
    in_form(&hechroung::cut_range(15, i, k, &f));
}

fn curve(input: &mut Input) {
    let coefficients = [0; CURVE_PLACES].map(|_: i64| i64::from(input.take(4) as i32));
    let f = Curve {
        coefficients,
        radius: input.take(3),
    };
    let coefficients = [0; CURVE_PLACES].map(|_: i64| i64::from(input.take(2) as i16));
    let g = Curve {
        coefficients,
        radius: input.take(8),
    };
    in_form(&curves::negate(&g));
    in_form(&curves::add(&f, &g));
    in_form(&curves::subtract(&f, &g));
    in_form(&curves::multiply(&f, &g));
    in_form(&curves::range(&f));
    if let Ok(model) = curves::to_powers(&f) {
        in_form(&curves::from_powers(&model));
    }
}

fn doubles(input: &mut Input) {
    let [c0, c1, c2, radius] = [0; 4].map(|_: u64| f64::from_bits(input.take(8)));
    in_form(&hechroung::from_doubles(&Doubles { c0, c1, c2, radius }));
}

fn readings(input: &mut Input) {
    let n = input.byte() % 8 + 1;
    let f = input.model(n);
    let count = input.take(2) % 301;
    let rows: Vec<Reading> = (0..count)
        .map(|_| {
            let mut point = [0; MOST_VARS];
            for coordinate in &mut point[..usize::from(n)] {
                *coordinate = i64::from(input.take(2) as i16);
            }
            let low = i64::from(input.take(4) as i32);
            let high = low + input.take(3) as i64;
            Reading { point, low, high }
        })
        .collect();
    let found = hechroung::first_contradicting(&f, &rows);
    in_form(&found);
    assert!(!matches!(found, Ok(Some(number)) if number >= rows.len()));
}

/// What can be restored can be stored and restored again.
fn archive(input: &mut Input) {
    let terms = usize::from(input.byte());
    let restored = hechroung::restore(input.0, terms);
    in_form(&restored);
    if let Ok(model) = restored {
        let mut buffer = [0; LONGEST_ARCHIVED];
        let length = hechroung::store(&model, &mut buffer).expect("a restored model is sound");
        assert_eq!(hechroung::restore(&buffer[..length], MOST_TERMS), Ok(model));
    }
}
