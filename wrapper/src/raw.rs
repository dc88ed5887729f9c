//! The exported functions as they are, on slices of any length. All unsafe code of this crate stands here.
//!
//! Each contract (crates/exports) takes any number and any slices. A slice that is too short, or a code that names no
//! call, is answered with [`MISUSED`], and nothing is changed then. Beside a refusal zeros are stored: what the slices
//! hold is an answer only where the number is 0.

/// The number of the layout that these declarations follow, HECHROUNG_ABI of include/hechroung.h.
pub const LAYOUT: &str = env!("HECHROUNG_LAYOUT");

/// The answer to a call that is not one.
pub const MISUSED: u8 = 255;

/// The codes of a sheet's steps. [`call`] takes them but [`INPUT`](code::INPUT) and [`QUOTIENT`](code::QUOTIENT), which
/// takes four models, [`curve`] those from [`NEGATE`](code::NEGATE) to [`MULTIPLY`](code::MULTIPLY).
pub mod code {
    /// One of a book's models.
    pub const INPUT: u8 = 0;
    /// A constant.
    pub const CONSTANT: u8 = 1;
    /// A variable.
    pub const VARIABLE: u8 = 2;
    /// All signs turned.
    pub const NEGATE: u8 = 3;
    /// The sum.
    pub const ADD: u8 = 4;
    /// The difference.
    pub const SUBTRACT: u8 = 5;
    /// The product.
    pub const MULTIPLY: u8 = 6;
    /// A model in the place of a variable.
    pub const SUBSTITUTE: u8 = 7;
    /// Small terms moved into the radius.
    pub const SWEEP: u8 = 8;
    /// The quotient, from a proposal.
    pub const QUOTIENT: u8 = 9;
    /// The antiderivative.
    pub const ANTIDERIVATIVE: u8 = 10;
}

/// The codes of [`ends`].
pub mod ends_code {
    /// The range over the box.
    pub const RANGE: u8 = 1;
    /// The integral over the box.
    pub const INTEGRAL: u8 = 2;
    /// The value at a point.
    pub const EVALUATE: u8 = 3;
}

/// A model that is handed over: the slices hold at least min(count, 64) places each.
#[derive(Clone, Copy, Debug)]
pub struct Handed<'a> {
    /// How many variables there are.
    pub n: u8,
    /// How many terms there are.
    pub count: usize,
    /// The radius, in units.
    pub radius: u64,
    /// The keys of the terms.
    pub keys: &'a [u32],
    /// The coefficients, in units.
    pub coefficients: &'a [i64],
}

impl Handed<'_> {
    /// Stands where a call takes no model.
    pub const NONE: Handed<'static> = Handed {
        n: 0,
        count: 0,
        radius: 0,
        keys: &[],
        coefficients: &[],
    };
}

/// Models that are handed over one after the other: for each an entry of `ns`, `counts` and `radii` and 64 keys and
/// coefficients.
#[derive(Clone, Copy, Debug)]
pub struct HandedModels<'a> {
    /// How many variables each model has.
    pub ns: &'a [u8],
    /// How many terms each has.
    pub counts: &'a [usize],
    /// The radius of each.
    pub radii: &'a [u64],
    /// The keys of the terms.
    pub keys: &'a [u32],
    /// The coefficients, in units.
    pub coefficients: &'a [i64],
}

/// Says each signature once: as an exported function, and as the type of one that is loaded while a program runs.
macro_rules! exported {
    ($($name:ident: $type:ident = ($($argument:ident: $of:ty),* $(,)?) -> $answer:ty;)*) => {
        extern "C" {
            $(fn $name($($argument: $of),*) -> $answer;)*
        }

        /// The types of the exported functions.
        pub mod signature {
            $(
                #[doc = concat!("`", stringify!($name), "` of include/hechroung_raw.h.")]
                pub type $type = unsafe extern "C" fn($($argument: $of),*) -> $answer;
            )*
        }
    };
}

// A slice passes as a pointer and a length.
exported! {
    hechroung_raw_call: Call = (
        code: u8,
        d: u8,
        i: u8,
        value: i64,
        n1: u8,
        count1: usize,
        radius1: u64,
        keys1: *const u32,
        keys1_length: usize,
        coefficients1: *const i64,
        coefficients1_length: usize,
        n2: u8,
        count2: usize,
        radius2: u64,
        keys2: *const u32,
        keys2_length: usize,
        coefficients2: *const i64,
        coefficients2_length: usize,
        keys: *mut u32,
        keys_length: usize,
        coefficients: *mut i64,
        coefficients_length: usize,
        numbers: *mut u64,
        numbers_length: usize,
    ) -> u8;

    hechroung_raw_divide: Quotient = (
        d: u8,
        ns: *const u8,
        ns_length: usize,
        counts: *const usize,
        counts_length: usize,
        radii: *const u64,
        radii_length: usize,
        keys: *const u32,
        keys_length: usize,
        coefficients: *const i64,
        coefficients_length: usize,
        out_keys: *mut u32,
        out_keys_length: usize,
        out_coefficients: *mut i64,
        out_coefficients_length: usize,
        out_numbers: *mut u64,
        out_numbers_length: usize,
    ) -> u8;

    hechroung_raw_ends: Ends = (
        code: u8,
        n: u8,
        count: usize,
        radius: u64,
        keys: *const u32,
        keys_length: usize,
        coefficients: *const i64,
        coefficients_length: usize,
        point: *const i64,
        point_length: usize,
        ends: *mut i64,
        ends_length: usize,
    ) -> u8;

    hechroung_raw_run_sheet: Run = (
        sheet: *const u8,
        sheet_length: usize,
        keys: *mut u32,
        keys_length: usize,
        coefficients: *mut i64,
        coefficients_length: usize,
        numbers: *mut u64,
        numbers_length: usize,
        ends: *mut i64,
        ends_length: usize,
    ) -> u8;

    hechroung_raw_shares_sheet: Shares = (
        sheet: *const u8,
        sheet_length: usize,
        keys: *mut u32,
        keys_length: usize,
        coefficients: *mut i64,
        coefficients_length: usize,
        numbers: *mut u64,
        numbers_length: usize,
        ends: *mut i64,
        ends_length: usize,
        shares: *mut u64,
        shares_length: usize,
    ) -> u8;

    hechroung_raw_print: Print = (
        sheet: *const u8,
        sheet_length: usize,
        text: *mut u8,
        text_length: usize,
    ) -> usize;

    hechroung_raw_rewrite: Rewrite = (
        sheet: *const u8,
        sheet_length: usize,
        buffer: *mut u8,
        buffer_length: usize,
        numbers: *mut u64,
        numbers_length: usize,
    ) -> u8;

    hechroung_raw_record: Record = (
        sheet: *const u8,
        sheet_length: usize,
        i: usize,
        bytes: *mut u8,
        bytes_length: usize,
    ) -> usize;

    hechroung_raw_open: Open = (
        sheet: *const u8,
        sheet_length: usize,
        numbers: *mut u64,
        numbers_length: usize,
    ) -> u8;

    hechroung_raw_next: Next = (
        sheet: *const u8,
        sheet_length: usize,
        at: usize,
        bytes: *mut u8,
        bytes_length: usize,
        numbers: *mut u64,
        numbers_length: usize,
    ) -> u8;

    hechroung_raw_run_models: RunBook = (
        n: u8,
        d: u8,
        model_count: usize,
        step_count: usize,
        ns: *const u8,
        ns_length: usize,
        counts: *const usize,
        counts_length: usize,
        radii: *const u64,
        radii_length: usize,
        book_keys: *const u32,
        book_keys_length: usize,
        book_coefficients: *const i64,
        book_coefficients_length: usize,
        fields: *const u8,
        fields_length: usize,
        values: *const i64,
        values_length: usize,
        keys: *mut u32,
        keys_length: usize,
        coefficients: *mut i64,
        coefficients_length: usize,
        numbers: *mut u64,
        numbers_length: usize,
        ends: *mut i64,
        ends_length: usize,
    ) -> u8;

    hechroung_raw_shares_models: SharesBook = (
        n: u8,
        d: u8,
        model_count: usize,
        step_count: usize,
        ns: *const u8,
        ns_length: usize,
        counts: *const usize,
        counts_length: usize,
        radii: *const u64,
        radii_length: usize,
        book_keys: *const u32,
        book_keys_length: usize,
        book_coefficients: *const i64,
        book_coefficients_length: usize,
        fields: *const u8,
        fields_length: usize,
        values: *const i64,
        values_length: usize,
        keys: *mut u32,
        keys_length: usize,
        coefficients: *mut i64,
        coefficients_length: usize,
        numbers: *mut u64,
        numbers_length: usize,
        ends: *mut i64,
        ends_length: usize,
        shares: *mut u64,
        shares_length: usize,
    ) -> u8;

    hechroung_raw_write_sheet: Write = (
        n: u8,
        d: u8,
        model_count: usize,
        step_count: usize,
        ns: *const u8,
        ns_length: usize,
        counts: *const usize,
        counts_length: usize,
        radii: *const u64,
        radii_length: usize,
        keys: *const u32,
        keys_length: usize,
        coefficients: *const i64,
        coefficients_length: usize,
        fields: *const u8,
        fields_length: usize,
        values: *const i64,
        values_length: usize,
        buffer: *mut u8,
        buffer_length: usize,
        numbers: *mut u64,
        numbers_length: usize,
    ) -> u8;

    hechroung_raw_curve: Curve = (
        code: u8,
        coefficients1: *const i64,
        coefficients1_length: usize,
        radius1: u64,
        coefficients2: *const i64,
        coefficients2_length: usize,
        radius2: u64,
        coefficients: *mut i64,
        coefficients_length: usize,
        numbers: *mut u64,
        numbers_length: usize,
    ) -> u8;

    hechroung_raw_range_of_curve: CurveRange = (
        coefficients: *const i64,
        coefficients_length: usize,
        radius: u64,
        ends: *mut i64,
        ends_length: usize,
    ) -> u8;

    hechroung_raw_curve_to_powers: ToPowers = (
        coefficients: *const i64,
        coefficients_length: usize,
        radius: u64,
        keys: *mut u32,
        keys_length: usize,
        out_coefficients: *mut i64,
        out_coefficients_length: usize,
        numbers: *mut u64,
        numbers_length: usize,
    ) -> u8;

    hechroung_raw_curve_from_powers: FromPowers = (
        n: u8,
        count: usize,
        radius: u64,
        keys: *const u32,
        keys_length: usize,
        coefficients: *const i64,
        coefficients_length: usize,
        out_coefficients: *mut i64,
        out_coefficients_length: usize,
        out_numbers: *mut u64,
        out_numbers_length: usize,
    ) -> u8;

    hechroung_raw_range_cut: CutRange = (
        d: u8,
        i: u8,
        k: u8,
        n: u8,
        count: usize,
        radius: u64,
        keys: *const u32,
        keys_length: usize,
        coefficients: *const i64,
        coefficients_length: usize,
        ends: *mut i64,
        ends_length: usize,
        numbers: *mut u64,
        numbers_length: usize,
    ) -> u8;

    hechroung_raw_from_doubles: Doubles = (
        c0: f64,
        c1: f64,
        c2: f64,
        radius: f64,
        keys: *mut u32,
        keys_length: usize,
        coefficients: *mut i64,
        coefficients_length: usize,
        numbers: *mut u64,
        numbers_length: usize,
    ) -> u8;

    hechroung_raw_hold: Readings = (
        n: u8,
        count: usize,
        radius: u64,
        keys: *const u32,
        keys_length: usize,
        coefficients: *const i64,
        coefficients_length: usize,
        points: *const i64,
        points_length: usize,
        lows: *const i64,
        lows_length: usize,
        highs: *const i64,
        highs_length: usize,
        numbers: *mut u64,
        numbers_length: usize,
    ) -> u8;

    hechroung_raw_store_model: Store = (
        n: u8,
        count: usize,
        radius: u64,
        keys: *const u32,
        keys_length: usize,
        coefficients: *const i64,
        coefficients_length: usize,
        buffer: *mut u8,
        buffer_length: usize,
        numbers: *mut u64,
        numbers_length: usize,
    ) -> u8;

    hechroung_raw_restore_model: Restore = (
        bytes: *const u8,
        bytes_length: usize,
        terms: usize,
        keys: *mut u32,
        keys_length: usize,
        coefficients: *mut i64,
        coefficients_length: usize,
        numbers: *mut u64,
        numbers_length: usize,
    ) -> u8;
}

/// A book that is handed over: for each model an entry of `ns`, `counts` and `radii` and 64 keys and coefficients; for
/// each step four bytes (code, a, b, v) and a value. The slices hold at least min(model_count, 16) models and
/// min(step_count, 64) steps.
#[derive(Clone, Copy, Debug)]
pub struct HandedBook<'a> {
    /// How many variables there are.
    pub n: u8,
    /// The order.
    pub d: u8,
    /// How many models there are.
    pub model_count: usize,
    /// How many steps there are.
    pub step_count: usize,
    /// How many variables each model has.
    pub ns: &'a [u8],
    /// How many terms each has.
    pub counts: &'a [usize],
    /// The radius of each.
    pub radii: &'a [u64],
    /// The keys of the terms.
    pub keys: &'a [u32],
    /// The coefficients, in units.
    pub coefficients: &'a [i64],
    /// The code, a, b and v of each step.
    pub fields: &'a [u8],
    /// The value of each step.
    pub values: &'a [i64],
}

/// A call that answers with a model, by its [`code`]. It returns the refusal's number, 0 without one. 64 keys and 64
/// coefficients go into the slices, and the refusal's place, n, the count and the radius into `numbers`.
#[allow(clippy::too_many_arguments)]
#[must_use]
pub fn call(
    code: u8,
    d: u8,
    i: u8,
    value: i64,
    f: Handed<'_>,
    g: Handed<'_>,
    keys: &mut [u32],
    coefficients: &mut [i64],
    numbers: &mut [u64],
) -> u8 {
    // SAFETY: each pointer comes from a slice that stays borrowed during the call, with the slice's own length, and no
    // two slices that are written overlap each other or one that is read. The contract asks for nothing else.
    unsafe {
        hechroung_raw_call(
            code,
            d,
            i,
            value,
            f.n,
            f.count,
            f.radius,
            f.keys.as_ptr(),
            f.keys.len(),
            f.coefficients.as_ptr(),
            f.coefficients.len(),
            g.n,
            g.count,
            g.radius,
            g.keys.as_ptr(),
            g.keys.len(),
            g.coefficients.as_ptr(),
            g.coefficients.len(),
            keys.as_mut_ptr(),
            keys.len(),
            coefficients.as_mut_ptr(),
            coefficients.len(),
            numbers.as_mut_ptr(),
            numbers.len(),
        )
    }
}

/// f / g with order d, from the proposal h and w: the refusal's number, 0 without one. The slices hold at least four
/// models: f, g, h and w in this order. The answer goes into `keys`, `coefficients` and `numbers` as in [`call`].
#[must_use]
pub fn quotient(
    d: u8,
    models: HandedModels<'_>,
    keys: &mut [u32],
    coefficients: &mut [i64],
    numbers: &mut [u64],
) -> u8 {
    // SAFETY: as in `call`.
    unsafe {
        hechroung_raw_divide(
            d,
            models.ns.as_ptr(),
            models.ns.len(),
            models.counts.as_ptr(),
            models.counts.len(),
            models.radii.as_ptr(),
            models.radii.len(),
            models.keys.as_ptr(),
            models.keys.len(),
            models.coefficients.as_ptr(),
            models.coefficients.len(),
            keys.as_mut_ptr(),
            keys.len(),
            coefficients.as_mut_ptr(),
            coefficients.len(),
            numbers.as_mut_ptr(),
            numbers.len(),
        )
    }
}

/// A call that answers with two ends, by its [`ends_code`]. Evaluate takes the first eight coordinates of `point`,
/// which the others do not look at. It returns the refusal's number, 0 without one; the low and the high end go into `ends`,
/// and after them the quotient and the remainder of the exact integral, or 0 for the other codes and above four
/// variables.
#[must_use]
pub fn ends(code: u8, f: Handed<'_>, point: &[i64], ends: &mut [i64]) -> u8 {
    // SAFETY: as in `call`.
    unsafe {
        hechroung_raw_ends(
            code,
            f.n,
            f.count,
            f.radius,
            f.keys.as_ptr(),
            f.keys.len(),
            f.coefficients.as_ptr(),
            f.coefficients.len(),
            point.as_ptr(),
            point.len(),
            ends.as_mut_ptr(),
            ends.len(),
        )
    }
}

/// Runs a sheet: the refusal's number, 0 without one. The result goes into `keys`, `coefficients` and `numbers` as in
/// [`call`]; the ends of its range, those of its integral, and the quotient and the remainder of the exact integral go
/// into `ends`.
#[must_use]
pub fn run(
    sheet: &[u8],
    keys: &mut [u32],
    coefficients: &mut [i64],
    numbers: &mut [u64],
    ends: &mut [i64],
) -> u8 {
    // SAFETY: as in `call`.
    unsafe {
        hechroung_raw_run_sheet(
            sheet.as_ptr(),
            sheet.len(),
            keys.as_mut_ptr(),
            keys.len(),
            coefficients.as_mut_ptr(),
            coefficients.len(),
            numbers.as_mut_ptr(),
            numbers.len(),
            ends.as_mut_ptr(),
            ends.len(),
        )
    }
}

/// Runs a sheet as [`run`] does, and stores besides where the radius of each of 64 steps came from: carried, rounding,
/// swept and slack of step i at `shares[4 * i..]`.
#[must_use]
pub fn shares(
    sheet: &[u8],
    keys: &mut [u32],
    coefficients: &mut [i64],
    numbers: &mut [u64],
    ends: &mut [i64],
    shares: &mut [u64],
) -> u8 {
    // SAFETY: as in `call`.
    unsafe {
        hechroung_raw_shares_sheet(
            sheet.as_ptr(),
            sheet.len(),
            keys.as_mut_ptr(),
            keys.len(),
            coefficients.as_mut_ptr(),
            coefficients.len(),
            numbers.as_mut_ptr(),
            numbers.len(),
            ends.as_mut_ptr(),
            ends.len(),
            shares.as_mut_ptr(),
            shares.len(),
        )
    }
}

/// Runs a sheet to the program's lines: their length. As much of them as `text` has room for is put there.
pub fn print(sheet: &[u8], text: &mut [u8]) -> usize {
    // SAFETY: as in `call`.
    unsafe { hechroung_raw_print(sheet.as_ptr(), sheet.len(), text.as_mut_ptr(), text.len()) }
}

/// Reads a sheet and writes what was read: the refusal's number, 0 without one. Its place and the length go into
/// `numbers`.
#[must_use]
pub fn rewrite(sheet: &[u8], buffer: &mut [u8], numbers: &mut [u64]) -> u8 {
    // SAFETY: as in `call`.
    unsafe {
        hechroung_raw_rewrite(
            sheet.as_ptr(),
            sheet.len(),
            buffer.as_mut_ptr(),
            buffer.len(),
            numbers.as_mut_ptr(),
            numbers.len(),
        )
    }
}

/// Record i of a sheet, from 0: its length, or 0 where there is none. As much of it as `bytes` has room for is put
/// there.
pub fn record(sheet: &[u8], i: usize, bytes: &mut [u8]) -> usize {
    // SAFETY: as in `call`.
    unsafe {
        hechroung_raw_record(
            sheet.as_ptr(),
            sheet.len(),
            i,
            bytes.as_mut_ptr(),
            bytes.len(),
        )
    }
}

/// Writes a book as a sheet: the refusal's number, 0 without one. Its place and the length go into `numbers`.
#[must_use]
pub fn write(book: HandedBook<'_>, buffer: &mut [u8], numbers: &mut [u64]) -> u8 {
    // SAFETY: as in `call`.
    unsafe {
        hechroung_raw_write_sheet(
            book.n,
            book.d,
            book.model_count,
            book.step_count,
            book.ns.as_ptr(),
            book.ns.len(),
            book.counts.as_ptr(),
            book.counts.len(),
            book.radii.as_ptr(),
            book.radii.len(),
            book.keys.as_ptr(),
            book.keys.len(),
            book.coefficients.as_ptr(),
            book.coefficients.len(),
            book.fields.as_ptr(),
            book.fields.len(),
            book.values.as_ptr(),
            book.values.len(),
            buffer.as_mut_ptr(),
            buffer.len(),
            numbers.as_mut_ptr(),
            numbers.len(),
        )
    }
}

/// Opens a sheet for stepping: the refusal's number, 0 without one. Its place and the place of the first record go into
/// `numbers`.
#[must_use]
pub fn open(sheet: &[u8], numbers: &mut [u64]) -> u8 {
    // SAFETY: as in `call`.
    unsafe {
        hechroung_raw_open(
            sheet.as_ptr(),
            sheet.len(),
            numbers.as_mut_ptr(),
            numbers.len(),
        )
    }
}

/// The record at a place of a sheet: 1 for a model, 2 for a step, 0 where there is none. As much of it as `bytes` has
/// room for is put there; its length and the place of the next go into `numbers`.
#[must_use]
pub fn next(sheet: &[u8], at: usize, bytes: &mut [u8], numbers: &mut [u64]) -> u8 {
    // SAFETY: as in `call`.
    unsafe {
        hechroung_raw_next(
            sheet.as_ptr(),
            sheet.len(),
            at,
            bytes.as_mut_ptr(),
            bytes.len(),
            numbers.as_mut_ptr(),
            numbers.len(),
        )
    }
}

/// Runs a book: the refusal's number, 0 without one. The result goes into the slices as in [`run`].
#[must_use]
pub fn run_book(
    book: HandedBook<'_>,
    keys: &mut [u32],
    coefficients: &mut [i64],
    numbers: &mut [u64],
    ends: &mut [i64],
) -> u8 {
    // SAFETY: as in `call`.
    unsafe {
        hechroung_raw_run_models(
            book.n,
            book.d,
            book.model_count,
            book.step_count,
            book.ns.as_ptr(),
            book.ns.len(),
            book.counts.as_ptr(),
            book.counts.len(),
            book.radii.as_ptr(),
            book.radii.len(),
            book.keys.as_ptr(),
            book.keys.len(),
            book.coefficients.as_ptr(),
            book.coefficients.len(),
            book.fields.as_ptr(),
            book.fields.len(),
            book.values.as_ptr(),
            book.values.len(),
            keys.as_mut_ptr(),
            keys.len(),
            coefficients.as_mut_ptr(),
            coefficients.len(),
            numbers.as_mut_ptr(),
            numbers.len(),
            ends.as_mut_ptr(),
            ends.len(),
        )
    }
}

/// Runs a book as [`run_book`] does, and stores its shares besides, as [`shares`] does.
#[must_use]
pub fn shares_book(
    book: HandedBook<'_>,
    keys: &mut [u32],
    coefficients: &mut [i64],
    numbers: &mut [u64],
    ends: &mut [i64],
    shares: &mut [u64],
) -> u8 {
    // SAFETY: as in `call`.
    unsafe {
        hechroung_raw_shares_models(
            book.n,
            book.d,
            book.model_count,
            book.step_count,
            book.ns.as_ptr(),
            book.ns.len(),
            book.counts.as_ptr(),
            book.counts.len(),
            book.radii.as_ptr(),
            book.radii.len(),
            book.keys.as_ptr(),
            book.keys.len(),
            book.coefficients.as_ptr(),
            book.coefficients.len(),
            book.fields.as_ptr(),
            book.fields.len(),
            book.values.as_ptr(),
            book.values.len(),
            keys.as_mut_ptr(),
            keys.len(),
            coefficients.as_mut_ptr(),
            coefficients.len(),
            numbers.as_mut_ptr(),
            numbers.len(),
            ends.as_mut_ptr(),
            ends.len(),
            shares.as_mut_ptr(),
            shares.len(),
        )
    }
}

/// A curve that is handed over: the slice holds at least 16 coefficients, that of T_0 first.
#[derive(Clone, Copy, Debug)]
pub struct HandedCurve<'a> {
    /// The coefficients, in units.
    pub coefficients: &'a [i64],
    /// The radius, in units.
    pub radius: u64,
}

/// A call on curves, by its [`code`]: negate, add, subtract or multiply. It returns the refusal's number, 0 without
/// one. 16 coefficients go into the slice, and the refusal's place and the radius into `numbers`.
#[must_use]
pub fn curve(
    code: u8,
    f: HandedCurve<'_>,
    g: HandedCurve<'_>,
    coefficients: &mut [i64],
    numbers: &mut [u64],
) -> u8 {
    // SAFETY: as in `call`.
    unsafe {
        hechroung_raw_curve(
            code,
            f.coefficients.as_ptr(),
            f.coefficients.len(),
            f.radius,
            g.coefficients.as_ptr(),
            g.coefficients.len(),
            g.radius,
            coefficients.as_mut_ptr(),
            coefficients.len(),
            numbers.as_mut_ptr(),
            numbers.len(),
        )
    }
}

/// The range of a curve: the refusal's number, 0 without one. The low and the high end go into `ends`.
#[must_use]
pub fn curve_range(f: HandedCurve<'_>, ends: &mut [i64]) -> u8 {
    // SAFETY: as in `call`.
    unsafe {
        hechroung_raw_range_of_curve(
            f.coefficients.as_ptr(),
            f.coefficients.len(),
            f.radius,
            ends.as_mut_ptr(),
            ends.len(),
        )
    }
}

/// A curve in powers: the refusal's number, 0 without one. The model goes into the slices as in [`call`].
#[must_use]
pub fn to_powers(
    f: HandedCurve<'_>,
    keys: &mut [u32],
    coefficients: &mut [i64],
    numbers: &mut [u64],
) -> u8 {
    // SAFETY: as in `call`.
    unsafe {
        hechroung_raw_curve_to_powers(
            f.coefficients.as_ptr(),
            f.coefficients.len(),
            f.radius,
            keys.as_mut_ptr(),
            keys.len(),
            coefficients.as_mut_ptr(),
            coefficients.len(),
            numbers.as_mut_ptr(),
            numbers.len(),
        )
    }
}

/// A model of one variable as a curve: the refusal's number, 0 without one. The curve goes into the slices as in
/// [`curve`].
#[must_use]
pub fn from_powers(f: Handed<'_>, coefficients: &mut [i64], numbers: &mut [u64]) -> u8 {
    // SAFETY: as in `call`.
    unsafe {
        hechroung_raw_curve_from_powers(
            f.n,
            f.count,
            f.radius,
            f.keys.as_ptr(),
            f.keys.len(),
            f.coefficients.as_ptr(),
            f.coefficients.len(),
            coefficients.as_mut_ptr(),
            coefficients.len(),
            numbers.as_mut_ptr(),
            numbers.len(),
        )
    }
}

/// The range with variable i cut into 2^k pieces, by substitutions with order d: the refusal's number, 0 without one.
/// The two ends go into `ends`, the refusal's place into `numbers`.
#[must_use]
pub fn cut_range(d: u8, i: u8, k: u8, f: Handed<'_>, ends: &mut [i64], numbers: &mut [u64]) -> u8 {
    // SAFETY: as in `call`.
    unsafe {
        hechroung_raw_range_cut(
            d,
            i,
            k,
            f.n,
            f.count,
            f.radius,
            f.keys.as_ptr(),
            f.keys.len(),
            f.coefficients.as_ptr(),
            f.coefficients.len(),
            ends.as_mut_ptr(),
            ends.len(),
            numbers.as_mut_ptr(),
            numbers.len(),
        )
    }
}

/// The model of c0 + c1 x + c2 x² with a radius, delivered in doubles: the refusal's number, 0 without one. The answer
/// goes into `keys`, `coefficients` and `numbers` as in [`call`].
#[must_use]
pub fn doubles(
    [c0, c1, c2]: [f64; 3],
    radius: f64,
    keys: &mut [u32],
    coefficients: &mut [i64],
    numbers: &mut [u64],
) -> u8 {
    // SAFETY: as in `call`.
    unsafe {
        hechroung_raw_from_doubles(
            c0,
            c1,
            c2,
            radius,
            keys.as_mut_ptr(),
            keys.len(),
            coefficients.as_mut_ptr(),
            coefficients.len(),
            numbers.as_mut_ptr(),
            numbers.len(),
        )
    }
}

/// Readings that are handed over: as many as there are low values, with eight coordinates and a high value each.
#[derive(Clone, Copy, Debug)]
pub struct HandedReadings<'a> {
    /// The coordinates of each reading.
    pub points: &'a [i64],
    /// The low value of each.
    pub lows: &'a [i64],
    /// The high value of each.
    pub highs: &'a [i64],
}

/// Holds readings against a model: the refusal's number, 0 without one. Its place, 1 or 0 for whether a reading
/// contradicts, and the number of the first that does go into `numbers`.
#[must_use]
pub fn readings(f: Handed<'_>, rows: HandedReadings<'_>, numbers: &mut [u64]) -> u8 {
    // SAFETY: as in `call`.
    unsafe {
        hechroung_raw_hold(
            f.n,
            f.count,
            f.radius,
            f.keys.as_ptr(),
            f.keys.len(),
            f.coefficients.as_ptr(),
            f.coefficients.len(),
            rows.points.as_ptr(),
            rows.points.len(),
            rows.lows.as_ptr(),
            rows.lows.len(),
            rows.highs.as_ptr(),
            rows.highs.len(),
            numbers.as_mut_ptr(),
            numbers.len(),
        )
    }
}

/// Stores a model in the archive's form: the refusal's number, 0 without one. Its place and the length go into
/// `numbers`.
#[must_use]
pub fn store(model: Handed<'_>, buffer: &mut [u8], numbers: &mut [u64]) -> u8 {
    // SAFETY: as in `call`.
    unsafe {
        hechroung_raw_store_model(
            model.n,
            model.count,
            model.radius,
            model.keys.as_ptr(),
            model.keys.len(),
            model.coefficients.as_ptr(),
            model.coefficients.len(),
            buffer.as_mut_ptr(),
            buffer.len(),
            numbers.as_mut_ptr(),
            numbers.len(),
        )
    }
}

/// Restores the model of the first terms: the refusal's number, 0 without one. The answer goes into `keys`,
/// `coefficients` and `numbers` as in [`call`].
#[must_use]
pub fn restore(
    bytes: &[u8],
    terms: usize,
    keys: &mut [u32],
    coefficients: &mut [i64],
    numbers: &mut [u64],
) -> u8 {
    // SAFETY: as in `call`.
    unsafe {
        hechroung_raw_restore_model(
            bytes.as_ptr(),
            bytes.len(),
            terms,
            keys.as_mut_ptr(),
            keys.len(),
            coefficients.as_mut_ptr(),
            coefficients.len(),
            numbers.as_mut_ptr(),
            numbers.len(),
        )
    }
}
