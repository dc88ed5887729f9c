//! A case of the comparison, and the line that names it: a word and hex digits.

use crate::curves;
use crate::cuts;
use crate::doubles;
use crate::shaped::Shape;
use reference::archive;
use reference::book::{Book, Step};
use reference::calls::Call;
use reference::chebyshev::Call as CurveCall;
use reference::cuts::Call as CutCall;
use reference::doubles::Record;
use reference::model::{FEW_VARIABLES, MOST_TERMS, MOST_VARIABLES};
use reference::readings::{Call as RowCall, Reading};
use reference::renaming::Reordering;
use reference::sheet::Mark;
use reference::stored::{StoredModel, StoredTerm};
use reference::text::bytes_of_hex;

/// What both implementations are fed with.
#[derive(Clone, Debug, PartialEq)]
pub enum Case {
    /// A single call, by the wrapper.
    Call(Call),
    /// A single call by the exported functions themselves, with slices of any length and any code.
    Shaped(Call, Shape),
    /// A sheet: run, printed, taken apart record by record, and where it is accepted tried for enclosure.
    Sheet(Vec<u8>),
    /// A sheet, read and written back into a buffer of a length.
    Rewrite(Vec<u8>, usize),
    /// A book in memory, written into a buffer of a length.
    Book(Box<Book>, usize),
    /// A book in memory, run.
    RunBook(Box<Book>),
    /// A sheet opened and stepped through, with room for so many bytes of a record.
    Stepped(Vec<u8>, usize),
    /// A sheet that the reader accepts, with another order of its variables.
    Renamed(Vec<u8>, Reordering),
    /// A call on Chebyshev curves, and where it is accepted tried for enclosure.
    Curve(CurveCall),
    /// The same by the exported functions themselves, with slices of any length and any code.
    ShapedCurve(CurveCall, curves::Shape),
    /// A range of a cut box, and where it is accepted tried for enclosure.
    Cut(CutCall),
    /// The same by the exported function itself, with slices of any length.
    ShapedCut(CutCall, cuts::Shape),
    /// A curve in doubles, with slices of these lengths for the answer.
    Doubles(Record, [u8; 3]),
    /// A row of readings held against a model.
    Readings(RowCall),
    /// A model stored in the archive or restored from it, with slices of these lengths for keys, coefficients and
    /// numbers.
    Archive(archive::Call, [u8; 3]),
}

/// How many variables a case has, by which cases are counted: those of each mark apart.
#[derive(Clone, Copy, Debug, Default, PartialEq, Eq, PartialOrd, Ord)]
pub enum Variables {
    UpToFour,
    AboveFour,
    /// A sheet with neither mark, or an n that no model has.
    #[default]
    Neither,
}

impl Variables {
    /// Those of a mark.
    pub const OF_MARKS: [Variables; 2] = [Variables::UpToFour, Variables::AboveFour];
    pub const ALL: [Variables; 3] = [
        Variables::UpToFour,
        Variables::AboveFour,
        Variables::Neither,
    ];

    /// By the mark, whatever n is.
    pub fn of_sheet(sheet: &[u8]) -> Variables {
        let last = sheet.last_chunk().copied();
        match last.and_then(Mark::of_bytes) {
            Some(Mark::Few) => Variables::UpToFour,
            Some(Mark::Many) => Variables::AboveFour,
            None => Variables::Neither,
        }
    }

    fn of_n(n: u8) -> Variables {
        match usize::from(n) {
            1..=FEW_VARIABLES => Variables::UpToFour,
            n if n > FEW_VARIABLES && n <= MOST_VARIABLES => Variables::AboveFour,
            _ => Variables::Neither,
        }
    }

    pub fn name(self) -> &'static str {
        match self {
            Variables::UpToFour => "up to four variables",
            Variables::AboveFour => "above four variables",
            Variables::Neither => "neither",
        }
    }
}

impl Case {
    /// By a sheet's mark, a book's n, or the n that a call is handed or its first model has.
    pub fn variables(&self) -> Variables {
        match self {
            Case::Call(call) | Case::Shaped(call, _) => Variables::of_n(call.variables()),
            Case::Sheet(sheet)
            | Case::Rewrite(sheet, _)
            | Case::Stepped(sheet, _)
            | Case::Renamed(sheet, _) => Variables::of_sheet(sheet),
            Case::Book(book, _) | Case::RunBook(book) => Variables::of_n(book.n),
            Case::Curve(call) | Case::ShapedCurve(call, _) => match call {
                CurveCall::FromPowers { f } => Variables::of_n(f.n),
                _ => Variables::of_n(1),
            },
            Case::Cut(call) | Case::ShapedCut(call, _) => Variables::of_n(call.f.n),
            Case::Doubles(..) => Variables::UpToFour,
            Case::Readings(call) => Variables::of_n(call.f.n),
            Case::Archive(archive::Call::Store { f, .. }, _) => Variables::of_n(f.n),
            Case::Archive(archive::Call::Restore { bytes, .. }, _) => {
                Variables::of_n(bytes.first().copied().unwrap_or(0))
            }
        }
    }

    /// The kind by which cases are counted.
    pub fn kind(&self) -> &'static str {
        match self {
            Case::Call(call) => call.name(),
            Case::Shaped(..) => "slices of any length",
            Case::Sheet(_) => "sheet",
            Case::Rewrite(..) => "sheet written back",
            Case::Book(..) => "book written",
            Case::RunBook(_) => "book run",
            Case::Stepped(..) => "sheet stepped through",
            Case::Renamed(..) => "renamed sheet",
            Case::Curve(call) => curves::kind(call),
            Case::ShapedCurve(..) => "curves, slices of any length",
            Case::Cut(_) => cuts::KIND,
            Case::ShapedCut(..) => "cut box, slices of any length",
            Case::Doubles(..) => doubles::NAME,
            Case::Readings(_) => "row of readings",
            Case::Archive(archive::Call::Store { .. }, _) => "stored in the archive",
            Case::Archive(archive::Call::Restore { .. }, _) => "restored from the archive",
        }
    }

    /// The line that `compare --cases` takes.
    pub fn line(&self) -> String {
        let mut bytes = Vec::new();
        let word = match self {
            Case::Call(call) => {
                push_call(&mut bytes, call);
                "call"
            }
            Case::Shaped(call, shape) => {
                shape.push(&mut bytes);
                push_call(&mut bytes, call);
                "shaped"
            }
            Case::Sheet(sheet) => {
                bytes.extend(sheet);
                "sheet"
            }
            Case::Rewrite(sheet, length) => {
                bytes.extend((*length as u64).to_le_bytes());
                bytes.extend(sheet);
                "rewrite"
            }
            Case::Book(book, length) => {
                bytes.extend((*length as u64).to_le_bytes());
                push_book(&mut bytes, book);
                "book"
            }
            Case::RunBook(book) => {
                push_book(&mut bytes, book);
                "runbook"
            }
            Case::Stepped(sheet, room) => {
                bytes.extend((*room as u64).to_le_bytes());
                bytes.extend(sheet);
                "stepped"
            }
            Case::Renamed(sheet, other) => {
                bytes.push(other.variables() as u8);
                bytes.extend(other.places().iter().map(|&place| place as u8));
                bytes.extend(sheet);
                "renamed"
            }
            Case::Curve(call) => {
                curves::push_call(&mut bytes, call);
                "curve"
            }
            Case::ShapedCurve(call, shape) => {
                shape.push(&mut bytes);
                curves::push_call(&mut bytes, call);
                "shapedcurve"
            }

            Case::Cut(call) => {
                cuts::push_call(&mut bytes, call);
                "cut"
            }
            Case::ShapedCut(call, shape) => {
                shape.push(&mut bytes);
                cuts::push_call(&mut bytes, call);
                "shapedcut"
            }
            Case::Doubles(record, outputs) => {
                bytes.extend(record.coefficients.map(u64::to_le_bytes).concat());
                bytes.extend(record.radius.to_le_bytes());
                bytes.extend(outputs);
                "doubles"
            }
            Case::Readings(call) => {
                push_model(&mut bytes, &call.f);
                call.readings
                    .iter()
                    .for_each(|reading| push_reading(&mut bytes, reading));
                "readings"
            }
            Case::Archive(archive::Call::Store { f, buffer }, lengths) => {
                bytes.extend(lengths);
                push_model(&mut bytes, f);
                bytes.extend(buffer);
                "store"
            }
            Case::Archive(
                archive::Call::Restore {
                    bytes: archived,
                    most,
                },
                lengths,
            ) => {
                bytes.extend(lengths);
                bytes.extend((*most as u64).to_le_bytes());
                bytes.extend(archived);
                "restore"
            }
        };
        format!("{word} {}", hex(&bytes))
    }

    pub fn from_line(line: &str) -> Option<Case> {
        let line = line.trim();
        let (word, digits) = line.split_once(' ').unwrap_or((line, ""));
        let bytes = bytes_of_hex(digits)?;
        let mut bytes = Bytes(&bytes);
        let case = match word {
            "call" => Case::Call(take_call(&mut bytes)?),
            "shaped" => {
                let shape = Shape::take(&mut bytes)?;
                Case::Shaped(take_call(&mut bytes)?, shape)
            }
            "sheet" => Case::Sheet(bytes.rest()),
            "rewrite" => {
                let length = bytes.number()? as usize;
                Case::Rewrite(bytes.rest(), length)
            }
            "book" => {
                let length = bytes.number()? as usize;
                Case::Book(take_book(&mut bytes)?, length)
            }
            "runbook" => Case::RunBook(take_book(&mut bytes)?),
            "stepped" => {
                let room = bytes.number()? as usize;
                Case::Stepped(bytes.rest(), room)
            }
            "renamed" => {
                let other = take_reordering(&mut bytes)?;
                Case::Renamed(bytes.rest(), other)
            }
            "curve" => Case::Curve(curves::take_call(&mut bytes)?),
            "shapedcurve" => {
                let shape = curves::Shape::take(&mut bytes)?;
                Case::ShapedCurve(curves::take_call(&mut bytes)?, shape)
            }
            "cut" => Case::Cut(cuts::take_call(&mut bytes)?),
            "shapedcut" => {
                let shape = cuts::Shape::take(&mut bytes)?;
                Case::ShapedCut(cuts::take_call(&mut bytes)?, shape)
            }

            "doubles" => {
                let coefficients = [bytes.number()?, bytes.number()?, bytes.number()?];
                let radius = bytes.number()?;
                let record = Record {
                    coefficients,
                    radius,
                };
                Case::Doubles(record, bytes.take()?)
            }
            "readings" => {
                let f = take_model(&mut bytes)?;
                let mut readings = Vec::new();
                while !bytes.0.is_empty() {
                    readings.push(take_reading(&mut bytes)?);
                }
                Case::Readings(RowCall { f, readings })
            }
            "store" => {
                let lengths = bytes.take()?;
                let f = take_model(&mut bytes)?;
                let buffer = bytes.rest();
                Case::Archive(archive::Call::Store { f, buffer }, lengths)
            }
            "restore" => {
                let lengths = bytes.take()?;
                let most = bytes.number()? as usize;
                let archived = bytes.rest();
                Case::Archive(
                    archive::Call::Restore {
                        bytes: archived,
                        most,
                    },
                    lengths,
                )
            }
            _ => return None,
        };
        bytes.0.is_empty().then_some(case)
    }
}

fn hex(bytes: &[u8]) -> String {
    bytes.iter().map(|byte| format!("{byte:02x}")).collect()
}

/// Bytes that are taken from the front.
pub struct Bytes<'a>(&'a [u8]);

impl Bytes<'_> {
    pub fn take<const N: usize>(&mut self) -> Option<[u8; N]> {
        let (first, rest) = self.0.split_first_chunk()?;
        self.0 = rest;
        Some(*first)
    }

    pub fn byte(&mut self) -> Option<u8> {
        self.take().map(u8::from_le_bytes)
    }

    pub fn number(&mut self) -> Option<u64> {
        self.take().map(u64::from_le_bytes)
    }

    fn rest(&mut self) -> Vec<u8> {
        let rest = self.0.to_vec();
        self.0 = &[];
        rest
    }
}

/// The call's number, then its arguments, little-endian.
fn push_call(bytes: &mut Vec<u8>, call: &Call) {
    match call {
        Call::Constant { n, value } => {
            bytes.extend([1, *n]);
            bytes.extend(value.to_le_bytes());
        }
        Call::Variable { n, i } => bytes.extend([2, *n, *i]),
        Call::Negate { f } => push_models(bytes, &[3], &[f]),
        Call::Add { f, g } => push_models(bytes, &[4], &[f, g]),
        Call::Subtract { f, g } => push_models(bytes, &[5], &[f, g]),
        Call::Multiply { f, g, order } => push_models(bytes, &[6, *order], &[f, g]),
        Call::Substitute { f, g, i, order } => push_models(bytes, &[7, *order, *i], &[f, g]),
        Call::Sweep { f, threshold } => {
            bytes.push(8);
            bytes.extend(threshold.to_le_bytes());
            push_models(bytes, &[], &[f]);
        }
        Call::Range { f } => push_models(bytes, &[9], &[f]),
        Call::Integral { f } => push_models(bytes, &[10], &[f]),
        Call::Evaluate { f, point } => {
            bytes.push(11);
            point.iter().for_each(|x| bytes.extend(x.to_le_bytes()));
            push_models(bytes, &[], &[f]);
        }
        Call::Quotient { f, g, h, w, order } => push_models(bytes, &[12, *order], &[f, g, h, w]),
        Call::Antiderivative { f, i, order } => push_models(bytes, &[13, *order, *i], &[f]),
    }
}

fn push_models(bytes: &mut Vec<u8>, before: &[u8], models: &[&StoredModel]) {
    bytes.extend(before);
    models.iter().for_each(|model| push_model(bytes, model));
}

/// All fields of the struct, those of all 64 places too.
pub fn push_model(bytes: &mut Vec<u8>, model: &StoredModel) {
    bytes.push(model.n);
    bytes.extend((model.count as u64).to_le_bytes());
    bytes.extend(model.radius.to_le_bytes());
    for term in &model.terms {
        bytes.extend(term.key.to_le_bytes());
        bytes.extend(term.coefficient.to_le_bytes());
    }
}

/// The point, then the low and the high value.
fn push_reading(bytes: &mut Vec<u8>, reading: &Reading) {
    let numbers = reading.point.iter().chain([&reading.low, &reading.high]);
    numbers.for_each(|number| bytes.extend(number.to_le_bytes()));
}

fn take_reading(bytes: &mut Bytes) -> Option<Reading> {
    let mut point = [0; MOST_VARIABLES];
    for x in &mut point {
        *x = bytes.number()? as i64;
    }
    Some(Reading {
        point,
        low: bytes.number()? as i64,
        high: bytes.number()? as i64,
    })
}

/// All fields of the struct, those of all 16 and 64 places too.
fn push_book(bytes: &mut Vec<u8>, book: &Book) {
    bytes.extend([book.n, book.d]);
    bytes.extend((book.model_count as u64).to_le_bytes());
    bytes.extend((book.step_count as u64).to_le_bytes());
    book.models
        .iter()
        .for_each(|model| push_model(bytes, model));
    for step in &book.steps {
        bytes.extend([step.code, step.a, step.b, step.v]);
        bytes.extend(step.value.to_le_bytes());
    }
}

fn take_book(bytes: &mut Bytes) -> Option<Box<Book>> {
    let mut book = Box::new(Book {
        n: bytes.byte()?,
        d: bytes.byte()?,
        model_count: bytes.number()? as usize,
        step_count: bytes.number()? as usize,
        ..Book::ZEROS
    });
    for model in &mut book.models {
        *model = *take_model(bytes)?;
    }
    for step in &mut book.steps {
        let [code, a, b, v] = bytes.take()?;
        let value = bytes.number()? as i64;
        *step = Step {
            code,
            a,
            b,
            v,
            value,
        };
    }
    Some(book)
}

fn take_call(bytes: &mut Bytes) -> Option<Call> {
    Some(match bytes.byte()? {
        1 => Call::Constant {
            n: bytes.byte()?,
            value: bytes.number()? as i64,
        },
        2 => Call::Variable {
            n: bytes.byte()?,
            i: bytes.byte()?,
        },
        3 => Call::Negate {
            f: take_model(bytes)?,
        },
        4 => Call::Add {
            f: take_model(bytes)?,
            g: take_model(bytes)?,
        },
        5 => Call::Subtract {
            f: take_model(bytes)?,
            g: take_model(bytes)?,
        },
        6 => Call::Multiply {
            order: bytes.byte()?,
            f: take_model(bytes)?,
            g: take_model(bytes)?,
        },
        7 => Call::Substitute {
            order: bytes.byte()?,
            i: bytes.byte()?,
            f: take_model(bytes)?,
            g: take_model(bytes)?,
        },
        8 => Call::Sweep {
            threshold: bytes.number()? as i64,
            f: take_model(bytes)?,
        },
        9 => Call::Range {
            f: take_model(bytes)?,
        },
        10 => Call::Integral {
            f: take_model(bytes)?,
        },
        11 => Call::Evaluate {
            point: take_point(bytes)?,
            f: take_model(bytes)?,
        },
        12 => Call::Quotient {
            order: bytes.byte()?,
            f: take_model(bytes)?,
            g: take_model(bytes)?,
            h: take_model(bytes)?,
            w: take_model(bytes)?,
        },
        13 => Call::Antiderivative {
            order: bytes.byte()?,
            i: bytes.byte()?,
            f: take_model(bytes)?,
        },
        _ => return None,
    })
}

fn take_reordering(bytes: &mut Bytes) -> Option<Reordering> {
    let mut places = Vec::new();
    for _ in 0..bytes.byte()? {
        places.push(usize::from(bytes.byte()?));
    }
    Reordering::new(&places)
}

fn take_point(bytes: &mut Bytes) -> Option<[i64; MOST_VARIABLES]> {
    let mut point = [0; MOST_VARIABLES];
    for x in &mut point {
        *x = bytes.number()? as i64;
    }
    Some(point)
}

pub fn take_model(bytes: &mut Bytes) -> Option<Box<StoredModel>> {
    let mut model = Box::new(StoredModel {
        n: bytes.byte()?,
        count: bytes.number()? as usize,
        radius: bytes.number()?,
        terms: [StoredTerm::default(); MOST_TERMS],
    });
    for term in &mut model.terms {
        term.key = bytes.take().map(u32::from_le_bytes)?;
        term.coefficient = bytes.number()? as i64;
    }
    Some(model)
}

#[cfg(test)]
mod tests {
    use super::Case;
    use crate::{readings, renamed, stream};

    #[test]
    fn every_line_names_its_case() {
        for number in 0..3_000 {
            let case = stream::case(5, number);
            assert_eq!(Case::from_line(&case.line()), Some(case));
            let (sheet, other) = renamed::case(5, number);
            let case = Case::Renamed(sheet, other);
            assert_eq!(Case::from_line(&case.line()), Some(case));
        }
        for number in 0..300 {
            let case = Case::Readings(readings::row(5, number));
            assert_eq!(Case::from_line(&case.line()), Some(case));
        }
    }

    #[test]
    fn other_lines_name_none() {
        for line in [
            "",
            "call",
            "call ",
            "call 0",
            "call 03",
            "call 0c01",
            "call 020101ff",
            "cal 020101",
            "shaped 00",
            "renamed 020000",
            "renamed 0201",
            "sheet 0",
            "readings",
            "curve",
            "curve 08",
            "curve 0100",
            "shapedcurve 0001",
            "cut",
            "cut 010101",
            "shapedcut 0001",
        ] {
            assert_eq!(Case::from_line(line), None, "{line}");
        }
        assert!(Case::from_line("call 020101").is_some());
        assert_eq!(Case::from_line("sheet"), Some(Case::Sheet(Vec::new())));
    }
}
