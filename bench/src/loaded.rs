//! A build of the library that is loaded while the program runs, so that two of them stand side by side. All unsafe code
//! of bench/versus stands here.

use hechroung::raw::signature::{Call, Ends, Record, Run};
use hechroung::{Model, MOST_TERMS, MOST_VARS};
use std::ffi::{c_char, c_int, c_void, CStr, CString};

/// The point of calls that do not look at it.
static NOWHERE: [i64; MOST_VARS] = [0; MOST_VARS];
/// The code of the antiderivative, and what it was before layout 4.
pub const ANTIDERIVATIVE: u8 = 10;
const ANTIDERIVATIVE_BEFORE: u8 = 9;
/// Every name is looked up at once, and none is bound to another library.
const RTLD_NOW: c_int = 2;

#[link(name = "dl")]
extern "C" {
    fn dlopen(path: *const c_char, mode: c_int) -> *mut c_void;
    fn dlsym(library: *mut c_void, name: *const c_char) -> *mut c_void;
    fn dlerror() -> *const c_char;
}

/// Which layout a build has. In layout 2 keys have 16 bits, and a point is four numbers.
#[derive(Clone, Copy, PartialEq)]
pub enum Layout {
    Two,
    Now,
}

/// The ends of layout 2.
type EndsOfTwo = unsafe extern "C" fn(
    u8,
    u8,
    usize,
    u64,
    *const u16,
    usize,
    *const i64,
    usize,
    i64,
    i64,
    i64,
    i64,
    *mut i64,
    usize,
) -> u8;

enum EitherEnds {
    Two(EndsOfTwo),
    Now(Ends),
}

/// The functions of one build. It stays loaded until the program ends. A pointer to keys is handed over alike in both
/// layouts, whatever their width.
pub struct Library {
    layout: Layout,
    /// Whether its functions have the names of before layout 4, and with them another code of the antiderivative.
    before_four: bool,
    call: Call,
    ends: EitherEnds,
    run: Run,
    record: Record,
}

/// A model with its keys in both widths, so that no build pays for a conversion; in 16 bits are variables 1 to 4.
pub struct Borrowed {
    model: Model,
    halves: [u16; MOST_TERMS],
}

impl Borrowed {
    pub fn new(model: Model) -> Borrowed {
        let halves = model.keys.map(|key| (key >> 16) as u16);
        Borrowed { model, halves }
    }

    fn keys(&self, layout: Layout) -> *const u32 {
        match layout {
            Layout::Two => self.halves.as_ptr().cast(),
            Layout::Now => self.model.keys.as_ptr(),
        }
    }
}

/// All that a product or a run answers, as it is stored; a product has no ends. A build of the layout before the exact
/// integral fills the first four ends of a run, and the first two of a call.
#[derive(Clone, Debug, PartialEq, Eq)]
pub struct Answer {
    pub refusal: u8,
    numbers: [u64; 4],
    keys: [u32; MOST_TERMS],
    /// The keys of layout 2.
    halves: [u16; MOST_TERMS],
    coefficients: [i64; MOST_TERMS],
    ends: [i64; 6],
}

impl Answer {
    /// The same with keys of this layout, whichever stored it. It is not timed.
    pub fn widened(mut self) -> Answer {
        for (key, half) in self.keys.iter_mut().zip(&mut self.halves) {
            *key |= u32::from(*half) << 16;
            *half = 0;
        }
        self
    }

    /// Where a build of this layout stores its keys.
    fn room(&mut self, layout: Layout) -> *mut u32 {
        match layout {
            Layout::Two => self.halves.as_mut_ptr().cast(),
            Layout::Now => self.keys.as_mut_ptr(),
        }
    }

    /// The same without the ends of the range, which come first.
    pub fn without_range(mut self) -> Answer {
        self.ends[..2].fill(0);
        self
    }

    /// The same without the integral, which comes last.
    pub fn without_integral(mut self) -> Answer {
        self.ends[2..].fill(0);
        self
    }

    /// The ends of the integral.
    pub fn integral(&self) -> [i64; 2] {
        [self.ends[2], self.ends[3]]
    }

    const EMPTY: Answer = Answer {
        refusal: 0,
        numbers: [0; 4],
        keys: [0; MOST_TERMS],
        halves: [0; MOST_TERMS],
        coefficients: [0; MOST_TERMS],
        ends: [0; 6],
    };
}

impl Library {
    pub fn load(path: &str, layout: Layout) -> Library {
        let file = CString::new(path).expect("a path has no zero byte");
        // SAFETY: the path ends with a zero. The library has no code that runs when it is loaded.
        let library = unsafe { dlopen(file.as_ptr(), RTLD_NOW) };
        assert!(!library.is_null(), "{path}: {}", why());
        // SAFETY: the functions have these signatures, in all builds of that layout.
        unsafe {
            let ends = function(library, [c"hechroung_raw_ends", c"hechroung_ends"]);
            Library {
                layout,
                before_four: dlsym(library, c"hechroung_raw_call".as_ptr()).is_null(),
                call: std::mem::transmute::<*mut c_void, Call>(function(
                    library,
                    [c"hechroung_raw_call", c"hechroung_call"],
                )),
                ends: match layout {
                    Layout::Two => {
                        EitherEnds::Two(std::mem::transmute::<*mut c_void, EndsOfTwo>(ends))
                    }
                    Layout::Now => EitherEnds::Now(std::mem::transmute::<*mut c_void, Ends>(ends)),
                },
                run: std::mem::transmute::<*mut c_void, Run>(function(
                    library,
                    [c"hechroung_raw_run_sheet", c"hechroung_run"],
                )),
                record: std::mem::transmute::<*mut c_void, Record>(function(
                    library,
                    [c"hechroung_raw_record", c"hechroung_record"],
                )),
            }
        }
    }

    pub fn multiply(&self, d: u8, f: &Borrowed, g: &Borrowed) -> Answer {
        self.called(6, d, 0, 0, f, g)
    }

    /// The call of one model or of two that a code names, with order d, variable i and a value.
    pub fn called(&self, code: u8, d: u8, i: u8, value: i64, f: &Borrowed, g: &Borrowed) -> Answer {
        let code = match code {
            ANTIDERIVATIVE if self.before_four => ANTIDERIVATIVE_BEFORE,
            same => same,
        };
        let mut answer = Answer::EMPTY;
        let (keys1, keys2, keys) = (
            f.keys(self.layout),
            g.keys(self.layout),
            answer.room(self.layout),
        );
        let (f, g) = (&f.model, &g.model);
        // SAFETY: each pointer comes from an array that lives during the call, with its own length; what is written
        // overlaps nothing. The contract asks for nothing else, here and below.
        answer.refusal = unsafe {
            (self.call)(
                code,
                d,
                i,
                value,
                f.n,
                f.count,
                f.radius,
                keys1,
                MOST_TERMS,
                f.coefficients.as_ptr(),
                f.coefficients.len(),
                g.n,
                g.count,
                g.radius,
                keys2,
                MOST_TERMS,
                g.coefficients.as_ptr(),
                g.coefficients.len(),
                keys,
                MOST_TERMS,
                answer.coefficients.as_mut_ptr(),
                answer.coefficients.len(),
                answer.numbers.as_mut_ptr(),
                answer.numbers.len(),
            )
        };
        answer
    }

    /// The two ends of the range.
    pub fn range(&self, f: &Borrowed) -> [i64; 2] {
        let [low, high, _, _] = self.ended(1, f, &NOWHERE);
        [low, high]
    }

    /// The two ends of the integral, and the exact one, or zeros where the build has none.
    pub fn integral(&self, f: &Borrowed) -> [i64; 4] {
        self.ended(2, f, &NOWHERE)
    }

    /// The two ends of the value at a point in the first four variables.
    pub fn evaluate(&self, f: &Borrowed, point: &[i64; MOST_VARS]) -> [i64; 2] {
        let [low, high, _, _] = self.ended(3, f, point);
        [low, high]
    }

    fn ended(&self, code: u8, borrowed: &Borrowed, point: &[i64; MOST_VARS]) -> [i64; 4] {
        let mut ends = [0; 4];
        let (n, count, radius) = (
            borrowed.model.n,
            borrowed.model.count,
            borrowed.model.radius,
        );
        let coefficients = borrowed.model.coefficients.as_ptr();
        let out = ends.as_mut_ptr();
        // SAFETY: as in `multiply`.
        let refusal = unsafe {
            match self.ends {
                EitherEnds::Two(call) => {
                    let keys = borrowed.halves.as_ptr();
                    call(
                        code,
                        n,
                        count,
                        radius,
                        keys,
                        MOST_TERMS,
                        coefficients,
                        MOST_TERMS,
                        point[0],
                        point[1],
                        point[2],
                        point[3],
                        out,
                        4,
                    )
                }
                EitherEnds::Now(call) => {
                    let keys = borrowed.model.keys.as_ptr();
                    call(
                        code,
                        n,
                        count,
                        radius,
                        keys,
                        MOST_TERMS,
                        coefficients,
                        MOST_TERMS,
                        point.as_ptr(),
                        MOST_VARS,
                        out,
                        4,
                    )
                }
            }
        };
        assert_eq!(refusal, 0, "the model is sound");
        ends
    }

    pub fn run(&self, sheet: &[u8]) -> Answer {
        let mut answer = Answer::EMPTY;
        let keys = answer.room(self.layout);
        // SAFETY: as in `multiply`.
        answer.refusal = unsafe {
            (self.run)(
                sheet.as_ptr(),
                sheet.len(),
                keys,
                MOST_TERMS,
                answer.coefficients.as_mut_ptr(),
                answer.coefficients.len(),
                answer.numbers.as_mut_ptr(),
                answer.numbers.len(),
                answer.ends.as_mut_ptr(),
                answer.ends.len(),
            )
        };
        answer
    }

    /// Record i: its length, and as much of it as there is room for.
    pub fn record(&self, sheet: &[u8], i: usize, bytes: &mut [u8]) -> usize {
        // SAFETY: as in `multiply`.
        unsafe {
            (self.record)(
                sheet.as_ptr(),
                sheet.len(),
                i,
                bytes.as_mut_ptr(),
                bytes.len(),
            )
        }
    }
}

/// The function by its name, or by the one that it had in layouts 2 and 3.
fn function(library: *mut c_void, names: [&CStr; 2]) -> *mut c_void {
    // SAFETY: the library is loaded, and the names end with a zero.
    let function = names.map(|name| unsafe { dlsym(library, name.as_ptr()) });
    let found = function.into_iter().find(|function| !function.is_null());
    found.unwrap_or_else(|| panic!("{}", why()))
}

/// The loader's last complaint.
fn why() -> String {
    // SAFETY: the text is read at once, before the next call of the loader.
    unsafe {
        let text = dlerror();
        if text.is_null() {
            return String::from("no reason is given");
        }
        CStr::from_ptr(text).to_string_lossy().into_owned()
    }
}
