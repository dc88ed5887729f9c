//! The numbers of include/hechroung.h, which a program in C makes its buffers by, are the wrapper's and the library's.

use hechroung::{Book, Model, Refusal, Step};
use std::fs;

/// A file of this repository.
fn text(path: &str) -> String {
    fs::read_to_string(format!("{}/../{path}", env!("CARGO_MANIFEST_DIR"))).expect(path)
}

/// The number after these words, which begin one line.
fn number(text: &str, words: &str) -> usize {
    let mut lines = text.lines().filter_map(|line| line.strip_prefix(words));
    let number = lines.next().expect(words).trim_end_matches(';');
    assert_eq!(lines.next(), None, "{words} stands once");
    number.trim().parse().expect(words)
}

#[test]
fn the_header_has_the_same_limits() {
    let header = text("include/hechroung.h");
    for (name, expected) in [
        ("UNIT", hechroung::UNIT as usize),
        ("DENOMINATOR", hechroung::DENOMINATOR as usize),
        ("MOST_VARIABLES", hechroung::MOST_VARS),
        ("MOST_TERMS", hechroung::MOST_TERMS),
        ("CURVE_PLACES", hechroung::CURVE_PLACES),
        ("MOST_MODELS", hechroung::MOST_MODELS),
        ("MOST_STEPS", hechroung::MOST_STEPS),
        ("MOST_READINGS", hechroung::MOST_READINGS),
        ("LONGEST_SHEET", hechroung::LONGEST_SHEET),
        ("LONGEST_RECORD", hechroung::LONGEST_RECORD),
        ("LONGEST_ARCHIVED", hechroung::LONGEST_ARCHIVED),
        ("LONGEST_TEXT", hechroung::LONGEST_TEXT),
        ("MISUSED", hechroung::raw::MISUSED.into()),
    ] {
        let words = format!("#define HECHROUNG_{name} ");
        assert_eq!(number(&header, &words), expected, "{name}");
    }
    let proved = number(
        &text("crates/text/src/lib.rt"),
        "pub const MOST_TEXT: usize =",
    );
    assert_eq!(hechroung::LONGEST_TEXT, proved);
}

/// The number of this name in an enum of C.
fn code_of(header: &str, name: &str) -> u8 {
    let words = format!("    HECHROUNG_{name} = ");
    let line = header.lines().find_map(|line| line.strip_prefix(&words));
    let number = line.expect(name).trim_end_matches(',');
    number.parse().expect(name)
}

#[test]
fn the_headers_have_the_same_codes() {
    use hechroung::raw::{code, ends_code};
    let (header, raw) = (text("include/hechroung.h"), text("include/hechroung_raw.h"));
    for (name, expected) in [
        ("INPUT", code::INPUT),
        ("CONSTANT", code::CONSTANT),
        ("VARIABLE", code::VARIABLE),
        ("NEGATE", code::NEGATE),
        ("ADD", code::ADD),
        ("SUBTRACT", code::SUBTRACT),
        ("MULTIPLY", code::MULTIPLY),
        ("SUBSTITUTE", code::SUBSTITUTE),
        ("SWEEP", code::SWEEP),
        ("QUOTIENT", code::QUOTIENT),
        ("ANTIDERIVATIVE", code::ANTIDERIVATIVE),
    ] {
        assert_eq!(code_of(&header, &format!("STEP_{name}")), expected);
    }
    for (name, expected) in [
        ("RANGE", ends_code::RANGE),
        ("INTEGRAL", ends_code::INTEGRAL),
        ("EVALUATE", ends_code::EVALUATE),
    ] {
        assert_eq!(code_of(&raw, &format!("ENDS_{name}")), expected);
    }
}

#[test]
fn the_header_has_the_same_version_and_layout() {
    let header = text("include/hechroung.h");
    let version = format!("#define HECHROUNG_VERSION \"{}\"\n", hechroung::VERSION);
    assert!(header.contains(&version), "{version}");
    let layout = format!("#define HECHROUNG_ABI {}\n", hechroung::raw::LAYOUT);
    assert!(header.contains(&layout), "{layout}");
}

/// The strings of C between `first` and `last`, those that stand after one another joined, as C does.
fn strings(text: &str, first: &str, last: &str) -> Vec<String> {
    let (_, block) = text.split_once(first).expect(first);
    let (block, _) = block.split_once(last).expect(last);
    let mut found = Vec::new();
    let mut string = String::new();
    for line in block.lines().map(str::trim).filter(|line| !line.is_empty()) {
        let quoted = line.trim_end_matches(',');
        string += quoted
            .strip_prefix('"')
            .and_then(|it| it.strip_suffix('"'))
            .expect(line);
        if line.ends_with(',') {
            found.push(std::mem::take(&mut string));
        }
    }
    found
}

#[test]
fn the_header_has_the_same_sentences() {
    let header = text("include/hechroung.h");
    let sentences = strings(&header, "sentences[] = {\n", "};");
    assert_eq!(sentences.len(), 18, "those of 0 to 17");
    for (number, sentence) in sentences.iter().enumerate().skip(1) {
        let number = number.try_into().expect("small");
        let refusal = Refusal { number, place: 3 };
        assert_eq!(refusal.sentence(), sentence);
        assert_eq!(
            refusal.to_string(),
            format!("refused {number} 3: {sentence}")
        );
    }
    for number in [0, 18, 255] {
        let refusal = Refusal { number, place: 0 };
        assert_eq!(refusal.sentence(), "No call returns this number.");
    }
}

/// 64 terms in eight variables with coefficients of eight digits: more text than a sheet of four variables can have.
#[test]
fn a_long_text_has_room() {
    let mut model = Model {
        n: 8,
        count: 64,
        ..Model::ZERO
    };
    // The tenth power of variable 7, and five more of variables 1 to 4 at the most.
    let degree = |half: &u32| {
        [12, 8, 4, 0]
            .map(|shift| half >> shift & 15)
            .iter()
            .sum::<u32>()
    };
    let halves = (0..=0xFFFF).filter(|half| degree(half) <= 5);
    for (place, half) in halves.take(model.count).enumerate() {
        model.keys[place] = half << 16 | 0xA0;
        model.coefficients[place] = -16_777_215;
    }
    let book = Book::new(8, 15, &[model], &[Step::default()]);
    let mut sheet = [0; hechroung::LONGEST_SHEET];
    let length = hechroung::write(&book, &mut sheet).expect("the book is sound");
    let lines = hechroung::lines(&sheet[..length]);
    assert_eq!(lines.lines().count(), 64 + 3, "the sheet is accepted");
    assert!((2_049..=hechroung::LONGEST_TEXT).contains(&lines.len()));
}
