//! Reads a sheet from standard input and prints the lines of document 01.
//!
//! `reference` reads raw bytes, `reference --hex` one line of hex digits.

#![forbid(unsafe_code)]

use reference::sheet::LONGEST_SHEET;
use reference::text;
use std::io::{self, BufRead, Read, Write};
use std::process::ExitCode;

fn main() -> ExitCode {
    match run() {
        Ok(()) => ExitCode::SUCCESS,
        Err(error) => {
            eprintln!("reference: {error}");
            ExitCode::from(2)
        }
    }
}

fn run() -> io::Result<()> {
    let arguments: Vec<String> = std::env::args().skip(1).collect();
    let sheet = match arguments.iter().map(String::as_str).collect::<Vec<_>>()[..] {
        [] => raw_sheet()?,
        ["--hex"] => hex_sheet()?,
        _ => return Err(invalid("the only argument is --hex")),
    };
    io::stdout().write_all(text::lines_of_sheet(&sheet).as_bytes())
}

/// One byte above the longest sheet is enough to see that the input is too long.
fn raw_sheet() -> io::Result<Vec<u8>> {
    let mut sheet = Vec::new();
    let most = LONGEST_SHEET as u64 + 1;
    io::stdin().lock().take(most).read_to_end(&mut sheet)?;
    Ok(sheet)
}

fn hex_sheet() -> io::Result<Vec<u8>> {
    let mut line = String::new();
    io::stdin().lock().read_line(&mut line)?;
    text::bytes_of_hex(&line).ok_or_else(|| invalid("the line is not pairs of hex digits"))
}

fn invalid(message: &str) -> io::Error {
    io::Error::new(io::ErrorKind::InvalidInput, message)
}
