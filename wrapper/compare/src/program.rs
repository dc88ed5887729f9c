//! The program itself: a process for each sheet, which reads it from its standard input.

use crate::agree::{pair, same, Seen};
use crate::case::{Case, Variables};
use reference::generate;
use reference::run::run_sheet;
use reference::text;
use std::io::{ErrorKind, Write};
use std::process::{Command, Stdio};

/// Sheets that are handed over whatever the seed.
pub fn named() -> Vec<Vec<u8>> {
    let sheets = generate::named_sheets();
    sheets.into_iter().map(|sample| sample.bytes).collect()
}

/// The sheet of a number.
pub fn sheet(seed: u64, number: u64) -> Vec<u8> {
    generate::sheet(seed, number).bytes
}

/// The difference names the sheet by a line of hex.
pub fn compare(path: &str, sheet: &[u8]) -> Result<Seen, String> {
    let expected = run_sheet(sheet);
    let found = written(path, sheet).and_then(|lines| same(&lines, &text::lines(&expected)));
    found.map_err(|difference| {
        let line = Case::Sheet(sheet.to_vec()).line();
        format!("the program: {difference}\n{line}")
    })?;
    let seen = Seen::of(expected.refusal.map(pair));
    Ok(Seen {
        variables: Variables::of_sheet(sheet),
        ..seen
    })
}

/// What the program writes; it says nothing on standard error and ends with status 0.
pub fn written(path: &str, sheet: &[u8]) -> Result<String, String> {
    let mut child = Command::new(path)
        .stdin(Stdio::piped())
        .stdout(Stdio::piped())
        .stderr(Stdio::piped())
        .spawn()
        .map_err(|error| format!("{path}: {error}"))?;
    let mut input = child.stdin.take().expect("it was piped");
    match input.write_all(sheet) {
        Ok(()) => {}
        // of an input that is too long it leaves the rest
        Err(error) if error.kind() == ErrorKind::BrokenPipe => {}
        Err(error) => return Err(error.to_string()),
    }
    drop(input);
    let output = child
        .wait_with_output()
        .map_err(|error| error.to_string())?;
    let said = String::from_utf8_lossy(&output.stderr);
    if !output.status.success() || !said.is_empty() {
        return Err(format!("{}: {said}", output.status));
    }
    String::from_utf8(output.stdout).map_err(|error| error.to_string())
}
