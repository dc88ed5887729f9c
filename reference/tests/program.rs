//! The program itself.

use reference::generate;
use reference::text;
use std::io::Write;
use std::process::{Command, Output, Stdio};

fn output(arguments: &[&str], input: &[u8]) -> Output {
    let mut program = Command::new(env!("CARGO_BIN_EXE_reference"))
        .args(arguments)
        .stdin(Stdio::piped())
        .stdout(Stdio::piped())
        .stderr(Stdio::piped())
        .spawn()
        .expect("the program starts");
    let mut stdin = program.stdin.take().expect("a pipe");
    // The program stops reading after 8,793 bytes, which closes the pipe.
    let _ = stdin.write_all(input);
    drop(stdin);
    program.wait_with_output().expect("the program ends")
}

fn lines(arguments: &[&str], input: &[u8]) -> String {
    let output = output(arguments, input);
    assert!(output.status.success());
    String::from_utf8(output.stdout).expect("plain text")
}

#[test]
fn prints_the_lines_of_a_sheet() {
    for number in 0..60 {
        let bytes = generate::sheet(61, number).bytes;
        assert_eq!(lines(&[], &bytes), text::lines_of_sheet(&bytes));
    }
}

#[test]
fn reads_hex() {
    for sample in generate::named_sheets().iter().take(20) {
        let digits: String = sample
            .bytes
            .iter()
            .map(|byte| format!("{byte:02X} "))
            .collect();
        let expected = text::lines_of_sheet(&sample.bytes);
        assert_eq!(
            lines(&["--hex"], format!("{digits}\n").as_bytes()),
            expected
        );
    }
}

#[test]
fn refuses_inputs_that_are_empty_or_too_long() {
    assert_eq!(lines(&[], &[]), "refused 1 0\n");
    assert_eq!(lines(&[], &[0x4B; 8_793]), "refused 1 0\n");
    assert_eq!(lines(&[], &vec![0; 300_000]), "refused 1 0\n");
    assert_eq!(lines(&[], &[0; 8_792]), "refused 2 0\n");
}

#[test]
fn tells_what_is_wrong_with_its_arguments() {
    assert_eq!(output(&["--hex"], b"0g").status.code(), Some(2));
    assert_eq!(output(&["--hex"], b"012").status.code(), Some(2));
    assert_eq!(output(&["--unknown"], b"").status.code(), Some(2));
}
