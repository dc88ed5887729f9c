//! The square of x + 1/2, a sheet's records and a row of readings, without the standard library: it ends with 0 where
//! all of them are as they must be.

#![no_std]
#![no_main]

use core::panic::PanicInfo;
use hechroung::{Kind, Model, Reading, Refusal, LONGEST_RECORD, UNIT};

// Where a program starts, memcpy and memset.
#[link(name = "c")]
extern "C" {}

/// Rust's core names it, built to unwind as it is; nothing here unwinds.
#[no_mangle]
pub extern "C" fn rust_eh_personality() {}

#[panic_handler]
fn stop(_: &PanicInfo<'_>) -> ! {
    loop {}
}

/// What the C library starts.
#[no_mangle]
pub extern "C" fn main() -> i32 {
    i32::from(as_it_must_be() != Ok(true))
}

fn as_it_must_be() -> Result<bool, Refusal> {
    let half = Model::constant(1, UNIT / 2)?;
    let sum = hechroung::add(&Model::variable(1, 1)?, &half)?;
    let square = hechroung::multiply(2, &sum, &sum)?;
    let ends = hechroung::range(&square)?;

    let sheet = [1, 0, 0, 0, 9, 0, 0, 0, 1, 1, 0, 1, 0, 0, 0x4D, 0x4B];
    let record = hechroung::open(&sheet)?.next_into(&mut [0; LONGEST_RECORD]);

    let reading = Reading {
        low: UNIT,
        high: UNIT,
        ..Reading::default()
    };
    let contradicting = hechroung::first_contradicting(&half, &[reading])?;
    Ok((ends.low, ends.high) == (-786_432, 2_359_296)
        && hechroung::run(&sheet)?.model.coefficients[0] == 9
        && record == Some((Kind::Step, 8))
        && contradicting == Some(0))
}
