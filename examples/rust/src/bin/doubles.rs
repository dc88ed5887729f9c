//! A curve that a supplier delivers in doubles: its model, its range, and what is refused.

#![forbid(unsafe_code)]

use hechroung::{from_doubles, range, raw, Doubles, Refusal};

fn main() -> Result<(), Refusal> {
    // 4.1 + 0.35 x - 1.25 x² litres a minute, to 0.002.
    let theirs = Doubles {
        c0: 4.1,
        c1: 0.35,
        c2: -1.25,
        radius: 0.002,
    };
    let ours = from_doubles(&theirs)?;
    println!("radius {}", ours.radius);
    for (key, coefficient) in ours.terms() {
        println!("term {} {coefficient}", key >> 28);
    }
    let ends = range(&ours)?;
    println!("range {} {}", ends.low, ends.high);

    // A value that is not finite, a negative radius, one that is too large; and minus zero, which is zero.
    let c2 = f64::NAN;
    println!("not a number: {}", number(Doubles { c2, ..theirs }));
    let of_radius = |radius| {
        number(Doubles {
            c2: 0.0,
            radius,
            ..theirs
        })
    };
    println!("a negative radius: {}", of_radius(-f64::from_bits(1)));
    println!("too large: {}", of_radius(1e300));
    println!("minus zero: {}", of_radius(-0.0));
    let misused = raw::doubles([0.0; 3], 0.0, &mut [], &mut [], &mut []);
    println!("misused: {misused}");
    Ok(())
}

/// The number of the refusal, 0 without one.
fn number(curve: Doubles) -> u8 {
    from_doubles(&curve).map_or_else(|refusal| refusal.number, |_| 0)
}
