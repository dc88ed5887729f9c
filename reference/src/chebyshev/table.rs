//! The sixteen Chebyshev polynomials in powers, and sixteen powers in Chebyshev
//! polynomials.

use super::model::PLACES;

/// What multiplies x^0 to x^15, or T_0 to T_15.
pub type Row = [i128; PLACES];

/// T_0 to T_15 in powers: T_0 = 1, T_1 = x and T_(k+1) = 2 x T_k - T_(k-1).
pub fn polynomials_in_powers() -> [Row; PLACES] {
    let mut rows = [[0; PLACES]; PLACES];
    rows[0][0] = 1;
    rows[1][1] = 1;
    for k in 1..PLACES - 1 {
        let raised = raised(&rows[k]);
        rows[k + 1] = std::array::from_fn(|power| 2 * raised[power] - rows[k - 1][power]);
    }
    rows
}

/// x times a polynomial whose degree is below 15.
fn raised(row: &Row) -> Row {
    assert_eq!(row[PLACES - 1], 0, "the degree is below 15");
    std::array::from_fn(|power| if power == 0 { 0 } else { row[power - 1] })
}

/// What the rows of [`powers_in_polynomials`] are to be divided by: x^15 is
/// halved fourteen times, and once more does no harm.
pub const DIVISOR: i128 = 1 << 15;

/// x^0 to x^15 in Chebyshev polynomials, times [`DIVISOR`]: x^0 = T_0, and by the
/// rule of products x × T_k = (T_(k+1) + T_|k-1|) / 2.
pub fn powers_in_polynomials() -> [Row; PLACES] {
    let mut rows = [[0; PLACES]; PLACES];
    rows[0][0] = DIVISOR;
    for power in 0..PLACES - 1 {
        for k in 0..=power {
            let coefficient = rows[power][k];
            assert_eq!(coefficient % 2, 0, "a half is whole");
            rows[power + 1][k + 1] += coefficient / 2;
            rows[power + 1][k.abs_diff(1)] += coefficient / 2;
        }
    }
    rows
}
