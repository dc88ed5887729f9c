//! Curves delivered in doubles (document 02, CR 13): three coefficients and a
//! radius, read from their 64 bits by whole numbers alone.

use crate::calls::{require, ModelAnswer};
use crate::model::{Model, Polynomial, LARGEST_SPAN, ONE};
use crate::operations::{divided_up, nearest};
use crate::refusal::Refusal;

/// The record of four doubles, each by its bits: what multiplies the powers 0, 1
/// and 2 of one variable, and the radius.
#[derive(Clone, Copy, Debug, PartialEq, Eq)]
pub struct Record {
    pub coefficients: [u64; 3],
    pub radius: u64,
}

impl Record {
    /// The record of numbers that are doubles already.
    pub fn of(coefficients: [f64; 3], radius: f64) -> Record {
        Record {
            coefficients: coefficients.map(f64::to_bits),
            radius: radius.to_bits(),
        }
    }

    /// The model. Tests 16 of all four, and then 7.
    pub fn answer(&self) -> ModelAnswer {
        ModelAnswer::from(self.try_model())
    }

    fn try_model(&self) -> Result<Model, Refusal> {
        let mut coefficients = Vec::new();
        for bits in self.coefficients {
            coefficients.push(Finite::of(bits).ok_or(Refusal::Double)?);
        }
        let radius = Finite::of(self.radius).ok_or(Refusal::Double)?;
        require(!radius.is_below_zero(), Refusal::Double)?;
        let model = model_of(&coefficients, &radius);
        require(model.span() <= LARGEST_SPAN, Refusal::Span(0))?;
        Ok(model)
    }
}

/// A finite double: its value is the digits × 2^power, with the sign.
struct Finite {
    negative: bool,
    digits: u64,
    power: i32,
}

impl Finite {
    /// From the bits: a sign, 11 of the exponent, 52 of the fraction. The largest
    /// exponent stands for infinities and what is no number. The smallest has no
    /// leading 1 and the power of the next.
    fn of(bits: u64) -> Option<Finite> {
        let negative = bits >> 63 == 1;
        let exponent = (bits >> 52 & 0x7FF) as i32;
        let fraction = bits & ((1 << 52) - 1);
        let (digits, power) = match exponent {
            0x7FF => return None,
            0 => (fraction, -1_074),
            _ => (fraction | 1 << 52, exponent - 1_075),
        };
        Some(Finite {
            negative,
            digits,
            power,
        })
    }

    /// Minus zero counts as zero.
    fn is_below_zero(&self) -> bool {
        self.negative && self.digits != 0
    }

    /// U times the value, as a whole number over a power of two. The digits are
    /// below 2^53: over 2^100 they are below a half and above 0 as over any higher
    /// power, and 2^70 times them is above every span, as any higher multiple.
    fn units(&self) -> (i128, i128) {
        let power = (self.power + 20).clamp(-100, 70);
        let digits = i128::from(self.digits);
        let signed = if self.negative { -digits } else { digits };
        if power < 0 {
            (signed, 1 << -power)
        } else {
            (signed << power, 1)
        }
    }
}

/// Each coefficient to the nearest whole number of units, ties to even; the radius
/// rounded up, plus 1 for each coefficient that is no whole number.
fn model_of(coefficients: &[Finite], radius: &Finite) -> Model {
    let (number, divisor) = radius.units();
    let mut model = Model {
        n: 1,
        polynomial: Polynomial::new(),
        radius: divided_up(number, divisor),
    };
    for (power, coefficient) in (0..).zip(coefficients) {
        let (number, divisor) = coefficient.units();
        let c = nearest(number, divisor);
        if c * divisor != number {
            model.radius += 1;
        }
        if c != 0 {
            let mut monomial = ONE;
            monomial[0] = power;
            model.polynomial.insert(monomial, c);
        }
    }
    model
}
