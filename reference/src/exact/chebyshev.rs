//! The check of what the calls on Chebyshev curves promise: each answer encloses
//! what functions within its models give.

use super::check::encloses;
use super::fraction::Fraction;
use super::function::jump_at;
use super::integer::Integer;
use super::outcome::Point;
use super::polynomial::ExactPolynomial;
use crate::chebyshev::{Call, CallAnswer, ChebyshevModel, StoredChebyshev, PLACES};
use crate::model::{Model, LARGEST_DEGREE, UNIT};
use crate::stored::StoredModel;

/// A sound model in one form or the other, of the first variable.
#[derive(Clone, Debug, PartialEq, Eq)]
pub enum Form {
    Chebyshev(Box<ChebyshevModel>),
    Powers(Model),
}

impl Form {
    fn of_chebyshev(stored: &StoredChebyshev) -> Option<Form> {
        stored.sound().map(|model| Form::Chebyshev(Box::new(model)))
    }

    fn of_powers(stored: &StoredModel) -> Option<Form> {
        let model = stored.sound(LARGEST_DEGREE)?;
        (model.n == 1).then_some(Form::Powers(model))
    }

    /// The value of the polynomial.
    pub fn at(&self, point: &Point) -> Fraction {
        match self {
            Form::Chebyshev(model) => value_at(&model.coefficients, &point[0]),
            Form::Powers(model) => ExactPolynomial::of_model(model).at(point),
        }
    }

    /// The radius as a fraction.
    pub fn radius(&self) -> Fraction {
        let radius = match self {
            Form::Chebyshev(model) => model.radius,
            Form::Powers(model) => model.radius,
        };
        Fraction::of(radius, UNIT)
    }

    fn holds(&self, value: &Fraction, point: &Point) -> bool {
        (value - &self.at(point)).abs() <= self.radius()
    }
}

/// The sum of c / U × T_k at p / q. Numbers S_k = q^k × T_k are whole: S_0 = 1,
/// S_1 = p and S_(k+1) = 2 p S_k - q² S_(k-1).
fn value_at(coefficients: &[i128; PLACES], x: &Fraction) -> Fraction {
    let (p, q) = (x.numerator(), x.denominator());
    let twice = p + p;
    let square = q * q;
    let mut whole = vec![Integer::one(), p.clone()];
    for k in 1..PLACES - 1 {
        whole.push(&(&twice * &whole[k]) - &(&square * &whole[k - 1]));
    }
    let powers = q.powers(PLACES - 1);
    let mut numerator = Integer::zero();
    for (k, &c) in coefficients.iter().enumerate() {
        let share = &(&Integer::from(c) * &whole[k]) * &powers[PLACES - 1 - k];
        numerator = &numerator + &share;
    }
    let denominator = &powers[PLACES - 1] * &Integer::from(UNIT);
    Fraction::new(numerator, denominator)
}

/// How far a function is from the polynomial of its model, as a part of the
/// radius from -1 to 1.
#[derive(Clone, Debug, PartialEq, Eq)]
pub enum Deviation {
    /// The same part everywhere.
    Constant(Fraction),
    /// T_k, or -T_k.
    Polynomial { k: usize, negative: bool },
    /// It jumps from point to point.
    Jumping { seed: u64 },
}

impl Deviation {
    fn at(&self, point: &Point) -> Fraction {
        match self {
            Deviation::Constant(part) => part.clone(),
            Deviation::Polynomial { k, negative } => {
                let mut coefficients = [0; PLACES];
                coefficients[*k] = if *negative { -UNIT } else { UNIT };
                value_at(&coefficients, &point[0])
            }
            Deviation::Jumping { seed } => jump_at(point, *seed),
        }
    }
}

/// A function within a model.
struct Function {
    form: Form,
    deviation: Deviation,
}

impl Function {
    fn at(&self, point: &Point) -> Fraction {
        let deviation = &self.form.radius() * &self.deviation.at(point);
        &self.form.at(point) + &deviation
    }
}

/// Where a promise is false.
#[derive(Clone, Debug, PartialEq, Eq)]
pub enum Violation {
    /// A call with a model that breaks a rule is not refused.
    BrokenModel,
    /// The answer breaks a rule of a model, or is of another kind than the call's.
    BrokenAnswer,
    /// What the functions give differs from the answer's polynomial by more than
    /// its radius.
    Radius(Box<Point>),
    /// What the function gives is outside the ends.
    Range(Box<Point>),
    /// Conversion to powers is exact, and this one has another value or radius.
    Inexact(Box<Point>),
}

/// Checks what a call claims, wherever the answer came from, with one function
/// within each model of the call. Returns the number of points that were checked:
/// nothing is claimed by a refusal.
pub fn check_call(
    call: &Call,
    answer: &CallAnswer,
    deviations: &[Deviation; 2],
    points: &[Point],
) -> Result<usize, Violation> {
    if answer.refusal().is_some() {
        return Ok(0);
    }
    if !is_answer_to(call, answer) {
        return Err(Violation::BrokenAnswer);
    }
    let forms = forms_of(call).ok_or(Violation::BrokenModel)?;
    let functions: Vec<Function> = forms
        .into_iter()
        .zip(deviations.iter().cloned())
        .map(|(form, deviation)| Function { form, deviation })
        .collect();
    for point in points {
        let outcome = outcome_at(call, &functions, point);
        check_point(answer, &outcome, point)?;
        if matches!(call, Call::ToPowers { .. }) {
            check_exact(&functions[0].form, answer, point)?;
        }
    }
    Ok(points.len())
}

fn is_answer_to(call: &Call, answer: &CallAnswer) -> bool {
    match call {
        Call::Range { .. } => matches!(answer, CallAnswer::Ends(_)),
        Call::ToPowers { .. } => matches!(answer, CallAnswer::Powers(_)),
        _ => matches!(answer, CallAnswer::Chebyshev(_)),
    }
}

/// The models of a call, or none if one is broken.
fn forms_of(call: &Call) -> Option<Vec<Form>> {
    match call {
        Call::Negate { f } | Call::Range { f } | Call::ToPowers { f } => {
            Some(vec![Form::of_chebyshev(f)?])
        }
        Call::Add { f, g } | Call::Subtract { f, g } | Call::Multiply { f, g } => {
            Some(vec![Form::of_chebyshev(f)?, Form::of_chebyshev(g)?])
        }
        Call::FromPowers { f } => Some(vec![Form::of_powers(f)?]),
    }
}

/// What the functions give at a point.
fn outcome_at(call: &Call, functions: &[Function], point: &Point) -> Fraction {
    let value = |place: usize| functions[place].at(point);
    match call {
        Call::Negate { .. } => -&value(0),
        Call::Add { .. } => &value(0) + &value(1),
        Call::Subtract { .. } => &value(0) - &value(1),
        Call::Multiply { .. } => &value(0) * &value(1),
        Call::Range { .. } | Call::ToPowers { .. } | Call::FromPowers { .. } => value(0),
    }
}

/// The model of an answer, or none if it has none or a broken one.
fn form_of(answer: &CallAnswer) -> Option<Form> {
    match answer {
        CallAnswer::Chebyshev(answer) => Form::of_chebyshev(&answer.model),
        CallAnswer::Powers(answer) => Form::of_powers(&answer.model),
        CallAnswer::Ends(_) => None,
    }
}

fn check_point(answer: &CallAnswer, outcome: &Fraction, point: &Point) -> Result<(), Violation> {
    if let CallAnswer::Ends(answer) = answer {
        return if encloses(answer.ends, outcome) {
            Ok(())
        } else {
            Err(Violation::Range(Box::new(point.clone())))
        };
    }
    let form = form_of(answer).ok_or(Violation::BrokenAnswer)?;
    if form.holds(outcome, point) {
        Ok(())
    } else {
        Err(Violation::Radius(Box::new(point.clone())))
    }
}

fn check_exact(form: &Form, answer: &CallAnswer, point: &Point) -> Result<(), Violation> {
    let converted = form_of(answer).ok_or(Violation::BrokenAnswer)?;
    if converted.at(point) == form.at(point) && converted.radius() == form.radius() {
        Ok(())
    } else {
        Err(Violation::Inexact(Box::new(point.clone())))
    }
}

#[cfg(test)]
mod tests {
    use super::*;

    /// T_k at 3/5 is the cosine of k angles whose own cosine is 3/5; by halves
    /// of a turn it is known at -1, 0 and 1.
    #[test]
    fn values_at_fractions() {
        let value = |k: usize, x: &Fraction| {
            let mut coefficients = [0; PLACES];
            coefficients[k] = UNIT;
            value_at(&coefficients, x)
        };
        let x = Fraction::of(3, 5);
        assert_eq!(value(0, &x), Fraction::one());
        assert_eq!(value(1, &x), x);
        assert_eq!(value(2, &x), Fraction::of(-7, 25));
        assert_eq!(value(3, &x), Fraction::of(-117, 125));
        for k in 0..PLACES {
            let sign = [1, -1][k % 2];
            assert_eq!(value(k, &Fraction::of(1, 1)), Fraction::one());
            assert_eq!(value(k, &Fraction::of(-1, 1)), Fraction::of(sign, 1));
            let middle = [1, 0, -1, 0][k % 4];
            assert_eq!(value(k, &Fraction::zero()), Fraction::of(middle, 1));
            assert!(value(k, &Fraction::of(-13, 97)).is_in_box());
        }
    }

    #[test]
    fn coefficients_of_all_places_count() {
        let coefficients = std::array::from_fn(|k| k as i128 + 1);
        let value = value_at(&coefficients, &Fraction::of(1, 1));
        assert_eq!(value, Fraction::of(136, UNIT));
        let value = value_at(&coefficients, &Fraction::of(-1, 1));
        assert_eq!(value, Fraction::of(-8, UNIT));
    }
}
