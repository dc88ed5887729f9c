//! Turning the sign of one factor turns the product's sign and leaves its
//! radius, refusals included; and so it goes on for what is made of products.

mod common;

use common::pair;
use reference::calls::{self, Call, ModelAnswer};
use reference::generate::models::{self, Scale};
use reference::generate::{hostile, quotients, Random};
use reference::stored::StoredModel;

/// All signs turned, without testing anything; the lowest number has no negative.
fn turned(model: &StoredModel) -> StoredModel {
    let mut turned = *model;
    for term in &mut turned.terms {
        term.coefficient = term.coefficient.saturating_neg();
    }
    turned
}

/// What has been compared.
#[derive(Debug, Default)]
struct Count {
    accepted: usize,
    rounded: usize,
    refused: usize,
}

impl Count {
    fn note(&mut self, answer: &ModelAnswer) {
        match answer.refusal {
            Some(_) => self.refused += 1,
            None => self.accepted += 1,
        }
        self.rounded += usize::from(answer.model.radius > 0);
    }
}

fn assert_mirrored(answer: &ModelAnswer, other: &ModelAnswer) {
    assert_eq!(pair(other.refusal), pair(answer.refusal));
    assert_eq!(other.model, turned(&answer.model));
}

fn assert_product(f: &StoredModel, g: &StoredModel, order: u8, count: &mut Count) {
    let answer = calls::multiply(f, g, order);
    assert_mirrored(&answer, &calls::multiply(&turned(f), g, order));
    assert_mirrored(&answer, &calls::multiply(f, &turned(g), order));
    assert_eq!(answer, calls::multiply(&turned(f), &turned(g), order));
    count.note(&answer);
}

#[test]
fn products_of_any_models() {
    let mut count = Count::default();
    for number in 0..60_000 {
        if let Call::Multiply { f, g, order } = hostile::call(81, number) {
            assert_product(&f, &g, order, &mut count);
        }
    }
    println!("{count:?}");
    assert!(count.accepted > 1_500 && count.rounded > 1_000 && count.refused > 1_000);
}

/// Coefficients of few units by odd multiples of U/2: most products are halves.
#[test]
fn products_that_fall_on_halves() {
    let mut random = Random::new(82);
    let mut count = Count::default();
    for _ in 0..5_000 {
        let (n, d) = (random.byte(1, 4), random.byte(1, 15));
        let terms = random.size(1, 5);
        let f = models::of_scale(&mut random, n, d, terms, Scale::Tiny);
        let g = models::of_scale(&mut random, n, d, terms, Scale::Halves);
        let f = hostile::stored(&mut random, n, &f);
        let g = hostile::stored(&mut random, n, &g);
        assert_product(&f, &g, d, &mut count);
    }
    println!("{count:?}");
    assert!(count.accepted > 4_000 && count.rounded > 4_000);
}

#[test]
fn substitutions_into_mirrored_curves() {
    let mut count = Count::default();
    for number in 0..60_000 {
        if let Call::Substitute { f, g, i, order } = hostile::call(83, number) {
            let answer = calls::substitute(&f, &g, i, order);
            assert_mirrored(&answer, &calls::substitute(&turned(&f), &g, i, order));
            count.note(&answer);
        }
    }
    println!("{count:?}");
    assert!(count.accepted > 500 && count.rounded > 400 && count.refused > 1_000);
}

#[test]
fn evaluations_of_mirrored_curves() {
    let mut accepted = 0;
    for number in 0..30_000 {
        if let Call::Evaluate { f, point } = hostile::call(84, number) {
            let answer = calls::evaluate(&f, &point);
            let other = calls::evaluate(&turned(&f), &point);
            assert_eq!(pair(other.refusal), pair(answer.refusal));
            assert_eq!(other.ends.low, -answer.ends.high);
            assert_eq!(other.ends.high, -answer.ends.low);
            accepted += usize::from(answer.refusal.is_none());
        }
    }
    assert!(accepted > 1_000);
}

/// A mirrored dividend with a mirrored proposal, and a mirrored divisor too.
#[test]
fn quotients_of_mirrored_curves() {
    let mut random = Random::new(85);
    for _ in 0..2_000 {
        let operands = quotients::accepted(&mut random);
        let models = operands.models.each_ref();
        let [f, g, h, w] = models.map(|draft| hostile::stored(&mut random, operands.n, draft));
        let d = operands.d;
        let answer = calls::quotient(&f, &g, &h, &w, d);
        assert_eq!(answer.refusal, None);
        let other = calls::quotient(&turned(&f), &g, &turned(&h), &w, d);
        assert_mirrored(&answer, &other);
        let other = calls::quotient(&f, &turned(&g), &turned(&h), &turned(&w), d);
        assert_mirrored(&answer, &other);
    }
}
