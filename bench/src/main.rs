//! Prints tables of times, each row measured side by side in one run: the proved library, FLINT, and the second
//! implementation. Inputs are used in turn, so that no branch predictor learns one of them.
//! usage: bench [SECTION] [SEED]; without a section all of SECTIONS but the last, a search for sheets that run slowly

mod antiderivatives;
mod archive;
mod calls;
mod curves;
mod cuts;
mod doubles;
mod flint;
mod growth;
mod inputs;
mod integrals;
mod products;
mod quotients;
mod readings;
mod shares;
mod sheets;
mod slow;
mod throughput;
mod timing;

use reference::generate::Random;

/// Prints a table or more. Some are of six seeds from the one that is given on, the others of one.
type Print = fn(u64, &mut Random);

const SECTIONS: [(&str, Print); 15] = [
    ("products", |_, random| products::print(random)),
    ("calls", |_, random| calls::print(random)),
    ("quotients", |seed, _| quotients::print(seed)),
    ("antiderivatives", |seed, _| antiderivatives::print(seed)),
    ("integrals", |seed, _| integrals::print(seed)),
    ("curves", |seed, _| curves::print(seed)),
    ("readings", |seed, _| readings::print(seed)),
    ("sheets", |_, random| sheets::print(random)),
    ("shares", |seed, _| shares::print(seed)),
    ("throughput", |seed, _| throughput::print(seed)),
    ("growth", |_, random| growth::print(random)),
    ("cuts", |seed, _| cuts::print(seed)),
    ("doubles", |seed, _| doubles::print(seed)),
    ("archive", |seed, _| archive::print(seed)),
    ("slow", |_, random| slow::print(random)),
];

fn main() {
    let words: Vec<String> = std::env::args().skip(1).collect();
    let alone = |word: &String| SECTIONS.iter().find(|(name, _)| name == word);
    let (section, words) = match &words[..] {
        [first, rest @ ..] if alone(first).is_some() => (alone(first), rest),
        all => (None, all),
    };
    let seed = words
        .first()
        .map_or(0, |word| word.parse().expect("a seed is a number"));
    let mut random = Random::new(seed);
    match section {
        Some((_, print)) => print(seed, &mut random),
        None => {
            for (_, print) in &SECTIONS[..SECTIONS.len() - 1] {
                print(seed, &mut random);
            }
        }
    }
}
