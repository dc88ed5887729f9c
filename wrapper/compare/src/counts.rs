//! How often each kind of case was compared and each refusal reached.

use crate::agree::{Seen, Tried};
use crate::case::Variables;
use crate::curves;
use crate::cuts::{self, Cuts};
use crate::integrals::Integrals;
use crate::renamed::Renamed;
use crate::rows::Rows;
use std::collections::BTreeMap;

/// The refusals of documents 01 and 02.
const REFUSALS: std::ops::RangeInclusive<u8> = 1..=14;
/// Those that a kind of case has to reach, up to four variables and above.
const REACHED: [(&str, &[u8]); 8] = [
    ("antiderivative", &[3, 5, 6]),
    ("quotient", &[3, 5, 7, 8, 10, 12]),
    ("sheet", &[1, 2, 3, 4, 5, 6, 7, 8, 9, 12]),
    ("sheet written back", &[1, 2, 3, 4, 5, 6, 11]),
    ("sheet stepped through", &[1, 2, 3, 4, 5, 6]),
    ("book written", &[3, 5, 6, 11]),
    ("book run", &[3, 5, 6, 7, 8, 9, 12]),
    (cuts::KIND, &cuts::REACHED),
];

/// Those of the archive's calls.
const ARCHIVE: [(&str, &[u8]); 2] = [
    ("stored in the archive", &[3, 5, 11]),
    ("restored from the archive", &[1, 3, 5, 17]),
];

/// Those that sheets have to reach at so many places, up to four variables and above.
const AT_MANY_PLACES: [u8; 6] = [5, 6, 7, 8, 9, 12];
const MANY_PLACES: usize = 16;
/// Those of a sheet that is read.
const REFUSED_RUNS: [u8; 4] = [7, 8, 9, 12];
/// The kinds of case whose runs have to reach every mix of shares.
const WITH_ROWS: [&str; 2] = ["sheet", "book run"];

/// The kinds of case whose answers have to reach every exact integral.
const WITH_INTEGRALS: [&str; 3] = ["integral", "sheet", "book run"];

/// Places that are listed one by one: those of a sheet's models.
const MOST_LISTED: usize = 17;

#[derive(Default)]
pub struct Counts {
    kinds: BTreeMap<&'static str, Kind>,
    tried: BTreeMap<Variables, Tried>,
}

/// What was seen of one kind of case.
#[derive(Default)]
struct Kind {
    cases: u64,
    /// A case that is no call: a slice was too short, or a code unknown.
    misused: u64,
    answers: BTreeMap<Variables, Answers>,
    rows: Rows,
    integrals: Integrals,
    renamed: Renamed,
    /// Points at which exact outcomes of calls on curves were held against their answers.
    points: u64,
    cuts: Cuts,
}

/// The answers of cases that are alike in how many variables they have.
#[derive(Clone, Default)]
struct Answers {
    accepted: u64,
    /// By number: how often at each place.
    refused: BTreeMap<u8, BTreeMap<usize, u64>>,
}

/// Where a refusal has to be reached: 2 is that of a sheet with neither mark, and all others come of both.
fn owed(number: u8) -> &'static [Variables] {
    match number {
        2 => &[Variables::Neither],
        _ => &Variables::OF_MARKS,
    }
}

impl Counts {
    pub fn note(&mut self, kind: &'static str, seen: &Seen) {
        self.try_add(seen.variables, &seen.tried);
        let kind = self.kinds.entry(kind).or_default();
        kind.cases += 1;
        kind.rows.add(&seen.rows);
        kind.integrals.add(&seen.integrals);
        kind.renamed.add(&seen.renamed);
        kind.points += seen.tried.points_of_curves;
        kind.cuts.add(&seen.cuts);
        if seen.misused {
            kind.misused += 1;
            return;
        }
        let answers = kind.answers.entry(seen.variables).or_default();
        match seen.refusal {
            None => answers.accepted += 1,
            Some((number, place)) => {
                let places = answers.refused.entry(number).or_default();
                *places.entry(place).or_default() += 1;
            }
        }
    }

    pub fn note_failure(&mut self, kind: &'static str) {
        self.kinds.entry(kind).or_default().cases += 1;
    }

    fn try_add(&mut self, variables: Variables, tried: &Tried) {
        let mine = self.tried.entry(variables).or_default();
        mine.points += tried.points;
        mine.points_of_quotients += tried.points_of_quotients;
        mine.points_of_antiderivatives += tried.points_of_antiderivatives;
        mine.points_not_promised += tried.points_not_promised;
        mine.points_too_large += tried.points_too_large;
        mine.integrals += tried.integrals;
    }

    pub fn add(&mut self, other: Counts) {
        for (variables, tried) in &other.tried {
            self.try_add(*variables, tried);
        }
        for (name, kind) in other.kinds {
            self.kinds.entry(name).or_default().add(kind);
        }
    }

    pub fn cases(&self) -> u64 {
        self.kinds.values().map(|kind| kind.cases).sum()
    }

    /// The refusals, shares and exact integrals that no case reached, each with its kind of case.
    pub fn unreached(&self) -> Vec<String> {
        let mut missing = self.unreached_refusals();
        missing.extend(self.unreached_places());
        missing.extend(self.untried());
        missing.extend(self.unreached_curves());
        let mut miss = |name: &str, found: Option<Vec<String>>| {
            let found = found.unwrap_or_else(|| vec!["any".into()]).into_iter();
            missing.extend(found.map(|what| format!("{name}: {what}")));
        };
        for name in WITH_ROWS {
            let kind = self.kinds.get(name);
            miss(name, kind.map(|kind| kind.rows.unreached()));
        }
        for name in WITH_INTEGRALS {
            let kind = self.kinds.get(name);
            miss(name, kind.map(|kind| kind.integrals.unreached()));
        }
        let kind = self.kinds.get(cuts::KIND);
        miss(cuts::KIND, kind.map(Kind::unreached_cuts));
        missing
    }

    /// What no renamed sheet reached: each refusal of a run and an accepted one, up to four variables and above; each
    /// code, each kind of reordering.
    pub fn unreached_renamed(&self, name: &str) -> Vec<String> {
        let Some(kind) = self.kinds.get(name) else {
            return vec!["any renamed sheet".into()];
        };
        let mut missing = kind.renamed.unreached();
        for variables in Variables::OF_MARKS {
            let Answers { accepted, refused } = kind.answers(variables);
            let numbers = REFUSED_RUNS.iter();
            let absent = numbers.filter(|number| !refused.contains_key(number));
            missing.extend(absent.map(|number| format!("refusal {number}, {}", variables.name())));
            if accepted == 0 {
                missing.push(format!("an accepted sheet, {}", variables.name()));
            }
        }
        missing
    }

    /// What no curve in doubles reached.
    pub fn unreached_doubles(&self, name: &str) -> Vec<String> {
        let Some(kind) = self.kinds.get(name) else {
            return vec!["any curve in doubles".into()];
        };
        let Answers { accepted, refused } = kind.answers(Variables::UpToFour);
        let tried = self.tried.get(&Variables::UpToFour);
        let points = tried.map_or(0, |tried| tried.points);
        let absent = [7, 16]
            .into_iter()
            .filter(|number| !refused.contains_key(number));
        let mut missing: Vec<String> = absent.map(|number| format!("refusal {number}")).collect();
        for (what, times) in [
            ("an accepted curve", accepted),
            ("a slice that is too short", kind.misused),
            ("a point", points),
        ] {
            if times == 0 {
                missing.push(what.into());
            }
        }
        missing
    }

    /// What no call of the archive reached: an accepted one, each refusal, 17 at many terms, a slice that is too short.
    pub fn unreached_archive(&self) -> Vec<String> {
        let mut missing = Vec::new();
        for (name, numbers) in ARCHIVE {
            let Some(kind) = self.kinds.get(name) else {
                missing.push(format!("any {name}"));
                continue;
            };
            let mut all = Answers::default();
            kind.answers.values().for_each(|answers| all.add(answers));
            if all.accepted == 0 || kind.misused == 0 {
                missing.push(format!("{name}: an accepted one and one that is misused"));
            }
            for number in numbers {
                let places = all.refused.get(number).map_or(0, BTreeMap::len);
                let owed = if *number == 17 { MANY_PLACES } else { 1 };
                if places < owed {
                    missing.push(format!("{name}: refusal {number} at {owed} places"));
                }
            }
        }
        missing
    }

    /// The refusals that a kind of case did not reach, and those that none did.
    fn unreached_refusals(&self) -> Vec<String> {
        let mut all = Kind::default();
        self.kinds.values().for_each(|kind| all.add_answers(kind));
        let none = Kind::default();
        let mut missing = Vec::new();
        for (name, numbers) in REACHED {
            let kind = self.kinds.get(name).unwrap_or(&none);
            missing.extend(kind.unreached(name, numbers));
        }
        missing.extend(all.unreached("all", &REFUSALS.collect::<Vec<_>>()));
        missing
    }

    /// Where no point or no integral of an exact outcome was tried.
    fn untried(&self) -> Vec<String> {
        let mut missing = Vec::new();
        for variables in Variables::OF_MARKS {
            let tried = self.tried.get(&variables).copied().unwrap_or_default();
            for (what, times) in [("points", tried.points), ("integrals", tried.integrals)] {
                if times == 0 {
                    missing.push(format!("enclosure: {what}, {}", variables.name()));
                }
            }
        }
        missing
    }

    /// Where a call on curves was not refused at a place, not accepted, or not tried for enclosure.
    fn unreached_curves(&self) -> Vec<String> {
        let none = Kind::default();
        let mut missing = Vec::new();
        for (name, refusals) in curves::REACHED {
            let kind = self.kinds.get(name).unwrap_or(&none);
            let refused = |(number, place): &(u8, usize)| {
                let mut answers = kind.answers.values();
                answers.any(|answers| {
                    let places = answers.refused.get(number);
                    places.is_some_and(|places| places.contains_key(place))
                })
            };
            let absent = refusals.iter().filter(|refusal| !refused(refusal));
            missing.extend(absent.map(|(number, place)| format!("{name}: {number} at {place}")));
            if kind.points == 0 {
                missing.push(format!("{name}: an accepted call, and its enclosure"));
            }
        }
        missing
    }

    /// The refusals that sheets reached at few places.
    fn unreached_places(&self) -> Vec<String> {
        let mut missing = Vec::new();
        let Some(kind) = self.kinds.get("sheet") else {
            return missing;
        };
        for number in AT_MANY_PLACES {
            for &variables in owed(number) {
                let refused = kind.answers(variables).refused;
                let places = refused.get(&number).map_or(0, BTreeMap::len);
                if places < MANY_PLACES {
                    let name = variables.name();
                    missing.push(format!("sheet: refusal {number} at many places, {name}"));
                }
            }
        }
        missing
    }

    /// A line for each kind, and one for all; below it, up to four variables and above, a line for each refusal: how
    /// often, and how often at each place.
    pub fn print(&self) {
        let mut all = Kind::default();
        for (name, kind) in &self.kinds {
            kind.print(name);
            kind.rows.print();
            kind.integrals.print();
            kind.renamed.print();
            if kind.points > 0 {
                let points = kind.points;
                println!("    enclosure tried with exact fractions: {points} points");
            }
            kind.cuts.print();
            all.add_answers(kind);
        }
        all.print("all");
        for variables in Variables::OF_MARKS {
            let tried = self.tried.get(&variables).copied().unwrap_or_default();
            println!(
                "enclosure tried with exact fractions, {}: {} points ({} too large, {} not promised), {} of them with \
                 a quotient, {} with an antiderivative; {} integrals",
                variables.name(),
                tried.points,
                tried.points_too_large,
                tried.points_not_promised,
                tried.points_of_quotients,
                tried.points_of_antiderivatives,
                tried.integrals
            );
        }
    }
}

impl Kind {
    fn add(&mut self, other: Kind) {
        self.add_answers(&other);
        self.rows.add(&other.rows);
        self.integrals.add(&other.integrals);
        self.renamed.add(&other.renamed);
        self.points += other.points;
        self.cuts.add(&other.cuts);
    }

    /// Without the rows, integrals, what was renamed and what was cut.
    fn add_answers(&mut self, other: &Kind) {
        self.cases += other.cases;
        self.misused += other.misused;
        for (variables, answers) in &other.answers {
            self.answers.entry(*variables).or_default().add(answers);
        }
    }

    fn answers(&self, variables: Variables) -> Answers {
        self.answers.get(&variables).cloned().unwrap_or_default()
    }

    /// What no cut reached, all variables taken together.
    fn unreached_cuts(&self) -> Vec<String> {
        let mut all = Answers::default();
        self.answers.values().for_each(|answers| all.add(answers));
        self.cuts.unreached(&all.refused)
    }

    /// The refusals that were not reached wherever they have to be.
    fn unreached(&self, name: &str, numbers: &[u8]) -> Vec<String> {
        let mut missing = Vec::new();
        for &number in numbers {
            for &variables in owed(number) {
                if !self.answers(variables).refused.contains_key(&number) {
                    missing.push(format!("{name}: refusal {number}, {}", variables.name()));
                }
            }
        }
        missing
    }

    fn print(&self, name: &str) {
        let accepted: u64 = self.answers.values().map(|answers| answers.accepted).sum();
        println!("{name}: {} cases, {accepted} accepted", self.cases);
        if self.misused > 0 {
            println!("    misused: {}", self.misused);
        }
        for variables in Variables::ALL {
            if let Some(answers) = self.answers.get(&variables) {
                answers.print(variables.name());
            }
        }
    }
}

impl Answers {
    fn add(&mut self, other: &Answers) {
        self.accepted += other.accepted;
        for (number, places) in &other.refused {
            let mine = self.refused.entry(*number).or_default();
            for (place, times) in places {
                *mine.entry(*place).or_default() += times;
            }
        }
    }

    fn print(&self, name: &str) {
        println!("    {name}: {} accepted", self.accepted);
        for (number, places) in &self.refused {
            let times: u64 = places.values().sum();
            println!(
                "        refused {number}: {times} times, {}",
                by_place(places)
            );
        }
    }
}

/// How often each place was reached: one by one, or where there are many, in short.
fn by_place(places: &BTreeMap<usize, u64>) -> String {
    if places.len() <= MOST_LISTED {
        let each = places
            .iter()
            .map(|(place, times)| format!("{place}: {times}"));
        return format!("by place {}", each.collect::<Vec<_>>().join(", "));
    }
    let first = places.keys().next().copied().unwrap_or_default();
    let last = places.keys().next_back().copied().unwrap_or_default();
    let least = places.values().min().copied().unwrap_or_default();
    let most = places.values().max().copied().unwrap_or_default();
    let count = places.len();
    format!("at {count} places from {first} to {last}, each {least} to {most} times")
}
