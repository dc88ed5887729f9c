//! The refusals of document 01, "What a refused call gives", and of document 02.

/// Why a call is refused. A variant holds a place where the table has one
/// other than 0.
#[derive(Clone, Copy, Debug, PartialEq, Eq, PartialOrd, Ord)]
pub enum Refusal {
    /// 1: the length is below 16 or above 8,792; of an archive, below 6 or not that
    /// of its count.
    Length,
    /// 2: the last two bytes are neither mark.
    Mark,
    /// 3: n, d, model count or step count is outside its limits, or n does not fit
    /// the mark.
    Limits,
    /// 4: offset + 8 × steps + 8 is not the length.
    Offset,
    /// 5: the model with this number breaks a rule.
    Model(usize),
    /// 6: the step with this number breaks its form, or an argument is wrong.
    Step(usize),
    /// 7: a span above 2^30.
    Span(usize),
    /// 8: more than 64 terms.
    Terms(usize),
    /// 9: the substituted model, or a coordinate, leaves the box.
    OutsideBox(usize),
    /// 10: two models of a single call differ in n.
    Variables,
    /// 11: the writer's buffer is too short.
    Buffer,
    /// 12: mu of a quotient is U or more, so that nothing is known of it.
    Uncertified(usize),
    /// 13: a power model to convert has n other than 1.
    NotOneVariable,
    /// 14: a box is to be cut deeper than 6.
    CutTooDeep,
    /// 15: a row is longer than 256, or the band of the reading with this number has
    /// its low value above its high one.
    Reading(usize),
    /// 16: a double is not finite, or a radius in doubles is negative.
    Double,
    /// 17: the rank of the term with this number is none, or does not rise.
    Rank(usize),
}

impl Refusal {
    /// The number in the table.
    pub fn number(self) -> u8 {
        match self {
            Refusal::Length => 1,
            Refusal::Mark => 2,
            Refusal::Limits => 3,
            Refusal::Offset => 4,
            Refusal::Model(_) => 5,
            Refusal::Step(_) => 6,
            Refusal::Span(_) => 7,
            Refusal::Terms(_) => 8,
            Refusal::OutsideBox(_) => 9,
            Refusal::Variables => 10,
            Refusal::Buffer => 11,
            Refusal::Uncertified(_) => 12,
            Refusal::NotOneVariable => 13,
            Refusal::CutTooDeep => 14,
            Refusal::Reading(_) => 15,
            Refusal::Double => 16,
            Refusal::Rank(_) => 17,
        }
    }

    /// The place in the table.
    pub fn place(self) -> usize {
        match self {
            Refusal::Model(place)
            | Refusal::Step(place)
            | Refusal::Span(place)
            | Refusal::Terms(place)
            | Refusal::OutsideBox(place)
            | Refusal::Uncertified(place)
            | Refusal::Reading(place)
            | Refusal::Rank(place) => place,
            Refusal::Length
            | Refusal::Mark
            | Refusal::Limits
            | Refusal::Offset
            | Refusal::Variables
            | Refusal::Buffer
            | Refusal::NotOneVariable
            | Refusal::CutTooDeep
            | Refusal::Double => 0,
        }
    }
}
