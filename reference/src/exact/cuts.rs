//! The check of what a cut range promises: every function within the model stays
//! inside it.

use super::check::encloses;
use super::function::InputFunction;
use super::outcome::Point;
use crate::calls::EndsAnswer;

/// Where a function leaves the ends of an answer, wherever it came from. Nothing is
/// claimed by a refusal. The function must lie within the model of the call.
pub fn leaves_at<'a>(
    answer: &EndsAnswer,
    function: &InputFunction,
    points: &'a [Point],
) -> Option<&'a Point> {
    if answer.refusal.is_some() {
        return None;
    }
    let inside = |point: &Point| encloses(answer.ends, &function.at(point));
    points.iter().find(|point| !inside(point))
}
