//! Single calls on generated cases: the library's answer, in every placement, is the second program's.

use crate::case::{difference, Answer, Case, Second};
use crate::guarded::Placement;
use crate::library::Library;
use crate::random::Random;
use crate::{finishing, receive, transmit};

pub const PLACEMENTS: [Placement; 3] = [Placement::End, Placement::Begin, Placement::Odd];

/// Case `number` of a run with `seed`: three takes to two puts and two finishes.
pub fn case(seed: u64, number: u64) -> Case {
    let random = &Random::new(seed, number);
    match random.below(7) {
        0..=2 => transmit::case(random),
        3 | 4 => receive::case(random),
        _ => finishing::case(random),
    }
}

/// The answer that both give to a case, or how they differ.
pub fn check(library: &mut Library, second: &Second, case: &Case) -> Result<Answer, String> {
    let expected = second.answer(case);
    for placement in PLACEMENTS {
        let found = library.answer(case, placement)?;
        if let Some(difference) = difference(&expected, &found) {
            return Err(format!("buffers at {placement:?}: {difference}"));
        }
    }
    Ok(expected)
}
