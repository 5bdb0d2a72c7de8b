//! Every small list of records, lent to both calls that have one: which of them cover the slots between the counters.

use crate::case::{difference, Call, Case, State, REFERENCE};
use crate::crash::{self, Phase};
use crate::guarded::Placement;
use crate::library::Library;
use reference::held::{Held, HeldWords};
use reference::report::BAD_RECORDS;
use reference::ring::PAGE_BYTES;

/// The most records of a list, and the most slots between its counters.
const RECORDS: u32 = 3;
const BETWEEN: u32 = 4;
/// A record has 0 to 3 slots, from the slot before the counter of replies up to the fourth behind it.
const SLOTS: u32 = 4;
const TICKETS: u32 = 6;

/// Checks all lists, and gives their number and that of those that are taken.
pub fn check_all(library: &mut Library) -> Result<(u64, u64), String> {
    let (mut checked, mut taken) = (0, 0);
    for length in 0..=RECORDS {
        for number in 0..(SLOTS * TICKETS).pow(length) {
            for between in 0..=BETWEEN {
                crash::note(Phase::Covers, checked);
                let case = case(number, length, between);
                let refused = check(library, &case)
                    .map_err(|error| format!("list of records {checked}: {error}\n{case}"))?;
                taken += u64::from(!refused);
                checked += 1;
            }
        }
    }
    Ok((checked, taken))
}

/// List `number` of a length, a digit for each record, with so many slots between the counters.
fn case(number: u32, length: u32, between: u32) -> Case {
    let replied = if number.is_multiple_of(2) { 0 } else { 0_u32.wrapping_sub(number % 5) };
    let record = |place: u32| {
        let digit = number / (SLOTS * TICKETS).pow(place) % (SLOTS * TICKETS);
        let ticket = replied.wrapping_add(digit / SLOTS).wrapping_sub(1);
        let finished = u32::from(ticket != replied && number.is_multiple_of(3));
        Held { ticket, slots: digit % SLOTS, extras: 0, status: 0, finished }.words()
    };
    let held: Vec<HeldWords> = (0..length).map(record).collect();
    let consumed = replied.wrapping_add(between);
    let mut page = vec![0x55; PAGE_BYTES];
    page[..4].copy_from_slice(&consumed.to_le_bytes());
    let (grants, window, frame) = (Vec::new(), Vec::new(), Vec::new());
    let before = State { consumed, replied, halted: 0, page, grants, window, held, frame };
    Case { call: Call::Finish { ticket: replied, status: -2 }, before }
}

/// Whether both calls refuse the list, or how library and second program differ.
fn check(library: &mut Library, finish: &Case) -> Result<bool, String> {
    let take = Case { call: Call::Take, ..finish.clone() };
    let mut refused = Vec::new();
    for case in [finish, &take] {
        let expected = REFERENCE.answer(case);
        let found = library.answer(case, Placement::End)?;
        if let Some(difference) = difference(&expected, &found) {
            return Err(format!("{:?}: {difference}", case.call));
        }
        refused.push(found.returned == BAD_RECORDS);
    }
    if refused[0] != refused[1] {
        return Err("refused by one call only".to_string());
    }
    Ok(refused[0])
}
