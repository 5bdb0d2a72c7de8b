//! Boundaries of the list of held packets, for takes and finishes.

use crate::coverage::Boundary;
use crate::records::STATUSES;
use reference::held::{Fault, Held};
use reference::report::*;

/// Boundaries of both calls: what is wrong with a list, and what is not.
pub const LIST: &[Boundary] = &[
    ("bad records: too long, nothing else", |f| f.only_fault(Fault::TooLong)),
    ("bad records: 257 records", |f| f.only_fault(Fault::TooLong) && f.before.held.len() == 257),
    ("bad records: more than 256 slots, nothing else", |f| f.only_fault(Fault::TooManySlots)),
    ("bad records: 257 slots, all covered", |f| {
        f.only_fault(Fault::TooManySlots) && f.between() == 257 && f.queue.held_slots() == 257
    }),
    ("bad records: consumed before replied", |f| {
        f.only_fault(Fault::TooManySlots) && f.between() == u32::MAX
    }),
    ("bad records: slot not covered, nothing else", |f| f.only_fault(Fault::Uncovered)),
    ("bad records: nothing held between two counters", |f| {
        f.only_fault(Fault::Uncovered) && f.queue.held().count() == 0
    }),
    ("bad records: slot covered twice, nothing else", |f| f.only_fault(Fault::CoveredTwice)),
    ("bad records: record elsewhere, nothing else", |f| f.only_fault(Fault::Elsewhere)),
    ("bad records: packet a whole ring away", |f| f.a_ring_away()),
    ("bad records: record between equal counters", |f| f.only_fault(Fault::Elsewhere) && f.between() == 0),
    ("bad records: counts, nothing else", |f| f.only_fault(Fault::BadCounts)),
    ("bad records: 19 data slots", |f| {
        f.only_fault(Fault::BadCounts) && f.queue.held().any(|x| x.slots == 19 && x.extras == 0)
    }),
    ("bad records: 5 extras", |f| f.only_fault(Fault::BadCounts) && f.queue.held().any(|x| x.extras == 5)),
    ("bad records: as many extras as slots", |f| {
        f.only_fault(Fault::BadCounts) && f.queue.held().any(|x| x.extras == x.slots && x.extras < 5)
    }),
    ("bad records: status, nothing else", |f| f.only_fault(Fault::BadStatus)),
    ("bad records: status 65535", |f| f.refused_status(65_535)),
    ("bad records: status 65534", |f| f.refused_status(65_534)),
    ("bad records: status -3", |f| f.refused_status(-3)),
    ("bad records: oldest finished, nothing else", |f| f.only_fault(Fault::OldestFinished)),
    ("bad records: oldest finished by another number than 1", |f| {
        f.only_fault(Fault::OldestFinished) && f.queue.held().any(|x| x.finished > 1)
    }),
    ("bad page with bad records", |f| f.answer() == BAD_PAGE && !f.list_faults.is_empty()),
    ("good list of 256 records", |f| f.list_is_good() && f.before.held.len() == 256),
    ("good list with junk in a free record", |f| f.has_junk()),
    ("good list across the 32-bit wrap", |f| f.list_is_good() && f.before.replied > f.before.consumed),
    ("good list: waiting, with another status than 0", |f| f.good_with(|x| x.finished == 0 && x.status != 0)),
    ("good list: finished by another number than 1", |f| f.good_with(|x| x.finished > 1)),
    ("good list: 18 data slots, 4 extras", |f| f.good_with(|x| x.slots == 22 && x.extras == 4)),
    ("good list: 1 data slot, 4 extras", |f| f.good_with(|x| x.slots == 5 && x.extras == 4)),
];

/// Boundaries of a take.
pub const TAKE_LIST: &[Boundary] = &[
    ("done: nothing else held", |f| f.answer() == DONE && f.between() == 0),
    ("done: others held", |f| f.answer() == DONE && f.between() > 0),
    ("done: last free record", |f| f.takes_last(DONE)),
    ("done: record behind others", |f| f.answer() == DONE && f.queue.first_free() > Some(0)),
    ("done: junk in the record", |f| f.takes_junk(DONE)),
    ("done: ticket 0", |f| f.answer() == DONE && f.before.consumed == 0),
    ("done: rsp_event passed by slots consumed", |f| f.answer() == DONE && f.passes_event_by_consumed()),
    ("done: rsp_prod is not the counter", |f| f.leaves_strange_rsp_prod()),
    ("done: 256 slots not replied to, some held", |f| {
        f.answer() == DONE && f.between() > 0 && f.unreplied() == Some(256)
    }),
    ("spoiled: leaves at once", |f| f.answer() == SPOILED && f.replies() > 0),
    ("spoiled: leaves at once, junk in the record", |f| f.takes_junk(SPOILED) && f.replies() > 0),
    ("spoiled: leaves at once, last free record", |f| f.takes_last(SPOILED) && f.replies() > 0),
    ("spoiled: waits", |f| f.answer() == SPOILED && f.replies() == 0),
    ("spoiled: waits, last free record", |f| f.takes_last(SPOILED) && f.replies() == 0),
    ("spoiled: waits, rsp_event passed by slots consumed", |f| {
        f.answer() == SPOILED && f.passes_event_by_consumed()
    }),
    ("no record: good packet", |f| f.no_record_for(DONE)),
    ("no record: spoiled packet", |f| f.no_record_for(SPOILED)),
    ("no record: empty list", |f| f.answer() == NO_RECORD && f.before.held.is_empty()),
    ("no record: spoiled packet, empty list", |f| f.before.held.is_empty() && f.no_record_for(SPOILED)),
    ("no record: more than 200 records", |f| f.answer() == NO_RECORD && f.before.held.len() > 200),
    ("no room, and no record free", |f| f.answer() == NO_ROOM && f.is_full()),
    ("empty, and no record free", |f| f.answer() == EMPTY && f.is_full()),
    ("misshapen, and no record free", |f| f.answer() == MISSHAPEN && f.is_full()),
    ("waiting, and no record free", |f| f.answer() == WAITING && f.is_full()),
    ("empty: packets held", |f| f.answer() == EMPTY && f.between() > 0),
    ("halted with bad records", |f| f.answer() == BAD_RECORDS && f.before.halted != 0),
    ("overflow with bad records", |f| f.answer() == BAD_RECORDS && f.unreplied() > Some(256)),
    ("halted with packets held", |f| f.answer() == HALTED_ALREADY && f.between() > 0),
    ("overflow: 257 not replied to, some held", |f| {
        f.answer() == OVERFLOW && f.between() > 0 && f.unreplied() == Some(257)
    }),
    ("overflow: at most 256 not consumed", |f| f.answer() == OVERFLOW && f.posted <= Some(256)),
    ("overflow: one less than held", |f| {
        f.answer() == OVERFLOW && f.unreplied() == Some(u64::from(f.between()).wrapping_sub(1))
    }),
    ("overflow: req_prod at the counter of replies", |f| {
        f.answer() == OVERFLOW && f.between() > 0 && f.unreplied() == Some(0)
    }),
];

/// Boundaries of a finish.
pub const FINISH: &[Boundary] = &[
    ("done: one packet leaves", |f| f.left().len() == 1),
    ("done: several packets leave", |f| f.left().len() > 1),
    ("done: several leave, and one stays", |f| f.left().len() > 1 && f.after.replied != f.before.consumed),
    ("done: all leave", |f| f.left().len() > 1 && f.after.replied == f.before.consumed),
    ("done: none leaves", |f| f.answer() == DONE && f.replies() == 0),
    ("done: none leaves, rsp_prod is not the counter", |f| f.leaves_strange_rsp_prod()),
    ("done: more than 200 slots leave", |f| f.replies() > 200),
    ("done: okay", |f| f.done_with_status(0)),
    ("done: error", |f| f.done_with_status(-1)),
    ("done: dropped", |f| f.done_with_status(-2)),
    ("done: packets of all statuses leave", |f| {
        let left = f.left_statuses();
        STATUSES.iter().all(|status| left.contains(status))
    }),
    ("done: 4 extras leave", |f| f.left().iter().any(|record| record.extras == 4)),
    ("done: the record had another status before", |f| {
        let before = f.held_with(f.before.replied).map_or(0, |record| record.status);
        f.replies() > 0 && f.done_with_status(0) && before != 0
    }),
    ("done: more than 256 slots posted", |f| f.answer() == DONE && f.unreplied() > Some(256)),
    ("done: a full list", |f| f.answer() == DONE && f.is_full()),
    ("bad ticket: finished", |f| f.refused_ticket().is_some_and(|t| f.held_with(t).is_some())),
    ("bad ticket: within a packet", |f| {
        f.refused_ticket()
            .is_some_and(|t| f.held_with(t).is_none() && t.wrapping_sub(f.before.replied) < f.between())
    }),
    ("bad ticket: the counter of slots consumed", |f| f.refused_ticket() == Some(f.before.consumed)),
    ("bad ticket: one before the counter of replies", |f| {
        f.refused_ticket() == Some(f.before.replied.wrapping_sub(1))
    }),
    ("bad ticket: 256 past a held one", |f| {
        f.refused_ticket().is_some_and(|t| f.held_with(t.wrapping_sub(256)).is_some())
    }),
    ("bad ticket: that of a free record", |f| {
        let free = |ticket| f.queue.list.iter().any(|x: &Held| !x.in_use() && x.ticket == ticket);
        f.refused_ticket().is_some_and(free)
    }),
    ("bad ticket: nothing held", |f| f.refused_ticket().is_some() && f.between() == 0),
    ("bad ticket: status 65535", |f| f.refused_for_status(65_535)),
    ("bad ticket: status 65534", |f| f.refused_for_status(65_534)),
    ("bad ticket: status 1", |f| f.refused_for_status(1)),
    ("bad ticket: status -3", |f| f.refused_for_status(-3)),
    ("bad records with a bad ticket", |f| f.refused_with_ticket()),
    ("bad page with a bad ticket", |f| {
        f.answer() == BAD_PAGE && f.list_faults.is_empty() && f.between() == 0
    }),
];
