//! Counts of the answers, causes and boundaries that the cases have reached, and the least that each must have.

use crate::case::{Answer, Call, Case};
use crate::facts::Facts;
use crate::held_coverage::{FINISH, LIST, TAKE_LIST};
use reference::grants::{fit_grant, Access, Range, WORD_BYTES};
use reference::report::*;
use reference::slots::{data, extra};
use reference::words::number;
use std::collections::HashSet;
use std::fmt;

/// The answers and causes of each call. Cause 2 is reserved.
const TAKE_ANSWERS: &[u32] = &[0, 1, 2, 3, 4, 5, 6, 7, 8, 14, 17];
const TAKE_CAUSES: &[u32] = &[1, 3, 4, 5, 6];
const FINISH_ANSWERS: &[u32] = &[0, 1, 15, 17];
const PUT_ANSWERS: &[u32] = &[0, 1, 2, 3, 7, 9, 10];
const PUT_CAUSES: &[u32] = &[4];

/// Each answer and cause is reached once in so many cases at least, and each boundary.
const CASES_PER_ANSWER: u64 = 140;
const CASES_PER_BOUNDARY: u64 = 2800;

/// How often each answer was given, by number.
pub type Answers = [u64; NAMES.len()];

/// A boundary's name, and whether a case is at it.
pub type Boundary = (&'static str, fn(&Facts) -> bool);

/// Boundaries of all calls: the ring page and replies.
const RING: &[Boundary] = &[
    ("ring page of 0 bytes", |f| f.before.page.is_empty()),
    ("ring page of 4095 bytes", |f| f.before.page.len() == 4095),
    ("ring page of 4097 bytes", |f| f.before.page.len() == 4097),
    ("replies across the 32-bit wrap", |f| f.replied().checked_add(f.replies()).is_none()),
    ("replies across the ring's end", |f| f.replied() % 256 + f.replies() > 256),
    ("replies where rsp_prod is not the counter", |f| {
        f.replies() > 0 && number(&f.before.page, 8, 4) != f.replied().into()
    }),
    ("rsp_event at the old counter", |f| f.event_at(0)),
    ("rsp_event one past the old counter", |f| f.event_at(1)),
    ("rsp_event at the new counter", |f| f.event_at(f.replies())),
    ("rsp_event one past the new counter", |f| f.event_at(f.replies() + 1)),
];

/// Boundaries of take and put.
const COMMON: &[Boundary] = &[
    ("bad page of a halted queue", |f| f.answer() == BAD_PAGE && f.before.halted != 0),
    ("mark neither 0 nor 1", |f| f.answer() == HALTED_ALREADY && f.before.halted > 1),
    ("posted 0", |f| f.posted == Some(0)),
    ("posted 1", |f| f.posted == Some(1)),
    ("posted 17", |f| f.posted == Some(17)),
    ("posted 18", |f| f.posted == Some(18)),
    ("posted 19", |f| f.posted == Some(19)),
    ("posted 255", |f| f.posted == Some(255)),
    ("posted 256", |f| f.posted == Some(256)),
    ("posted 257", |f| f.posted == Some(257)),
    ("posted 2^31 or more", |f| f.posted >= Some(1 << 31)),
    ("slots consumed across the 32-bit wrap", |f| f.before.consumed.checked_add(f.slots()).is_none()),
    ("slots consumed across the ring's end", |f| f.before.consumed % 256 + f.slots() > 256),
    ("grant table with a spare tail", |f| f.slots() > 0 && f.before.grants.len() % 8 != 0),
    ("window with a spare tail", |f| f.slots() > 0 && f.before.window.len() % 4096 != 0),
    ("done: last word of the table", |f| {
        f.used().iter().any(|gref| WORD_BYTES * (gref + 1) == f.before.grants.len() as u64)
    }),
    ("unfit: grant table of 0 bytes", |f| f.unfit().is_some() && f.before.grants.is_empty()),
    ("unfit: window of 0 bytes", |f| f.unfit().is_some() && f.before.window.is_empty()),
    ("unfit: no grant word", |f| f.cut_word().is_some()),
    ("unfit: word in the spare tail", |f| f.cut_word() >= Some(1)),
    ("unfit: word without its range", |f| f.cut_word() == Some(4)),
    ("unfit: word without its last byte", |f| f.cut_word() == Some(7)),
    ("unfit: word up to 2^32 bytes", |f| f.unfit() == Some((1 << 29) - 1)),
    ("unfit: word past 2^32 bytes", |f| f.unfit() >= Some(1 << 29)),
    ("unfit: not granted", |f| f.unfit_grant().is_some_and(|grant| !grant.granted)),
    ("unfit: page past the window", |f| f.unfit_page() >= Some(f.before.window.len() as u64)),
    ("unfit: page in the spare tail", |f| {
        let length = f.before.window.len() as u64;
        f.unfit_page().is_some_and(|at| at < length && length < at + 4096)
    }),
    ("unfit: page past 2^32 bytes", |f| f.unfit_page() >= Some(1 << 32)),
    ("unfit: start plus length 4097", |f| f.unfit_range().is_some_and(|r| r.end() == 4097)),
    ("unfit: start 4097, length 0", |f| f.unfit_range() == Some(Range { start: 4097, length: 0 })),
    ("unfit: start plus length above 65535, in 16 bits at most 4096", |f| {
        f.unfit_range().is_some_and(|r| r.end() > 65_535 && r.end() % 65_536 <= 4096)
    }),
];

/// Boundaries of a take's packet and frame.
const TAKE: &[Boundary] = &[
    ("posted 22", |f| f.posted == Some(22)),
    ("done: 18 data slots, no extra", |f| f.packet_is(DONE, |p| p.slots == 18 && p.extras == 0)),
    ("done: 18 data slots, 1 extra", |f| f.packet_is(DONE, |p| p.slots == 19 && p.extras == 1)),
    ("done: 18 data slots, 4 extras", |f| f.packet_is(DONE, |p| p.slots == 22 && p.extras == 4)),
    ("done: 1 data slot, 4 extras", |f| f.packet_is(DONE, |p| p.slots == 5 && p.extras == 4)),
    ("done: more is posted behind the packet", |f| f.answer() == DONE && f.posted > Some(f.slots().into())),
    ("waiting: 1 slot", |f| f.answer() == WAITING && f.posted == Some(1)),
    ("waiting: 17 slots", |f| f.answer() == WAITING && f.posted == Some(17)),
    ("waiting: 21 slots", |f| f.answer() == WAITING && f.posted == Some(21)),
    ("waiting: bit 0 on extra 3", |f| f.waits_for_extra(4)),
    ("misshapen: extra of type 0", |f| f.fault_is(|x| x.extra_due && extra(&x.slot).kind == 0)),
    ("misshapen: extra of type 2", |f| f.fault_is(|x| x.extra_due && extra(&x.slot).kind == 2)),
    ("misshapen: bit 3 on a later slot", |f| {
        f.fault_is(|x| x.number > 1 && !x.extra_due && data(&x.slot).extra_follows)
    }),
    ("misshapen: bit 2 on data slot 18, no extra", |f| {
        f.fault_is(|x| x.number == 18 && x.extras == 0 && data(&x.slot).more_data)
    }),
    ("misshapen: 19 data slots posted", |f| {
        f.posted >= Some(19) && f.fault_is(|x| x.number == 18 && x.extras == 0 && data(&x.slot).more_data)
    }),
    ("misshapen: bit 2 on data slot 18, 1 extra", |f| {
        f.fault_is(|x| x.number == 19 && x.extras == 1 && data(&x.slot).more_data)
    }),
    ("misshapen: bit 2 on data slot 18, 4 extras", |f| {
        f.fault_is(|x| x.number == 22 && x.extras == 4 && data(&x.slot).more_data)
    }),
    ("misshapen: in place 22, 22 posted", |f| f.posted == Some(22) && f.fault_is(|x| x.number == 22)),
    ("misshapen: bit 0 on extra 4, data promised", |f| {
        f.fault_is(|x| x.number == 5 && x.extra_due && x.first.more_data && extra(&x.slot).kind == 1)
    }),
    ("misshapen: bit 0 on extra 4, no data promised", |f| {
        f.fault_is(|x| x.number == 5 && x.extra_due && !x.first.more_data && extra(&x.slot).kind == 1)
    }),
    ("misshapen: bit 0 on extra 4, 5 posted", |f| {
        f.posted == Some(5) && f.fault_is(|x| x.number == 5 && x.extra_due && extra(&x.slot).kind == 1)
    }),
    ("misshapen: 5 extras posted", |f| {
        let fifth = f.run.get(5).is_some_and(|slot| extra(slot).kind == 1);
        fifth && f.fault_is(|x| x.number == 5 && x.extra_due && extra(&x.slot).kind == 1)
    }),
    ("cause 1: total 13", |f| f.cause() == 1 && f.packet_is(SPOILED, |p| p.total == 13)),
    ("done: total 14", |f| f.packet_is(DONE, |p| p.total == 14)),
    ("done: total 65535", |f| f.packet_is(DONE, |p| p.total == 65_535)),
    ("done: later sizes equal the total", |f| f.packet_is(DONE, |p| p.later_sizes == p.total)),
    ("cause 3: later sizes one more than the total", |f| {
        f.cause() == 3 && f.packet_is(SPOILED, |p| p.later_sizes == p.total + 1)
    }),
    ("cause 3: later sizes above 65535", |f| {
        f.cause() == 3 && f.packet_is(SPOILED, |p| p.later_sizes > 65_535)
    }),
    ("cause 4: slot without bytes", |f| f.cause() == 4 && f.concerned().is_some_and(|x| x.part == 0)),
    ("cause 4: first slot without bytes", |f| {
        f.cause() == 4 && f.concerned().is_some_and(|x| x.place == 0 && x.part == 0)
    }),
    ("cause 4: slot behind extras", |f| {
        f.cause() == 4 && f.words[2] > 0 && f.packet_is(SPOILED, |p| p.extras > 0)
    }),
    ("cause 4: part in a range past the page", |f| {
        f.unfit_range().zip(f.concerned()).is_some_and(|(r, x)| r.holds(x.offset, x.part))
    }),
    ("cause 4: part outside a range past the page", |f| {
        f.unfit_range().zip(f.concerned()).is_some_and(|(r, x)| !r.holds(x.offset, x.part))
    }),
    ("done: offset plus part 4096", |f| f.done_with(|x, _| x.offset + x.part == 4096)),
    ("done: offset 4096, no bytes", |f| f.done_with(|x, _| x.offset == 4096 && x.part == 0)),
    ("done: part from a start above 0", |f| {
        f.done_with(|x, r| x.part > 0 && x.offset == r.start && r.start > 0)
    }),
    ("done: part up to an end below 4096", |f| {
        f.done_with(|x, r| x.part > 0 && x.offset + x.part == r.end() && r.end() < 4096)
    }),
    ("done: part of a whole range, start above 0, end below 4096", |f| {
        f.done_with(|x, r| x.part > 0 && x.part == r.length && r.start > 0 && r.end() < 4096)
    }),
    ("done: start above 0, start plus length 4096", |f| f.done_with(|_, r| r.start > 0 && r.end() == 4096)),
    ("done: no bytes at a start above 0", |f| {
        f.done_with(|x, r| x.part == 0 && x.offset == r.start && r.start > 0 && r.length > 0)
    }),
    ("done: no bytes at an end below 4096", |f| {
        f.done_with(|x, r| x.part == 0 && x.offset == r.end() && r.end() < 4096 && r.length > 0)
    }),
    ("done: range of 0 bytes", |f| f.done_with(|_, r| r.length == 0)),
    ("done: range of 0 bytes at the page's end", |f| f.done_with(|_, r| r.start == 4096)),
    ("cause 5: offset plus part 4097", |f| {
        f.outside(|x, r| x.offset + x.part == 4097 && x.part > 0 && r.end() == 4096)
    }),
    ("cause 5: offset 4097, no bytes", |f| {
        f.outside(|x, r| x.offset == 4097 && x.part == 0 && r.end() == 4096)
    }),
    ("cause 5: offset plus part above 65535", |f| f.outside(|x, _| x.offset + x.part > 65_535)),
    ("cause 5: offset one below the start", |f| {
        f.outside(|x, r| x.offset == r.start - 1 && x.part > 0 && x.offset + x.part <= r.end())
    }),
    ("cause 5: offset one below the start, no bytes", |f| {
        f.outside(|x, r| x.offset == r.start - 1 && x.part == 0 && r.length > 0)
    }),
    ("cause 5: one byte past an end below 4096", |f| {
        f.outside(|x, r| {
            x.offset >= r.start && x.offset + x.part == r.end() + 1 && x.part > 0 && r.end() < 4096
        })
    }),
    ("cause 5: offset one past an end below 4096, no bytes", |f| {
        f.outside(|x, r| x.offset == r.end() + 1 && x.part == 0 && r.end() < 4096 && r.length > 0)
    }),
    ("cause 5: offset one below a range of 0 bytes, no bytes", |f| {
        f.outside(|x, r| x.offset == r.start - 1 && x.part == 0 && r.length == 0)
    }),
    ("cause 5: offset one past a range of 0 bytes, no bytes", |f| {
        f.outside(|x, r| x.offset == r.start + 1 && x.part == 0 && r.length == 0)
    }),
    ("cause 6: gso size 0", |f| {
        f.cause() == 6 && f.packet_is(SPOILED, |p| p.last_extra.is_some_and(|x| x.gso_size == 0))
    }),
    ("cause 6: gso type 0", |f| {
        f.cause() == 6 && f.packet_is(SPOILED, |p| p.last_extra.is_some_and(|x| x.gso_type == 0))
    }),
    ("cause 6: gso type 3", |f| {
        f.cause() == 6 && f.packet_is(SPOILED, |p| p.last_extra.is_some_and(|x| x.gso_type == 3))
    }),
    ("done: frame buffer of the total", |f| {
        f.answer() == DONE && f.before.frame.len() == f.words[5] as usize
    }),
    ("no room: one byte short", |f| {
        let short = f.before.frame.len() as i64 + 1;
        f.answer() == NO_ROOM && f.packet.as_ref().is_some_and(|p| p.total == short)
    }),
    ("no room: frame buffer of 0 bytes", |f| f.answer() == NO_ROOM && f.before.frame.is_empty()),
    ("spoiled: frame buffer too short as well", |f| {
        let length = f.before.frame.len() as i64;
        f.answer() == SPOILED && f.packet.as_ref().is_some_and(|p| p.total > length)
    }),
];

/// Boundaries of a put.
const PUT: &[Boundary] = &[
    ("frame of 0 bytes", |f| f.answer() == BAD_LENGTH && f.before.frame.is_empty()),
    ("frame of 13 bytes", |f| f.answer() == BAD_LENGTH && f.before.frame.len() == 13),
    ("frame of 65536 bytes", |f| f.answer() == BAD_LENGTH && f.before.frame.len() == 65_536),
    ("bad length of a halted queue", |f| f.answer() == BAD_LENGTH && f.before.halted != 0),
    ("done: 14 bytes", |f| f.answer() == DONE && f.words[5] == 14),
    ("done: 4096 bytes", |f| f.answer() == DONE && f.words[5] == 4096),
    ("done: 4097 bytes", |f| f.answer() == DONE && f.words[5] == 4097),
    ("done: 65535 bytes", |f| f.answer() == DONE && f.words[5] == 65_535),
    ("done: no request left", |f| f.answer() == DONE && f.posted == Some(f.slots().into())),
    ("done: one page named twice", |f| {
        let page = |&gref: &u64| {
            fit_grant(&f.before.grants, &f.before.window, gref, Access::Write).map(|grant| grant.page_at)
        };
        let pages: HashSet<Option<u64>> = f.requests.iter().map(page).collect();
        f.answer() == DONE && pages.len() < f.requests.len()
    }),
    ("no buffers: one request too few", |f| {
        let needed = f.before.frame.len().div_ceil(4096) as u64;
        f.answer() == NO_BUFFERS && f.posted == Some(needed - 1)
    }),
    ("unfit: read-only", |f| f.is_read_only()),
    ("unfit: start 0, length 4095", |f| f.unfit_range() == Some(Range { start: 0, length: 4095 })),
    ("unfit: start 0, length 4097", |f| f.unfit_range() == Some(Range { start: 0, length: 4097 })),
    ("unfit: start 1, length 4095", |f| f.unfit_range() == Some(Range { start: 1, length: 4095 })),
    ("unfit: start 1, length 4096", |f| f.unfit_range() == Some(Range { start: 1, length: 4096 })),
    ("unfit: range of 0 bytes", |f| f.unfit_range().is_some_and(|r| r.length == 0)),
    ("unfit: part of a page with room for the piece", |f| {
        let before = 4096 * f.words[2] as usize;
        let piece = f.before.frame.len().saturating_sub(before).min(4096);
        f.unfit_range().is_some_and(|r| r.end() <= 4096 && r.holds(0, piece as i64))
    }),
    ("unfit: the last of several", |f| f.cause() == 4 && f.words[2] > 0 && f.words[2] + 1 == f.slots()),
];

/// The counts of one call.
struct Tally {
    name: &'static str,
    answers: Answers,
    causes: [u64; 7],
    /// The answers and causes that must come.
    wanted_answers: &'static [u32],
    wanted_causes: &'static [u32],
    boundaries: Vec<(Boundary, u64)>,
}

pub struct Coverage {
    cases: u64,
    take: Tally,
    finish: Tally,
    put: Tally,
}

impl Tally {
    fn new(
        name: &'static str,
        wanted_answers: &'static [u32],
        wanted_causes: &'static [u32],
        boundaries: &[&[Boundary]],
    ) -> Tally {
        let boundaries = boundaries.iter().copied().flatten().map(|&boundary| (boundary, 0)).collect();
        Tally { name, answers: [0; NAMES.len()], causes: [0; 7], wanted_answers, wanted_causes, boundaries }
    }

    fn count(&mut self, facts: &Facts) {
        self.answers[facts.answer() as usize] += 1;
        self.causes[facts.cause() as usize] += u64::from(facts.answer() == SPOILED);
        for ((_, holds), count) in &mut self.boundaries {
            *count += u64::from(holds(facts));
        }
    }

    /// A line for each answer, cause and boundary: what it is, its count, and the least for so many cases.
    fn lines(&self, cases: u64) -> Vec<(String, u64, u64)> {
        let least = cases / CASES_PER_ANSWER;
        let answer =
            |&a: &u32| (format!("answer {a} {}", NAMES[a as usize]), self.answers[a as usize], least);
        let cause = |&c: &u32| (format!("cause {c}"), self.causes[c as usize], least);
        let boundary =
            |&((name, _), count): &(Boundary, u64)| (name.to_string(), count, cases / CASES_PER_BOUNDARY);
        let lines = self.wanted_answers.iter().map(answer).chain(self.wanted_causes.iter().map(cause));
        lines.chain(self.boundaries.iter().map(boundary)).collect()
    }
}

impl Coverage {
    pub fn new() -> Coverage {
        let take = Tally::new("Takes", TAKE_ANSWERS, TAKE_CAUSES, &[RING, COMMON, TAKE, LIST, TAKE_LIST]);
        let finish = Tally::new("Finishes", FINISH_ANSWERS, &[], &[RING, LIST, FINISH]);
        let put = Tally::new("Puts", PUT_ANSWERS, PUT_CAUSES, &[RING, COMMON, PUT]);
        Coverage { cases: 0, take, finish, put }
    }

    pub fn count(&mut self, case: &Case, answer: &Answer) {
        let facts = Facts::new(case, answer);
        self.cases += 1;
        match case.call {
            Call::Take => self.take.count(&facts),
            Call::Finish { .. } => self.finish.count(&facts),
            Call::Put => self.put.count(&facts),
        }
    }

    fn tallies(&self) -> [&Tally; 3] {
        [&self.take, &self.finish, &self.put]
    }

    /// The answers, causes and boundaries that were reached too seldom.
    pub fn shortfalls(&self) -> Vec<String> {
        let mut found = Vec::new();
        for tally in self.tallies() {
            for (name, count, least) in tally.lines(self.cases) {
                if count < least {
                    found.push(format!("{}: {name}: {count} cases, at least {least} wanted", tally.name));
                }
            }
        }
        found
    }
}

impl Default for Coverage {
    fn default() -> Coverage {
        Coverage::new()
    }
}

impl fmt::Display for Coverage {
    fn fmt(&self, f: &mut fmt::Formatter) -> fmt::Result {
        for tally in self.tallies() {
            writeln!(f, "{}", tally.name)?;
            for (name, count, _) in tally.lines(self.cases) {
                writeln!(f, "  {count:8} {name}")?;
            }
        }
        Ok(())
    }
}
