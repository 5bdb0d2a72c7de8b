//! Counts of the answers and boundaries that the posts have reached, and the least that each must have.

use crate::coverage::Answers;
use crate::post_facts::PostFacts;
use reference::grants::{Grant, Range, WORD_BYTES};
use reference::report::*;
use std::fmt;

const ANSWERS: [u32; 6] = [DONE, BAD_PAGE, BAD_LENGTH, NO_SLOTS, BAD_PAGES, BAD_GSO];

/// Each answer is reached once in so many posts at least, and each boundary.
const POSTS_PER_ANSWER: u64 = 50;
const POSTS_PER_BOUNDARY: u64 = 400;

/// A boundary's name, and whether a post is at it.
type Boundary = (&'static str, fn(&PostFacts) -> bool);

/// Lengths of the frame and of the ring page, and answers that two things ask for.
const LENGTHS: &[Boundary] = &[
    ("ring page of 0 bytes", |f| f.post.page.is_empty()),
    ("ring page of 4095 bytes", |f| f.post.page.len() == 4095),
    ("ring page of 4097 bytes", |f| f.post.page.len() == 4097),
    ("bad length: 0 bytes", |f| f.answer() == BAD_LENGTH && f.length() == 0),
    ("bad length: 13 bytes", |f| f.answer() == BAD_LENGTH && f.length() == 13),
    ("bad length: 65536 bytes", |f| f.answer() == BAD_LENGTH && f.length() == 65_536),
    ("done: 14 bytes", |f| f.done_of(14)),
    ("done: 4096 bytes", |f| f.done_of(4096)),
    ("done: 4097 bytes", |f| f.done_of(4097)),
    ("done: 61440 bytes", |f| f.done_of(61_440)),
    ("done: 61441 bytes", |f| f.done_of(61_441)),
    ("done: 65535 bytes", |f| f.done_of(65_535)),
    ("done: several pages, all full", |f| f.answer() == DONE && f.length() > 4096 && f.length() % 4096 == 0),
    ("done: one byte in the last page", |f| f.answer() == DONE && f.length() % 4096 == 1),
    ("done: 17 slots", |f| f.answer() == DONE && f.words[3] == 17),
    ("done: one page with gso", |f| f.answer() == DONE && f.words[3] == 2 && f.asks_gso()),
    ("done: two pages without gso", |f| f.answer() == DONE && f.words[3] == 2 && !f.asks_gso()),
    ("done: taken with more behind", |f| f.behind > 0),
    ("done: taken with 256 posted", |f| f.behind + f.words[3] == 256),
    ("1 and 9", |f| f.has_bad_page() && f.has_bad_length()),
    ("9 and 13", |f| f.answer() == BAD_LENGTH && f.has_bad_gso()),
    ("13 and 12", |f| f.answer() == BAD_GSO && f.has_bad_pages()),
    ("12 and 11", |f| f.answer() == BAD_PAGES && f.left() < Some(0)),
];

/// The list of references and their grants.
const PAGES: &[Boundary] = &[
    ("done: no reference behind the used ones", |f| {
        f.answer() == DONE && f.post.references.len() == f.post.pages()
    }),
    ("done: unfit reference behind the used ones", |f| f.unfit_behind()),
    ("done: used page named again behind the used ones", |f| f.used_page_behind()),
    ("done: last word of the table", |f| {
        f.used().iter().any(|&gref| WORD_BYTES * (u64::from(gref) + 1) == f.post.grants.len() as u64)
    }),
    ("done: page up to the window's end", |f| {
        (f.post.window.len() as u64).checked_sub(4096).is_some_and(|at| f.uses_page_at(at))
    }),
    ("bad pages: grant table of 0 bytes", |f| f.answer() == BAD_PAGES && f.post.grants.is_empty()),
    ("bad pages: window of 0 bytes", |f| f.answer() == BAD_PAGES && f.post.window.is_empty()),
    ("bad pages: list one too short", |f| f.answer() == BAD_PAGES && f.missing() == 1),
    ("bad pages: empty list", |f| f.answer() == BAD_PAGES && f.post.references.is_empty()),
    ("unfit: the first of several", |f| f.unfit_place() == Some(0) && f.post.pages() > 1),
    ("unfit: the last of several", |f| f.unfit_place().is_some_and(|p| p > 0 && p + 1 == f.post.pages())),
    ("unfit: no grant word", |f| f.cut_word().is_some()),
    ("unfit: word in the spare tail", |f| f.cut_word() >= Some(1)),
    ("unfit: word past 2^32 bytes", |f| f.unfit() >= Some(1 << 29)),
    ("unfit: not granted", |f| f.unfit_but_for(|grant| Grant { granted: true, ..grant })),
    ("unfit: read only", |f| f.unfit_but_for(|grant| Grant { writable: true, ..grant })),
    ("unfit: page outside the window", |f| f.outside().is_some()),
    ("unfit: page in the spare tail", |f| f.outside().is_some_and(|at| at < f.post.window.len() as u64)),
    ("unfit: page past 2^32 bytes", |f| f.outside() >= Some(1 << 32)),
    ("unfit: part of a page", |f| f.unfit_range().is_some_and(|r| r.end() <= 4096)),
    ("unfit: start 0, length 4095", |f| f.unfit_range() == Some(Range { start: 0, length: 4095 })),
    ("unfit: start 1, length 4095", |f| f.unfit_range() == Some(Range { start: 1, length: 4095 })),
    ("unfit: part of a page with room for the piece", |f| {
        f.unfit_range().is_some_and(|r| r.end() <= 4096 && r.holds(0, f.unfit_piece() as i64))
    }),
    ("unfit: range past the page", |f| f.unfit_range().is_some_and(|r| r.end() > 4096)),
    ("unfit: start 0, length 4097", |f| f.unfit_range() == Some(Range { start: 0, length: 4097 })),
    ("pair: one reference", |f| f.pair_by_one(true)),
    ("pair: two references", |f| f.pair_by_one(false)),
    ("pair: the first two of several", |f| f.pair() == Some((0, 1)) && f.post.pages() > 2),
    ("pair: the last two of several", |f| {
        f.pair().is_some_and(|(i, j)| i > 0 && i + 1 == j && j + 1 == f.post.pages())
    }),
    ("pair: the first and the last of several", |f| {
        f.pair().is_some_and(|(i, j)| i == 0 && j > 1 && j + 1 == f.post.pages())
    }),
];

/// Free slots, counters, gso and notify.
const SLOTS: &[Boundary] = &[
    ("done: nothing in flight", |f| f.answer() == DONE && f.in_flight == Some(0)),
    ("done: exactly enough free, no gso", |f| f.answer() == DONE && f.left() == Some(0) && !f.asks_gso()),
    ("done: exactly enough free, gso", |f| f.answer() == DONE && f.left() == Some(0) && f.asks_gso()),
    ("no slots: one too few, no gso", |f| f.answer() == NO_SLOTS && f.left() == Some(-1) && !f.asks_gso()),
    ("no slots: one too few, gso", |f| f.answer() == NO_SLOTS && f.left() == Some(-1) && f.asks_gso()),
    ("no slots: difference 256", |f| f.answer() == NO_SLOTS && f.in_flight == Some(256)),
    ("no slots: difference 257", |f| f.answer() == NO_SLOTS && f.in_flight == Some(257)),
    ("no slots: count past req_prod", |f| f.answer() == NO_SLOTS && f.in_flight == Some(u32::MAX.into())),
    ("req_prod across the 32-bit wrap", |f| f.wraps_at(1 << 32)),
    ("req_prod comes to 0", |f| f.answer() == DONE && f.new_req_prod() == 0),
    ("ids across 65536, no 32-bit wrap", |f| f.wraps_at(1 << 16) && !f.wraps_at(1 << 32)),
    ("slots across the ring's end, no wrap of ids", |f| f.wraps_at(256) && !f.wraps_at(1 << 16)),
    ("done: no gso, size 0 and type 0", |f| {
        f.answer() == DONE && !f.asks_gso() && (f.post.gso.size, f.post.gso.kind) == (0, 0)
    }),
    ("done: no gso, size and type that would not pass", |f| {
        f.answer() == DONE && !f.asks_gso() && f.post.gso.size > 0 && f.post.gso.kind > 2
    }),
    ("done: gso 1, 1", |f| f.answer() == DONE && f.gso_is(1, 1)),
    ("done: gso 65535, 2", |f| f.answer() == DONE && f.gso_is(65_535, 2)),
    ("done: gso asked for by another number than 1", |f| f.answer() == DONE && f.post.gso.asked > 1),
    ("bad gso: 0, 0", |f| f.answer() == BAD_GSO && f.gso_is(0, 0)),
    ("bad gso: 0, 1", |f| f.answer() == BAD_GSO && f.gso_is(0, 1)),
    ("bad gso: 1, 0", |f| f.answer() == BAD_GSO && f.gso_is(1, 0)),
    ("bad gso: 1, 3", |f| f.answer() == BAD_GSO && f.gso_is(1, 3)),
    ("req_event at the first slot", |f| f.event_at(0)),
    ("req_event one past the first slot", |f| f.event_at(1)),
    ("req_event at the new req_prod", |f| f.event_at(f.words[3])),
    ("req_event one past the new req_prod", |f| f.event_at(f.words[3] + 1)),
    ("rsp_event would give another notify", |f| f.rsp_event_differs()),
];

pub struct PostCoverage {
    posts: u64,
    answers: Answers,
    boundaries: Vec<(Boundary, u64)>,
}

impl PostCoverage {
    pub fn new() -> PostCoverage {
        let all = [LENGTHS, PAGES, SLOTS].concat();
        let boundaries = all.into_iter().map(|boundary| (boundary, 0)).collect();
        PostCoverage { posts: 0, answers: [0; NAMES.len()], boundaries }
    }

    pub fn count(&mut self, facts: &PostFacts) {
        self.posts += 1;
        self.answers[facts.answer() as usize] += 1;
        for ((_, holds), count) in &mut self.boundaries {
            *count += u64::from(holds(facts));
        }
    }

    /// A line for each answer and boundary: what it is, its count, and the least for so many posts.
    fn lines(&self) -> Vec<(String, u64, u64)> {
        let least = self.posts / POSTS_PER_ANSWER;
        let answer = |a: u32| (format!("answer {a} {}", NAMES[a as usize]), self.answers[a as usize], least);
        let least = self.posts / POSTS_PER_BOUNDARY;
        let boundary = |&((name, _), count): &(Boundary, u64)| (name.to_string(), count, least);
        ANSWERS.into_iter().map(answer).chain(self.boundaries.iter().map(boundary)).collect()
    }

    /// The answers and boundaries that were reached too seldom.
    pub fn shortfalls(&self) -> Vec<String> {
        let rare = self.lines().into_iter().filter(|(_, count, least)| count < least);
        rare.map(|(name, count, least)| format!("post: {name}: {count} posts, at least {least} wanted"))
            .collect()
    }
}

impl Default for PostCoverage {
    fn default() -> PostCoverage {
        PostCoverage::new()
    }
}

impl fmt::Display for PostCoverage {
    fn fmt(&self, f: &mut fmt::Formatter) -> fmt::Result {
        writeln!(f, "Posts")?;
        for (name, count, _) in self.lines() {
            writeln!(f, "  {count:8} {name}")?;
        }
        Ok(())
    }
}
