//! What sequences have come to: the answers of their calls, and how packets left.

use crate::coverage::Answers;
use reference::report::*;
use std::fmt;

/// The answers that takes and finishes can give in sequences.
const TAKE_ANSWERS: [u32; 7] = [DONE, HALTED_ALREADY, EMPTY, MISSHAPEN, WAITING, SPOILED, NO_RECORD];
const FINISH_ANSWERS: [u32; 2] = [DONE, BAD_TICKET];

/// What sequences have come to.
#[derive(Default)]
pub struct Counts {
    pub takes: Answers,
    pub finishes: Answers,
    /// Finishes with which several packets left.
    pub left_together: u64,
    /// Finishes with which none left.
    pub left_none: u64,
    /// Finishes on a halted queue with which packets left.
    pub left_halted: u64,
    /// Packets that left with other bytes in their slots than when they were taken.
    pub rewritten: u64,
}

impl Counts {
    fn lines(&self) -> Vec<(String, u64)> {
        let takes = TAKE_ANSWERS.map(|a| (format!("take: {}", NAMES[a as usize]), self.takes[a as usize]));
        let finishes =
            FINISH_ANSWERS.map(|a| (format!("finish: {}", NAMES[a as usize]), self.finishes[a as usize]));
        let others = [
            ("finish: several packets leave", self.left_together),
            ("finish: no packet leaves", self.left_none),
            ("finish: packets leave a halted queue", self.left_halted),
            ("packet rewritten before it left", self.rewritten),
        ];
        let others = others.map(|(name, count)| (name.to_string(), count));
        takes.into_iter().chain(finishes).chain(others).collect()
    }

    /// What came less often than this.
    pub fn shortfalls(&self, least: u64) -> Vec<String> {
        let rare = self.lines().into_iter().filter(|&(_, count)| count < least);
        rare.map(|(name, count)| format!("Sequences: {name}: {count}, at least {least} wanted")).collect()
    }
}

impl fmt::Display for Counts {
    fn fmt(&self, f: &mut fmt::Formatter) -> fmt::Result {
        writeln!(f, "Sequences")?;
        self.lines().iter().try_for_each(|(name, count)| writeln!(f, "  {count:8} {name}"))
    }
}
