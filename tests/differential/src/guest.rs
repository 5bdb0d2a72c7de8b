//! A guest's memory: a window of pages and a grant table with fit and unfit references.

use crate::random::Random;
use reference::grants::{grant, whole_page_bytes, word_bytes, Range, WHOLE_PAGE};

const GRANTED: u32 = 1;
const WRITABLE: u32 = 2;
/// From this page number on, 4096 times the number needs more than 32 bits.
const PAGES_IN_32_BITS: u32 = 0x10_0000;
/// From this reference on, 8 times the reference needs more than 32 bits.
const WORDS_IN_32_BITS: u32 = 0x2000_0000;

/// Bytes of a page, and the start and length of a range that is all of it.
const PAGE: usize = 4096;
const WHOLE: (usize, usize) = (0, PAGE);

/// Kinds of grant words. A table has at least one of each.
const KINDS: usize = 9;

pub struct Guest {
    pub grants: Vec<u8>,
    pub window: Vec<u8>,
    /// References fit for receive, and so for transmit too.
    pub writable: Vec<u32>,
    /// References of whole pages that are fit for transmit only.
    read_only: Vec<u32>,
    /// References of ranges that are part of a page, writable or not, and so fit for transmit only.
    partial: Vec<u32>,
    /// References of ranges that reach past a page, which are fit for nothing.
    past_page: Vec<u32>,
    /// References fit for nothing, whatever their range.
    unfit: Vec<u32>,
}

impl Guest {
    /// A window of so many pages, and perhaps part of another; a table without words.
    fn without_words(random: &Random, pages: usize) -> Guest {
        let spare = random.pick(&[0, 0, 1, 4095, random.between(1, 4095)]);
        Guest {
            grants: Vec::new(),
            window: random.bytes(pages * PAGE + spare),
            writable: Vec::new(),
            read_only: Vec::new(),
            partial: Vec::new(),
            past_page: Vec::new(),
            unfit: Vec::new(),
        }
    }

    /// A guest with a table of at least one reference of each kind.
    pub fn new(random: &Random, pages: usize) -> Guest {
        let mut guest = Guest::without_words(random, pages);
        let words = random.between(KINDS, 24);
        for gref in 0..words {
            let kind = if gref < KINDS { gref } else { random.below(KINDS) };
            guest.add_word(random, kind, gref as u32, pages as u32);
        }
        guest.add_spare_tail(random);
        guest.add_references_without_word(words as u32);
        guest
    }

    /// A guest with, in any order, a reference of each kind and two for each page that are fit for receive; and these
    /// two, by page.
    pub fn of_driver(random: &Random, pages: usize) -> (Guest, Vec<[u32; 2]>) {
        let mut guest = Guest::without_words(random, pages);
        let words = KINDS + 2 * pages;
        let mut names = vec![[0; 2]; pages];
        for (gref, number) in (0..).zip(random.shuffled(words)) {
            let Some(name) = number.checked_sub(KINDS) else {
                guest.add_word(random, number, gref, pages as u32);
                continue;
            };
            let page = name / 2;
            names[page][name % 2] = gref;
            guest.grants.extend(whole_page_bytes((page as u32) << 2 | GRANTED | WRITABLE));
        }
        guest.add_spare_tail(random);
        guest.add_references_without_word(words as u32);
        (guest, names)
    }

    fn add_word(&mut self, random: &Random, kind: usize, gref: u32, pages: u32) {
        let page = random.below(pages as usize) as u32;
        let access = random.pick(&[GRANTED, GRANTED | WRITABLE, GRANTED | WRITABLE]);
        let part = part_of_page(random);
        let in_page = random.pick(&[WHOLE, part]);
        let (list, word, (start, length)) = match kind {
            0 => (&mut self.writable, page << 2 | GRANTED | WRITABLE, WHOLE),
            1 => (&mut self.read_only, page << 2 | GRANTED, WHOLE),
            2 => (&mut self.partial, page << 2 | access, part),
            3 => (&mut self.partial, page << 2 | access, range_of_length(random, 0)),
            4 => (&mut self.past_page, page << 2 | access, past_page(random)),
            5 => (&mut self.unfit, page << 2 | random.pick(&[0, WRITABLE]), in_page),
            6 => (&mut self.unfit, pages << 2 | access, in_page),
            7 => (&mut self.unfit, (page + PAGES_IN_32_BITS) << 2 | access, in_page),
            _ => (&mut self.unfit, 0xFFFF_FFFC | access, in_page),
        };
        list.push(gref);
        self.grants.extend(word_bytes(word, start as u16, length as u16));
    }

    /// Adds nothing, or the first bytes of a word that would be fit if all of it were there.
    fn add_spare_tail(&mut self, random: &Random) {
        let spare = random.pick(&[0, 0, 1, 4, 7, random.between(1, 7)]);
        self.grants.extend(&whole_page_bytes(GRANTED | WRITABLE)[..spare]);
    }

    /// References past the table: its spare tail, and those whose place in bytes needs more than 32 bits.
    fn add_references_without_word(&mut self, words: u32) {
        let fit = self.writable[0];
        self.unfit.extend([words, words, words, words + 1, u32::MAX, WORDS_IN_32_BITS - 1]);
        self.unfit.extend([1, 3, 7].map(|wraps| wraps * WORDS_IN_32_BITS + fit));
    }

    /// The range in a reference's word, or the whole page where the table has no word.
    pub fn range(&self, gref: u32) -> Range {
        grant(&self.grants, gref.into()).map_or(WHOLE_PAGE, |grant| grant.range)
    }

    /// A reference fit for transmit whose range has room for a part.
    pub fn readable(&self, random: &Random, part: i64) -> u32 {
        let list = random.pick(&[&self.writable, &self.read_only, &self.partial, &self.partial]);
        let has_room = |gref: &u32| self.range(*gref).length >= part;
        let with_room: Vec<u32> = list.iter().copied().filter(has_room).collect();
        random.pick(if with_room.is_empty() { &self.writable } else { &with_room })
    }

    /// A reference not fit for transmit.
    pub fn unreadable(&self, random: &Random) -> u32 {
        let list = random.pick(&[&self.unfit, &self.unfit, &self.past_page]);
        random.pick(list)
    }

    /// A reference not fit for receive.
    pub fn unwritable(&self, random: &Random) -> u32 {
        let never = random.pick(&[&self.unfit, &self.unfit, &self.past_page]);
        let read_only = random.pick(&[&self.read_only, &self.partial, &self.partial]);
        random.pick(if random.one_in(2) { never } else { read_only })
    }
}

/// The start and length of a range in a page, of fewer bytes than the page has.
fn part_of_page(random: &Random) -> (usize, usize) {
    let length = random.pick(&[1, 14, 200, 4095, 4095, 4095, random.between(0, 4095)]);
    range_of_length(random, length)
}

/// The start and length of a range of so many bytes in a page.
fn range_of_length(random: &Random, length: usize) -> (usize, usize) {
    let last = PAGE - length;
    (random.pick(&[0, 0, 1, last, random.between(0, last)]), length)
}

/// The start and length of a range that reaches past its page: by a byte, by many, or so far that their sum in 16
/// bits would be in the page again.
fn past_page(random: &Random) -> (usize, usize) {
    let start = random.pick(&[0, 0, 1, 4096, 4097, random.between(0, 4097)]);
    let one_too_many = PAGE + 1 - start;
    match random.below(4) {
        0 | 1 => (start, one_too_many),
        2 => (start, random.between(one_too_many, 65_535)),
        _ => {
            let start = random.pick(&[65_535, random.between(1, 65_535)]);
            (start, 65_536 - start + random.pick(&[0, random.below(start.min(PAGE))]))
        }
    }
}
