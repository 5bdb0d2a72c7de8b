//! Generated posts: a frame that can be posted, then one change that aims at an answer, and sometimes another that
//! aims at the next answer in order.

use crate::bytes::{put, put_u32};
use crate::guest::Guest;
use crate::lending::{event_near, WRONG_LENGTHS};
use crate::post::{Gso, Post};
use crate::random::Random;
use reference::grants::{word_bytes, WORD_BYTES};
use reference::ring::PAGE_BYTES;
use reference::words::number;

/// The answer that a change aims at.
#[derive(Clone, Copy)]
enum Aim {
    BadPage,
    BadLength,
    BadGso,
    BadPages,
    NoSlots,
    Done,
}

/// The order in which the answers are looked for.
const ORDER: [Aim; 6] = [Aim::BadPage, Aim::BadLength, Aim::BadGso, Aim::BadPages, Aim::NoSlots, Aim::Done];

/// Places in that order: how often each answer is aimed at.
const AIMS: [usize; 20] = [0, 1, 2, 2, 3, 3, 3, 3, 3, 3, 4, 4, 5, 5, 5, 5, 5, 5, 5, 5];

/// Gsos that pass, and some that do not.
const GOOD_GSO: [(u16, u8); 6] = [(1, 1), (65_535, 2), (1460, 1), (1460, 2), (1, 2), (65_535, 1)];
const BAD_GSO: [(u16, u8); 8] = [(0, 0), (0, 1), (0, 2), (1, 0), (1, 3), (1460, 255), (0, 3), (65_535, 4)];
/// Ways to ask for gso.
const ASKED: [u32; 6] = [1, 1, 2, 0x100, 0x8000_0000, u32::MAX];

/// Reasons for which a reference is not fit for receive: not granted, read only, page outside the window, part of a
/// page, range past the page, no word.
pub const REASONS: usize = 6;

/// The range of a whole page.
const WHOLE: (u16, u16) = (0, 4096);

/// A post being made.
struct Draft {
    guest: Guest,
    /// Two references to each page of the window.
    names: Vec<[u32; 2]>,
    /// The references that the frame uses, and those behind them.
    used: Vec<u32>,
    behind: Vec<u32>,
    length: usize,
    gso: Gso,
    page_bytes: usize,
    /// Slots posted and not yet free again.
    in_flight: u32,
}

/// Post `number` of a run with `seed`.
pub fn post(seed: u64, number: u64) -> Post {
    let random = &Random::new(seed.rotate_left(32), number);
    let mut draft = Draft::good(random);
    let place = random.pick(&AIMS);
    draft.change(random, ORDER[place]);
    if random.one_in(3) {
        ORDER.get(place + 1).into_iter().for_each(|&next| draft.change(random, next));
    }
    draft.post(random)
}

/// A post of a frame that fills so many pages, in whose list the references in places `i` and `j` name one page, by one
/// reference or by two, and all others pages of their own. If `j` is the number of pages, the second of the two is
/// behind those that the frame uses.
pub fn pair(pages: usize, i: usize, j: usize, by_one: bool) -> Post {
    let random = &Random::new((1024 * pages + 32 * i + j) as u64, by_one.into());
    let mut draft = Draft::of_length(random, length_of_pages(random, pages));
    if j < pages {
        draft.name_twice(random, i, j, by_one);
    } else {
        draft.behind = vec![draft.name_of_page(draft.used[i], by_one)];
    }
    draft.post(random)
}

/// A post of a frame that fills so many pages, in whose list one reference is not fit for receive, for a reason by
/// number. If its place is the number of pages, it is behind those that the frame uses.
pub fn unfit(pages: usize, place: usize, reason: usize) -> Post {
    let random = &Random::new((1024 * pages + 32 * place) as u64, reason as u64);
    let mut draft = Draft::of_length(random, length_of_pages(random, pages));
    draft.used.push(draft.name_of_page(draft.used[0], false));
    draft.make_unfit(random, place, reason);
    draft.post(random)
}

fn frame_length(random: &Random) -> usize {
    let full = 4096 * random.between(1, 15);
    match random.below(10) {
        0 => random.pick(&[14, 14, 15]),
        1 => random.pick(&[4096, 4097, full, full + 1]),
        2 => random.pick(&[8192, 8193, full, full + 1]),
        3 => random.pick(&[61_440, 61_441, 65_535, 65_535]),
        4 => random.between(14, 65_535),
        5 | 6 => random.between(4097, 12_288),
        _ => random.between(14, 4096),
    }
}

/// The length of a frame that needs so many pages.
fn length_of_pages(random: &Random, pages: usize) -> usize {
    random.between((4096 * (pages - 1) + 1).max(14), (4096 * pages).min(65_535))
}

/// A counter, mostly just before the 32-bit wrap, the end of the ids or the end of the ring.
fn counter(random: &Random, slots: usize) -> u32 {
    let around = random.pick(&[0, random.u32() << 16, random.u32() << 8, random.u32()]);
    around.wrapping_sub(random.pick(&[0, 1, slots - 1, slots, random.below(20)]) as u32)
}

impl Draft {
    fn good(random: &Random) -> Draft {
        let mut draft = Draft::of_length(random, frame_length(random));
        draft.in_flight = draft.some_in_flight(random);
        draft.behind = draft.some_behind(random);
        draft
    }

    /// A frame of a length with a list of references that name pages of their own.
    fn of_length(random: &Random, length: usize) -> Draft {
        let needed = length.div_ceil(PAGE_BYTES);
        let (guest, names) = Guest::of_driver(random, needed + random.pick(&[0, 0, 1]));
        let pages = random.shuffled(names.len());
        let used = pages.into_iter().take(needed).map(|page| random.pick(&names[page])).collect();
        let (size, kind) = random.pick(&GOOD_GSO);
        let gso = match random.below(4) {
            0 => Gso { asked: 0, size: 0, kind: 0 },
            1 => Gso { asked: 0, size: random.u32() as u16, kind: random.u32() as u8 },
            _ => Gso { asked: random.pick(&ASKED), size, kind },
        };
        Draft { guest, names, used, behind: Vec::new(), length, gso, page_bytes: PAGE_BYTES, in_flight: 0 }
    }

    /// The slots of the packet, and 1 for a frame without bytes.
    fn slots(&self) -> usize {
        self.length.div_ceil(PAGE_BYTES).max(1) + usize::from(self.gso.asked != 0)
    }

    /// So many slots in flight that the packet has room.
    fn some_in_flight(&self, random: &Random) -> u32 {
        let most = 256 - self.slots();
        random.pick(&[0, 1, most, most, random.between(0, most)]) as u32
    }

    /// References behind those that are used: none, unfit ones, or used ones again.
    fn some_behind(&self, random: &Random) -> Vec<u32> {
        let one = |_| match random.below(3) {
            0 => self.name_of_page(random.pick(&self.used), random.one_in(2)),
            1 => random.u32(),
            _ => self.guest.unwritable(random),
        };
        (0..random.pick(&[0, 0, 0, 0, 1, 1, 1, 2, 2, 300])).map(one).collect()
    }

    /// A reference to the page of one that is used: the same, or the page's other.
    fn name_of_page(&self, used: u32, same: bool) -> u32 {
        let [first, second] = *self.names.iter().find(|names| names.contains(&used)).expect("a page's name");
        if (used == first) == same {
            first
        } else {
            second
        }
    }

    fn change(&mut self, random: &Random, aim: Aim) {
        match aim {
            Aim::BadPage => self.page_bytes = random.pick(&WRONG_LENGTHS),
            Aim::BadLength => {
                self.length = random.pick(&[0, 0, 1, 13, 13, 13, 65_536, 65_536, 65_537, 70_000]);
            }
            Aim::BadGso => {
                let (size, kind) = random.pick(&BAD_GSO);
                self.gso = Gso { asked: random.pick(&ASKED), size, kind };
            }
            Aim::BadPages => self.spoil_pages(random),
            Aim::NoSlots => {
                let too_many = 257 - self.slots() as u32;
                let counts = [too_many, too_many, too_many, 256, 257, 258, 0x8000_0000, u32::MAX];
                self.in_flight = random.pick(&counts);
            }
            Aim::Done => {}
        }
    }

    /// Makes the list, the window or the table too short, one of the used references unfit, or two of them name one
    /// page.
    fn spoil_pages(&mut self, random: &Random) {
        let needed = self.used.len();
        let last = needed - 1;
        let place = random.pick(&[0, last, random.below(needed)]);
        match random.below(14) {
            0 => {
                self.used.truncate(random.pick(&[last, last, random.below(needed)]));
                self.behind.clear();
            }
            1..=3 if needed > 1 => {
                let j = random.pick(&[1, last, last, random.between(1, last)]);
                let i = random.pick(&[0, j - 1, random.below(j)]);
                self.name_twice(random, i, j, random.one_in(2));
            }
            4 if random.one_in(2) => self.guest.window.truncate(random.pick(&[0, 0, 1, 4095])),
            4 => self.guest.grants.truncate(random.pick(&[0, 0, 1, 7])),
            5 => self.used[place] = self.guest.unwritable(random),
            _ => self.make_unfit(random, place, random.below(REASONS)),
        }
    }

    /// Makes the reference in a place unfit for one reason only.
    fn make_unfit(&mut self, random: &Random, place: usize, reason: usize) {
        let gref = self.used[place];
        let at = WORD_BYTES as usize * gref as usize;
        let word = number(&self.guest.grants, at, 4) as u32;
        let piece = self.length.saturating_sub(PAGE_BYTES * place).clamp(1, 4095) as u16;
        let outside = (self.guest.window.len() / PAGE_BYTES) as u32;
        let part = random.pick(&[(0, 4095), (1, 4095), (0, piece), (0, 0), (4096, 0)]);
        let past = random.pick(&[(0, 4097), (0, 4097), (1, 4096), (4096, 1), (61_440, 8192), (0, 65_535)]);
        let pages = [outside, outside, outside, 0x10_0000, 0x10_0000 + word / 4, 0x3FFF_FFFF];
        let (word, (start, length)) = match reason {
            0 => (word & !1, WHOLE),
            1 => (word & !2, WHOLE),
            2 => (random.pick(&pages) << 2 | 3, WHOLE),
            3 => (word, part),
            4 => (word, past),
            _ => return self.used[place] = self.without_word(random, gref),
        };
        put(&mut self.guest.grants, at, &word_bytes(word, start, length));
    }

    /// A reference without a whole word, perhaps one that is another in its lowest 29 bits.
    fn without_word(&self, random: &Random, other: u32) -> u32 {
        let words = self.guest.grants.len() as u32 / WORD_BYTES as u32;
        random.pick(&[words, words, words, words + 1, 0x2000_0000 | other, 0xE000_0000 | other, u32::MAX])
    }

    /// Makes the references in places `i` and `j` name the page of one of them: by one reference, or by two.
    fn name_twice(&mut self, random: &Random, i: usize, j: usize, by_one: bool) {
        let (from, to) = random.pick(&[(i, j), (j, i)]);
        self.used[to] = self.name_of_page(self.used[from], by_one);
    }

    fn post(mut self, random: &Random) -> Post {
        let slots = self.slots();
        let first = counter(random, slots);
        let mut page = random.bytes(self.page_bytes);
        put_u32(&mut page, 0, first);
        put_u32(&mut page, 4, event_near(random, first, slots));
        put_u32(&mut page, 12, event_near(random, first, slots));
        self.used.append(&mut self.behind);
        Post {
            replies_read: first.wrapping_sub(self.in_flight),
            page,
            grants: self.guest.grants,
            window: self.guest.window,
            references: self.used,
            frame: random.bytes(self.length),
            gso: self.gso,
        }
    }
}
