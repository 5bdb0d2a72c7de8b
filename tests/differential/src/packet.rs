//! Packets as a guest might post them: whole and good ones, and ways to damage them.

use crate::bytes::{put_u16, put_u32};
use crate::guest::Guest;
use crate::random::Random;
use reference::grants::Range;
use reference::slots::{data, Slot};

/// Bits of a data slot's flags, at byte 6.
const MORE_DATA: u16 = 4;
const EXTRA_FOLLOWS: u16 = 8;
const FLAGS: usize = 6;
const OFFSET: usize = 4;
const SIZE: usize = 10;

/// How many slots of which kind, and what their flags promise: a packet, or something near one.
#[derive(Clone, Copy, Debug)]
pub struct Shape {
    pub extras: usize,
    pub later: usize,
    /// The first slot promises later data slots.
    pub more: bool,
    /// The last extra promises no other.
    pub extras_end: bool,
    /// The last data slot promises no other.
    pub later_end: bool,
}

impl Shape {
    pub fn packet(extras: usize, later: usize) -> Shape {
        Shape { extras, later, more: later > 0, extras_end: true, later_end: true }
    }

    pub fn slots(&self) -> usize {
        1 + self.extras + self.later
    }
}

/// Slots with a first data slot, then extras, then later data slots.
#[derive(Clone)]
pub struct Packet {
    pub slots: Vec<Slot>,
    pub extras: usize,
}

impl Packet {
    /// Slots of a shape, with good references, sizes, offsets and gso fields.
    pub fn new(random: &Random, guest: &Guest, shape: Shape) -> Packet {
        let random_slot = |_| random.bytes(12).try_into().expect("12 bytes");
        let slots: Vec<Slot> = (0..shape.slots()).map(random_slot).collect();
        let mut packet = Packet { slots, extras: shape.extras };
        packet.set_promises(shape);
        packet.set_fields(random, guest);
        packet
    }

    fn set_promises(&mut self, shape: Shape) {
        let last = shape.slots() - 1;
        for place in 0..=last {
            if (1..=shape.extras).contains(&place) {
                self.slots[place][0] = 1;
                self.set_another_extra(place, place < shape.extras || !shape.extras_end);
            } else {
                let more = if place == 0 { shape.more } else { place < last || !shape.later_end };
                self.set_flag(place, MORE_DATA, more);
                self.set_flag(place, EXTRA_FOLLOWS, place == 0 && shape.extras > 0);
            }
        }
    }

    fn set_fields(&mut self, random: &Random, guest: &Guest) {
        let sizes = good_sizes(random, self.slots.len() - 1 - self.extras);
        for (place, size) in self.data_places().into_iter().zip(sizes) {
            put_u16(&mut self.slots[place], SIZE, size);
        }
        for place in self.data_places() {
            let gref = guest.readable(random, self.part(place));
            put_u32(&mut self.slots[place], 0, gref);
            let start = guest.range(gref).start as usize;
            let last = self.last_offset(place, guest);
            let offset = random.pick(&[start, last, last, random.between(start, last)]);
            put_u16(&mut self.slots[place], OFFSET, offset as u16);
        }
        if self.extras > 0 {
            let size = random.pick(&[1, 536, 1460, 65_535]);
            let kind = random.pick(&[1, 2]);
            self.set_gso(size, kind);
        }
    }

    /// The positions of the data slots.
    fn data_places(&self) -> Vec<usize> {
        [0].into_iter().chain(1 + self.extras..self.slots.len()).collect()
    }

    fn size(&self, place: usize) -> i64 {
        data(&self.slots[place]).size as i64
    }

    /// The later data slots' sizes, added.
    fn later_sizes(&self) -> i64 {
        self.data_places()[1..].iter().map(|&place| self.size(place)).sum()
    }

    pub fn total(&self) -> usize {
        self.size(0) as usize
    }

    /// The bytes that a data slot gives to the frame.
    fn part(&self, place: usize) -> i64 {
        let others = if place == 0 { self.later_sizes() } else { 0 };
        self.size(place) - others
    }

    /// The range of the grant that a data slot names.
    fn range(&self, place: usize, guest: &Guest) -> Range {
        guest.range(data(&self.slots[place]).gref as u32)
    }

    /// The last offset at which a data slot's part ends in the range of its grant.
    fn last_offset(&self, place: usize, guest: &Guest) -> usize {
        (self.range(place, guest).end() - self.part(place)).max(0) as usize
    }

    fn set_flag(&mut self, place: usize, flag: u16, on: bool) {
        let slot = &mut self.slots[place];
        let flags = u16::from_le_bytes([slot[FLAGS], slot[FLAGS + 1]]);
        put_u16(slot, FLAGS, if on { flags | flag } else { flags & !flag });
    }

    fn set_another_extra(&mut self, place: usize, on: bool) {
        self.slots[place][1] = self.slots[place][1] & !1 | u8::from(on);
    }

    /// Sets the last extra's gso size and type.
    fn set_gso(&mut self, size: u16, kind: u8) {
        let last = self.extras;
        put_u16(&mut self.slots[last], 2, size);
        self.slots[last][4] = kind;
    }
}

/// A total and so many later sizes: the total is from 14 to 65,535, and at most a page is left for the first slot.
fn good_sizes(random: &Random, later: usize) -> Vec<u16> {
    let largest = random.pick(&[0, 1, 3, 200, 4096, 4096]);
    let least = random.pick(&[0, largest]);
    let mut sizes = vec![0];
    let mut sum = 0;
    for _ in 0..later {
        let size = random.between(least, largest).min(65_535 - sum);
        sizes.push(size as u16);
        sum += size;
    }
    let own = random.pick(&[0, 0, 0, 1, 14, random.between(0, 100), random.between(0, 4096), 4096]);
    let total = (sum + own).min(65_535);
    sizes[0] = total.max(14) as u16;
    sizes
}

/// Damage to a packet. One that needs an extra or a later slot does nothing where there is none.
impl Packet {
    /// Cause 1: a total below 14.
    pub fn make_short(&mut self, random: &Random) {
        put_u16(&mut self.slots[0], SIZE, random.pick(&[0, 1, 12, 13, 13]));
    }

    /// Cause 3: later sizes that add to more than the total.
    pub fn make_sum_too_large(&mut self, random: &Random) {
        let last = self.slots.len() - 1;
        if last == self.extras {
            return;
        }
        if self.later_sizes() < 15 || random.one_in(4) {
            for place in 1 + self.extras..=last {
                put_u16(&mut self.slots[place], SIZE, random.between(15, 65_535) as u16);
            }
        }
        let below = (self.later_sizes() - 1).min(65_535) as usize;
        put_u16(&mut self.slots[0], SIZE, random.pick(&[14, below, below, random.between(14, below)]) as u16);
    }

    /// Cause 4: a reference that is not fit.
    pub fn make_grant_unfit(&mut self, random: &Random, guest: &Guest) {
        let place = random.pick(&self.data_places());
        put_u32(&mut self.slots[place], 0, guest.unreadable(random));
    }

    /// Cause 5: an offset before the range of the grant, or one that leaves too little of it.
    pub fn make_offset_bad(&mut self, random: &Random, guest: &Guest) {
        let places = self.data_places();
        let empty: Vec<usize> = places.iter().copied().filter(|&place| self.part(place) == 0).collect();
        let place = random.pick(if empty.is_empty() || random.one_in(2) { &places } else { &empty });
        let start = self.range(place, guest).start as usize;
        let offset = if start > 0 && random.one_in(2) {
            random.pick(&[start - 1, start - 1, start - 1, random.below(start)])
        } else {
            let past = (self.last_offset(place, guest) + 1).min(65_535);
            random.pick(&[past, past, 65_535, random.between(past, 65_535)])
        };
        put_u16(&mut self.slots[place], OFFSET, offset as u16);
    }

    /// Cause 6: no gso size, or a gso type that is neither 1 nor 2.
    pub fn make_gso_bad(&mut self, random: &Random) {
        if self.extras > 0 {
            let (size, kind) = random.pick(&[(0, 1), (0, 2), (1460, 0), (1460, 3), (1460, 255), (0, 0)]);
            self.set_gso(size, kind);
        }
    }

    /// A packet of one slot promises more data, so that each packet has a proper beginning.
    pub fn make_cuttable(&mut self) {
        if self.slots.len() == 1 {
            self.set_flag(0, MORE_DATA, true);
        }
    }

    /// Misshapen: an extra of another type than 1, or a later data slot that promises an extra.
    pub fn make_misshapen(&mut self, random: &Random) {
        let later = &self.data_places()[1..];
        if self.extras > 0 && (later.is_empty() || random.one_in(2)) {
            let place = random.between(1, self.extras);
            self.slots[place][0] = random.pick(&[0, 2, 3, 129, 255]);
        } else if !later.is_empty() {
            self.set_flag(random.pick(later), EXTRA_FOLLOWS, true);
        }
    }

    /// Slots whose reading as data and as extras is random, with small numbers.
    pub fn noise(random: &Random, guest: &Guest, count: usize) -> Packet {
        let slots = (0..count).map(|_| noise_slot(random, guest)).collect();
        Packet { slots, extras: 0 }
    }
}

fn noise_slot(random: &Random, guest: &Guest) -> Slot {
    let mut slot: Slot = random.bytes(12).try_into().expect("12 bytes");
    let gref = guest.readable(random, 0);
    put_u32(&mut slot, 0, gref);
    if random.one_in(2) {
        slot[0] = random.pick(&[0, 1, 1, 1, 2]);
        slot[1] = random.below(4) as u8;
    }
    let Range { start, length } = guest.range(gref);
    let offset = start + random.pick(&[0, 1, length - 1, length]);
    put_u16(&mut slot, OFFSET, offset.max(0) as u16);
    put_u16(&mut slot, SIZE, random.pick(&[0, 1, 13, 14, 15, 60]));
    slot
}
