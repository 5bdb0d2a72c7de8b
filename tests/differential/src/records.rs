//! Lists of held packets as a host lends them, and ways to break them.

use crate::random::Random;
use reference::grammar::{DATA_LIMIT, EXTRA_LIMIT};
use reference::held::{Fault, Held, HeldWords, MOST_RECORDS};

/// What a change can make wrong with a list.
pub const FAULTS: [Fault; 8] = [
    Fault::TooLong,
    Fault::TooManySlots,
    Fault::Uncovered,
    Fault::CoveredTwice,
    Fault::Elsewhere,
    Fault::BadCounts,
    Fault::BadStatus,
    Fault::OldestFinished,
];

/// Statuses that a host may report.
pub const STATUSES: [i32; 3] = [0, -1, -2];
/// Statuses that it may not: among them the three cut to 16 bits, and others whose lowest 16 bits are those of the three.
pub const OTHER_STATUSES: [i32; 12] =
    [1, -3, 1, -3, 65_535, 65_534, 65_535, 65_534, 0x1_0000, -0x1_0001, i32::MIN, i32::MAX];
/// Ways to say that a packet is finished.
const FINISHED: [u32; 6] = [1, 1, 1, 2, 0x100, 0x8000_0000];

/// A list of records with the two counters that it is lent with.
#[derive(Clone)]
pub struct Records {
    pub consumed: u32,
    pub replied: u32,
    pub list: Vec<Held>,
}

impl Records {
    /// Nothing held, and one free record.
    pub fn fresh(consumed: u32) -> Records {
        Records { consumed, replied: consumed, list: vec![Held::FREE] }
    }

    /// Held packets up to a counter, of at most so many slots together, with some free records among them. Behind the
    /// oldest some are finished, or all.
    pub fn new(random: &Random, consumed: u32, most_slots: usize) -> Records {
        let counts = some_counts(random, most_slots);
        let all_finished = random.one_in(4);
        let mut records = Records { consumed, replied: consumed, list: Vec::new() };
        for (slots, extras) in counts {
            let finished = if all_finished || random.one_in(2) { random.pick(&FINISHED) } else { 0 };
            let early = random.one_in(4);
            let status = if finished != 0 || early { random.pick(&STATUSES) } else { 0 };
            records.append(Held { ticket: 0, slots, extras, status, finished });
        }
        if let Some(oldest) = records.list.first_mut() {
            oldest.finished = 0;
        }
        records.add_free(random);
        records
    }

    /// The slots between the counters.
    pub fn between(&self) -> u32 {
        self.consumed.wrapping_sub(self.replied)
    }

    /// The list as the C interface has it.
    pub fn words(&self) -> Vec<HeldWords> {
        self.list.iter().map(Held::words).collect()
    }

    /// The places of the records in use, in order of their tickets.
    pub fn in_use(&self) -> Vec<usize> {
        let mut places: Vec<usize> =
            (0..self.list.len()).filter(|&place| self.list[place].in_use()).collect();
        places.sort_by_key(|&place| self.list[place].ticket.wrapping_sub(self.replied));
        places
    }

    /// The slots of the oldest packet and of the finished ones right behind it: those that leave when it is finished.
    pub fn front_slots(&self) -> u32 {
        let places = self.in_use();
        let behind = places.iter().skip(1).take_while(|&&place| self.list[place].is_finished());
        places.iter().take(1).chain(behind).map(|&place| self.list[place].slots).sum()
    }

    /// Sees to it that a record is free.
    pub fn make_room(&mut self) {
        if self.list.iter().all(Held::in_use) {
            self.list.push(Held::FREE);
        }
    }

    /// Leaves only the records in use.
    pub fn drop_free(&mut self) {
        self.list.retain(Held::in_use);
    }

    /// Lets a packet be the last that was taken: all others were taken so much earlier.
    fn append(&mut self, record: Held) {
        for other in self.list.iter_mut().filter(|other| other.in_use()) {
            other.ticket = other.ticket.wrapping_sub(record.slots);
        }
        self.replied = self.replied.wrapping_sub(record.slots);
        let ticket = self.consumed.wrapping_sub(record.slots);
        self.add(Held { ticket, ..record });
    }

    /// Puts a record into the first free place, or behind the others.
    fn add(&mut self, record: Held) {
        match self.list.iter_mut().find(|place| !place.in_use()) {
            Some(place) => *place = record,
            None => self.list.push(record),
        }
    }

    /// Adds free records, all zero or with junk in them, and leaves the list in any order or in that of taking.
    fn add_free(&mut self, random: &Random) {
        let room = MOST_RECORDS - self.list.len();
        let count = random.pick(&[0, 1, 1, 1, 2, 2, 5, random.between(0, 20)]);
        let count = if random.one_in(32) { room } else { count.min(room) };
        for _ in 0..count {
            let record = if random.one_in(2) { Held::FREE } else { self.junk(random) };
            self.list.push(record);
        }
        if random.one_in(2) {
            self.list = random.shuffled(self.list.len()).into_iter().map(|place| self.list[place]).collect();
        }
    }

    /// A free record that is not zero. Its ticket may be that of a held packet.
    fn junk(&self, random: &Random) -> Held {
        let extras = random.pick(&[0, 1, 5, random.u32()]);
        let ticket = random.pick(&[self.replied, self.consumed, 0, random.u32()]);
        let status = random.pick(&[0, -1, 65_535, random.u32() as i32]);
        Held { ticket, slots: 0, extras, status, finished: random.pick(&[0, 1, 1, random.u32()]) }
    }
}

/// Slots and extras of packets that have at most so many slots together.
fn some_counts(random: &Random, most_slots: usize) -> Vec<(u32, u32)> {
    let singles = random.one_in(16);
    let number = if singles { random.pick(&[255, 256]) } else { random.pick(&[0, 1, 1, 2, 3, 3, 5, 9, 20]) };
    let mut left = most_slots;
    let mut counts = Vec::new();
    while counts.len() < number && left > 0 {
        let (slots, extras) = if singles { (1, 0) } else { count_of_packet(random) };
        if slots > left {
            counts.push((left.min(DATA_LIMIT) as u32, 0));
            break;
        }
        counts.push((slots as u32, extras as u32));
        left -= slots;
    }
    counts
}

/// The slots and extras of a packet.
fn count_of_packet(random: &Random) -> (usize, usize) {
    let extras = random.pick(&[0, 0, 1, 2, EXTRA_LIMIT]);
    let data = random.pick(&[1, 1, 1, 2, 3, DATA_LIMIT, random.between(1, DATA_LIMIT)]);
    (data + extras, extras)
}

/// Damage to a list. One that needs a held packet does nothing where there is none.
impl Records {
    pub fn break_by(&mut self, random: &Random, fault: Fault) {
        match fault {
            Fault::TooLong => self.make_too_long(random),
            Fault::TooManySlots => self.make_too_many_slots(random),
            Fault::Uncovered => self.make_uncovered(random),
            Fault::CoveredTwice => self.make_covered_twice(random),
            Fault::Elsewhere => self.make_elsewhere(random),
            Fault::BadCounts => self.make_counts_bad(random),
            Fault::BadStatus => {
                if let Some(record) = self.any_held(random) {
                    record.status = random.pick(&OTHER_STATUSES);
                }
            }
            Fault::OldestFinished => {
                if let Some(&oldest) = self.in_use().first() {
                    self.list[oldest].finished = random.pick(&FINISHED);
                }
            }
        }
    }

    fn any_held(&mut self, random: &Random) -> Option<&mut Held> {
        let places = self.in_use();
        let (first, last) = (*places.first()?, *places.last()?);
        Some(&mut self.list[random.pick(&[first, last, random.pick(&places)])])
    }

    fn make_too_long(&mut self, random: &Random) {
        let records = random.pick(&[257, 257, 258, 300]);
        self.list.resize(records, Held::FREE);
        let (first, last) = (self.list[0], self.list[records - 1]);
        if random.one_in(2) {
            (self.list[0], self.list[records - 1]) = (last, first);
        }
    }

    /// Covers more than 256 slots, or moves the counter of replies too far back.
    fn make_too_many_slots(&mut self, random: &Random) {
        if random.one_in(2) {
            let between = random.pick(&[257, 257, 258, 0x8000_0000, u32::MAX, u32::MAX]);
            self.replied = self.consumed.wrapping_sub(between);
            return;
        }
        let wanted = random.pick(&[257, 257, 258]);
        while self.between() < wanted {
            let slots = (wanted - self.between()).min(DATA_LIMIT as u32);
            self.append(Held { slots, ..Held::FREE });
        }
    }

    /// Leaves a slot without a packet: behind a packet, before one, in a packet's place, or before or behind them all.
    fn make_uncovered(&mut self, random: &Random) {
        let gap = random.pick(&[1, 1, 2, random.between(1, 30) as u32]);
        let choice = random.below(5);
        if let (1..=3, Some(record)) = (choice, self.any_held(random)) {
            let shortened = record.slots > record.extras.saturating_add(1);
            match choice {
                1 if shortened => record.slots -= 1,
                2 if shortened => {
                    (record.ticket, record.slots) = (record.ticket.wrapping_add(1), record.slots - 1)
                }
                _ => *record = Held::FREE,
            }
            return;
        }
        self.replied = self.replied.wrapping_sub(gap);
        if choice == 4 {
            for record in self.list.iter_mut().filter(|record| record.in_use()) {
                record.ticket = record.ticket.wrapping_sub(gap);
            }
        }
    }

    /// Lets two packets have a slot: one of them twice, a packet in another, or one that begins a slot too early.
    fn make_covered_twice(&mut self, random: &Random) {
        let Some(&mut Held { ticket, slots, extras, .. }) = self.any_held(random) else { return };
        let within = ticket.wrapping_add(random.below(slots as usize) as u32);
        let places = self.in_use();
        match random.below(3) {
            0 => self.add(Held { ticket, slots, extras, status: 0, finished: 0 }),
            1 if places.len() > 1 => {
                let later = &mut self.list[random.pick(&places[1..])];
                (later.ticket, later.slots) = (later.ticket.wrapping_sub(1), later.slots + 1);
            }
            _ => self.add(Held { ticket: within, slots: 1, ..Held::FREE }),
        }
    }

    /// Lets a packet have a slot that is not between the counters: a slot more, or all of them, perhaps at the same place
    /// on the ring.
    fn make_elsewhere(&mut self, random: &Random) {
        let slots = random.pick(&[1, 1, 2, 18]);
        let tickets = [
            self.consumed,
            self.consumed,
            self.replied.wrapping_sub(slots),
            self.replied.wrapping_sub(256),
            self.replied.wrapping_add(256),
            random.u32(),
        ];
        let places = self.in_use();
        let (Some(&first), Some(&last)) = (places.first(), places.last()) else {
            return self.add(Held { ticket: random.pick(&tickets), slots, ..Held::FREE });
        };
        match random.below(5) {
            0 => self.list[last].slots += 1,
            1 => {
                let oldest = &mut self.list[first];
                (oldest.ticket, oldest.slots) = (oldest.ticket.wrapping_sub(1), oldest.slots + 1);
            }
            2 => {
                let moved = &mut self.list[random.pick(&places)];
                moved.ticket =
                    moved.ticket.wrapping_add(random.pick(&[256, 0_u32.wrapping_sub(256), 0x1_0000]));
            }
            _ => self.add(Held { ticket: random.pick(&tickets), slots, ..Held::FREE }),
        }
    }

    /// Too many data slots, too many extras, or no data slot.
    fn make_counts_bad(&mut self, random: &Random) {
        let extras = random.pick(&[0, 0, EXTRA_LIMIT as u32]);
        let only_extras = random.between(1, EXTRA_LIMIT) as u32;
        match random.below(4) {
            0 => self.append(Held { slots: random.pick(&[19, 19, 20]) + extras, extras, ..Held::FREE }),
            1 => self.append(Held { slots: 6, extras: 5, ..Held::FREE }),
            2 => self.append(Held { slots: only_extras, extras: only_extras, ..Held::FREE }),
            _ => {
                if let Some(record) = self.any_held(random) {
                    record.extras = random.pick(&[record.slots, record.slots + 1, 0x100, u32::MAX]);
                }
            }
        }
    }
}
