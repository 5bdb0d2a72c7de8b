//! Take cases: a good packet at the counter, then one change that aims at an answer, and sometimes a second.

use crate::case::{Call, Case};
use crate::guest::Guest;
use crate::lending::{Lending, Refusal};
use crate::packet::{Packet, Shape};
use crate::random::Random;
use crate::records::{Records, FAULTS};
use reference::grammar::{DATA_LIMIT, EXTRA_LIMIT};

/// The answer or cause that a change aims at. Where there are two changes, the earlier answer comes out.
#[derive(Clone, Copy, PartialEq, Eq)]
enum Aim {
    Done,
    Refused(Refusal),
    BadRecords,
    Empty,
    Misshapen,
    TooLong,
    Waiting,
    Short,
    SumTooLarge,
    GrantUnfit,
    OffsetBad,
    GsoBad,
    NoRoom,
    NoRecord,
    Noise,
}

const AIMS: [Aim; 22] = [
    Aim::Done,
    Aim::Done,
    Aim::Refused(Refusal::BadPage),
    Aim::Refused(Refusal::HaltedAlready),
    Aim::Refused(Refusal::Overflow),
    Aim::BadRecords,
    Aim::BadRecords,
    Aim::BadRecords,
    Aim::Empty,
    Aim::Misshapen,
    Aim::TooLong,
    Aim::Waiting,
    Aim::Short,
    Aim::SumTooLarge,
    Aim::GrantUnfit,
    Aim::GrantUnfit,
    Aim::OffsetBad,
    Aim::OffsetBad,
    Aim::GsoBad,
    Aim::NoRoom,
    Aim::NoRecord,
    Aim::Noise,
];

/// A case being made.
struct Draft {
    packet: Packet,
    lending: Lending,
}

/// A take case.
pub fn case(random: &Random) -> Case {
    let aim = random.pick(&AIMS);
    let mut draft = Draft::good(random, aim);
    draft.change(random, aim);
    if random.one_in(4) {
        let second = random.pick(&AIMS);
        draft.change(random, second);
    }
    draft.lending.case(random, Call::Take, &draft.packet.slots)
}

/// The shape of a packet with at least so many extras and later slots; now and then the longest there is.
pub fn packet_shape(random: &Random, extras_needed: usize, later_needed: usize) -> Shape {
    let most = DATA_LIMIT - 1;
    if random.one_in(10) {
        return Shape::packet(EXTRA_LIMIT, most);
    }
    let extras = random.pick(&[0, 0, 0, 1, 1, 2, EXTRA_LIMIT - 1, EXTRA_LIMIT]);
    let later = random.pick(&[0, 0, 1, 2, 3, random.between(0, most), most - 1, most]);
    Shape::packet(extras.max(extras_needed), later.max(later_needed))
}

/// A shape with more data slots or extras than a packet may have, or one whose flags promise more.
pub fn long_shape(random: &Random) -> Shape {
    let extras = random.pick(&[0, 1, random.between(0, EXTRA_LIMIT), EXTRA_LIMIT]);
    let later = random.pick(&[0, 1, random.between(0, DATA_LIMIT - 1), DATA_LIMIT - 1]);
    let more = later > 0 || random.one_in(2);
    match random.below(4) {
        0 => Shape::packet(extras, random.between(DATA_LIMIT, DATA_LIMIT + 1)),
        1 => Shape { later_end: false, ..Shape::packet(extras, DATA_LIMIT - 1) },
        2 => Shape::packet(random.between(EXTRA_LIMIT + 1, EXTRA_LIMIT + 2), later),
        _ => Shape { more, extras_end: false, ..Shape::packet(EXTRA_LIMIT, later) },
    }
}

impl Draft {
    /// A packet with the slots that the aim needs, lent so that it is done.
    fn good(random: &Random, aim: Aim) -> Draft {
        let pages = random.between(1, 4);
        let guest = Guest::new(random, pages);
        let extras = usize::from(aim == Aim::GsoBad || aim == Aim::Misshapen && random.one_in(2));
        let later = usize::from(aim == Aim::SumTooLarge || aim == Aim::Misshapen && extras == 0);
        let shape = packet_shape(random, extras, later);
        let packet = Packet::new(random, &guest, shape);
        let slots = packet.slots.len();
        let posted =
            random.pick(&[slots, slots, slots + 1, 17, 18, 19, 22, 255, 256, random.between(1, 256)]);
        let total = packet.total();
        let frame_bytes = random.pick(&[total, total, total + 1, total + 64, 65_535]);
        let mut lending = Lending::new(random, guest, posted.max(slots), frame_bytes);
        if random.one_in(2) || aim == Aim::BadRecords {
            let room = 256 - random.pick(&[lending.posted as usize, slots]);
            lending.records = Records::new(random, lending.records.consumed, room);
            lending.posted = lending.posted.min(256 - lending.records.between());
        }
        Draft { packet, lending }
    }

    fn change(&mut self, random: &Random, aim: Aim) {
        match aim {
            Aim::Done => {}
            Aim::Refused(refusal) => self.lending.refuse(random, refusal),
            Aim::BadRecords => self.lending.records.break_by(random, random.pick(&FAULTS)),
            Aim::Empty => self.lending.posted = 0,
            Aim::Misshapen => self.packet.make_misshapen(random),
            Aim::TooLong => {
                let shape = long_shape(random);
                let packet = Packet::new(random, &self.lending.guest, shape);
                self.replace(random, packet);
            }
            Aim::Waiting => self.cut(random),
            Aim::Short => self.packet.make_short(random),
            Aim::SumTooLarge => self.packet.make_sum_too_large(random),
            Aim::GrantUnfit => self.packet.make_grant_unfit(random, &self.lending.guest),
            Aim::OffsetBad => self.packet.make_offset_bad(random, &self.lending.guest),
            Aim::GsoBad => self.packet.make_gso_bad(random),
            Aim::NoRoom => {
                let below = self.packet.total().saturating_sub(1);
                self.lending.frame_bytes = random.pick(&[below, below, 0, random.between(0, below)]);
            }
            Aim::NoRecord => self.lending.records.drop_free(),
            Aim::Noise => {
                let count = random.between(1, 24);
                let packet = Packet::noise(random, &self.lending.guest, count);
                self.replace(random, packet);
            }
        }
    }

    /// Puts other slots in the packet's place, and posts up to all of them.
    fn replace(&mut self, random: &Random, packet: Packet) {
        let slots = packet.slots.len();
        self.lending.posted =
            random.pick(&[slots, slots, slots.min(5), slots.min(18), slots.min(22), slots + 1]) as u32;
        self.packet = packet;
    }

    /// Posts only the packet's first slots.
    fn cut(&mut self, random: &Random) {
        self.packet.make_cuttable();
        let most = (self.packet.slots.len() - 1).max(1);
        let extras_cut = self.packet.extras.clamp(1, most);
        self.lending.posted = random.pick(&[1, most, most, extras_cut, random.between(1, most)]) as u32;
    }
}
