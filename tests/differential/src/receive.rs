//! Receive cases: requests that take the frame, then one change that aims at an answer, and sometimes a second.

use crate::bytes::put_u32;
use crate::case::{Call, Case};
use crate::guest::Guest;
use crate::lending::{Lending, Refusal};
use crate::random::Random;
use reference::slots::RECEIVE_WIDTH;

/// The answer or cause that a change aims at. Where there are two changes, the earlier answer comes out.
#[derive(Clone, Copy, PartialEq, Eq)]
enum Aim {
    Done,
    Refused(Refusal),
    BadLength,
    NoBuffers,
    GrantUnfit,
}

const AIMS: [Aim; 10] = [
    Aim::Done,
    Aim::Done,
    Aim::Refused(Refusal::BadPage),
    Aim::Refused(Refusal::HaltedAlready),
    Aim::Refused(Refusal::Overflow),
    Aim::BadLength,
    Aim::NoBuffers,
    Aim::GrantUnfit,
    Aim::GrantUnfit,
    Aim::GrantUnfit,
];

/// A case being made.
struct Draft {
    requests: Vec<[u8; RECEIVE_WIDTH]>,
    lending: Lending,
}

/// A receive case.
pub fn case(random: &Random) -> Case {
    let mut draft = Draft::good(random);
    let aim = random.pick(&AIMS);
    draft.change(random, aim);
    if random.one_in(4) {
        let second = random.pick(&AIMS);
        draft.change(random, second);
    }
    draft.lending.case(random, Call::Put, &draft.requests)
}

fn frame_length(random: &Random) -> usize {
    match random.below(8) {
        0 => random.pick(&[61_440, 61_441, 65_534, 65_535]),
        1 => random.between(14, 65_535),
        2 | 3 => random.pick(&[4095, 4096, 4097, 8191, 8192, 8193, 9000]),
        4 => random.pick(&[14, 14, 15]),
        _ => random.between(14, 6000),
    }
}

impl Draft {
    /// As many fit requests as the frame needs.
    fn good(random: &Random) -> Draft {
        let pages = random.pick(&[1, 2, 3, 4, 17]);
        let guest = Guest::new(random, pages);
        let length = frame_length(random);
        let needed = length.div_ceil(4096);
        let posted = random.pick(&[needed, needed, needed + 1, 17, 18, 19, 255, 256, random.between(1, 256)]);
        let request = |_| {
            let mut request: [u8; RECEIVE_WIDTH] = random.bytes(8).try_into().expect("8 bytes");
            put_u32(&mut request, 4, random.pick(&guest.writable));
            request
        };
        let requests = (0..needed).map(request).collect();
        Draft { requests, lending: Lending::new(random, guest, posted.max(needed), length) }
    }

    fn change(&mut self, random: &Random, aim: Aim) {
        let needed = self.requests.len();
        match aim {
            Aim::Done => {}
            Aim::Refused(refusal) => self.lending.refuse(random, refusal),
            Aim::BadLength => {
                let lengths = [0, 0, 1, 13, 13, 65_536, 65_536, 65_537, 70_000];
                self.lending.frame_bytes = random.pick(&lengths);
            }
            Aim::NoBuffers => {
                let fewer = [needed - 1, needed - 1, random.below(needed)];
                self.lending.posted = random.pick(&fewer) as u32;
            }
            Aim::GrantUnfit => {
                let place = random.pick(&[0, needed - 1, random.below(needed)]);
                put_u32(&mut self.requests[place], 4, self.lending.guest.unwritable(random));
            }
        }
    }
}
