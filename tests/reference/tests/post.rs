//! The guest's side, asked of the second program.

#![deny(warnings)]

use reference::calls::{transmit_finish, transmit_post, transmit_take, Words};
use reference::grants::{whole_page_bytes, word_bytes};
use reference::slots::{data, data_bytes, extra, extra_bytes, Data, Extra, Slot};
use reference::words::number;
use std::collections::VecDeque;

const MORE: u64 = 4;
const EXTRA: u64 = 8;
const DONE: u32 = 0;

/// References from this one on name the whole of pages 0, 1, 2 and so on, to be written.
const FIT: u32 = 10;
const PAGES: u32 = 17;
/// References that are not fit for receive: not granted, read only, outside the window, two parts of a page and two
/// ranges past one. The last has no word.
const UNFIT: [u32; 8] = [0, 1, 2, 3, 4, 5, 6, FIT + PAGES];
/// Two references to page 16 beside FIT + 16.
const SAME: [u32; 2] = [7, 8];

/// What a post is lent: a ring that was used up to a slot, a driver's pages and what it asks for.
struct Lent {
    replies_read: u32,
    page: Vec<u8>,
    grants: Vec<u8>,
    window: Vec<u8>,
    references: Vec<u32>,
    frame: Vec<u8>,
    gso: (u32, u16, u8),
}

impl Lent {
    /// A frame of a length, posted from slot `first` on, with as many references as it needs and no slot in flight.
    fn new(first: u32, length: usize) -> Lent {
        let mut page = vec![0xEE; 4096];
        page[..4].copy_from_slice(&first.to_le_bytes());
        let bad =
            [(0x02, 0, 4096), (0x01, 0, 4096), (PAGES << 2 | 3, 0, 4096), (0x03, 0, 4095), (0x03, 1, 4095)];
        let past = [(0x03, 0, 4097), (0x03, 1, 4096)];
        let same = [(16 << 2 | 3, 0, 4096); 3];
        let words =
            bad.into_iter().chain(past).chain(same).map(|(word, at, bytes)| word_bytes(word, at, bytes));
        let fit = (0..PAGES).map(|page| whole_page_bytes(page << 2 | 3));
        Lent {
            replies_read: first,
            page,
            grants: words.chain(fit).flatten().collect(),
            window: vec![0xEE; PAGES as usize * 4096 + 4095],
            references: (FIT..).take(length.div_ceil(4096)).collect(),
            frame: (0..length).map(|i| (i % 251) as u8).collect(),
            gso: (0, 0, 0),
        }
    }

    /// As `new`, with so many slots in flight.
    fn in_flight(first: u32, length: usize, count: u32) -> Lent {
        Lent { replies_read: first.wrapping_sub(count), ..Lent::new(first, length) }
    }

    fn post(&mut self) -> Words {
        let Lent { replies_read, page, grants, window, references, frame, gso } = self;
        transmit_post((*replies_read, gso.0, gso.1, gso.2), page, grants, window, references, frame)
    }

    /// The answer of a post. One that is not done reports nothing else and leaves all as it was.
    fn answer(&mut self) -> u32 {
        let (page, window) = (self.page.clone(), self.window.clone());
        let words = self.post();
        if words[0] != DONE {
            assert_eq!(words[1..], [0; 10]);
            assert!(self.page == page && self.window == window, "a refusal changed something");
        }
        words[0]
    }

    /// Takes the packet at the counter, up to which all is replied to, and finishes it at once where it is done. Gives
    /// the report and the frame.
    fn take(&mut self, consumed: &mut u32) -> (Words, Vec<u8>) {
        let Lent { page, grants, window, .. } = self;
        let (mut replied, mut halted, mut held) = (*consumed, 0, [[0; 5]]);
        let mut frame = vec![0xEE; 65_535];
        let numbers = [&mut *consumed, &mut replied, &mut halted];
        let words = transmit_take(numbers, page, grants, window, &mut held, &mut frame);
        if words[0] == DONE {
            transmit_finish(*consumed, &mut replied, page, &mut held, words[10], 0);
        }
        assert_eq!((replied, held), (*consumed, [[0; 5]]));
        frame.truncate(words[5] as usize);
        (words, frame)
    }

    /// Slot n of the ring.
    fn slot(&self, n: u32) -> Slot {
        let at = 64 + 12 * (n % 256) as usize;
        self.page[at..at + 12].try_into().expect("a slot")
    }

    /// The ids, flags and sizes of data slots.
    fn fields(&self, slots: impl IntoIterator<Item = u32>) -> Vec<(u64, u64, u64)> {
        let fields = |n| {
            let slot = self.slot(n);
            (number(&slot, 8, 2), number(&slot, 6, 2), number(&slot, 10, 2))
        };
        slots.into_iter().map(fields).collect()
    }
}

#[test]
fn a_frame_of_one_page() {
    let mut lent = Lent::new(7, 60);
    assert_eq!(lent.post(), [0, 0, 0, 1, 0, 0, 0, 0, 0, 0, 0]);
    assert_eq!(lent.slot(7), [FIT as u8, 0, 0, 0, 0, 0, 0, 0, 7, 0, 60, 0]);
    assert_eq!(number(&lent.page, 0, 4), 8);
    assert_eq!(lent.window[..60], lent.frame);
    assert!(lent.window[60..].iter().all(|&byte| byte == 0xEE));
    let unchanged = [&lent.page[4..64 + 12 * 7], &lent.page[64 + 12 * 8..]].concat();
    assert!(unchanged.iter().all(|&byte| byte == 0xEE));
}

#[test]
fn a_slot_for_each_page_and_the_total_in_the_first() {
    let mut lent = Lent::new(0, 9000);
    lent.references = vec![FIT + 3, FIT, FIT + 16];
    assert_eq!(lent.post()[..4], [0, 0, 0, 3]);
    assert_eq!(lent.fields(0..3), [(0, MORE, 9000), (1, MORE, 4096), (2, 0, 808)]);
    assert_eq!((0..3).map(|n| data(&lent.slot(n)).gref).collect::<Vec<_>>(), [13, 10, 26]);
    for (piece, page) in lent.frame.chunks(4096).zip([3, 0, 16]) {
        assert_eq!(lent.window[4096 * page..][..piece.len()], *piece);
    }
    assert_eq!(lent.window[4096 * 16 + 808], 0xEE);
}

#[test]
fn lengths_and_their_slots() {
    for (length, slots) in [(14, 1), (4096, 1), (4097, 2), (61_440, 15), (61_441, 16), (65_535, 16)] {
        assert_eq!(Lent::new(0, length).post()[..4], [0, 0, 0, slots], "{length} bytes");
    }
    for length in [0, 13, 65_536, 70_000] {
        assert_eq!(Lent::new(0, length).answer(), 9, "{length} bytes");
    }
}

#[test]
fn gso_is_asked_for_by_an_extra_behind_the_first_slot() {
    let mut lent = Lent { gso: (1, 1460, 2), ..Lent::new(5, 4097) };
    assert_eq!(lent.post()[..4], [0, 0, 0, 3]);
    assert_eq!(lent.fields([5, 7]), [(5, MORE | EXTRA, 4097), (7, 0, 1)]);
    assert_eq!(lent.slot(6), [1, 0, 0xB4, 0x05, 2, 0, 0, 0, 0, 0, 0, 0]);
    let mut one_page = Lent { gso: (1, 1, 1), ..Lent::new(5, 14) };
    assert_eq!(one_page.post()[..4], [0, 0, 0, 2]);
    assert_eq!(one_page.fields([5]), [(5, EXTRA, 14)]);
}

#[test]
fn a_gso_that_is_given_is_tested() {
    let of = |gso| Lent { gso, ..Lent::new(0, 60) }.answer();
    for (size, kind) in [(1, 1), (1, 2), (65_535, 1), (65_535, 2)] {
        assert_eq!(of((1, size, kind)), DONE, "size {size}, type {kind}");
    }
    for (size, kind) in [(0, 0), (0, 1), (0, 2), (1, 0), (1, 3), (1, 255)] {
        assert_eq!(of((1, size, kind)), 13, "size {size}, type {kind}");
        assert_eq!(of((0, size, kind)), DONE, "size {size}, type {kind}, not given");
    }
    assert_eq!((of((u32::MAX, 1, 3)), of((256, 1, 1))), (13, DONE));
}

#[test]
fn counters_wrap() {
    let mut lent = Lent { gso: (1, 1, 1), ..Lent::new(u32::MAX, 4097) };
    assert_eq!(lent.post()[..4], [0, 0, 0, 3]);
    assert_eq!(number(&lent.page, 0, 4), 2);
    assert_eq!(lent.fields([255, 1]), [(65_535, MORE | EXTRA, 4097), (1, 0, 1)]);
    assert_eq!(extra(&lent.slot(0)).gso_size, 1);
    let mut ids = Lent::new(0x0002_FFFF, 4097);
    assert_eq!(ids.post()[0], DONE);
    assert_eq!(ids.fields([255, 0]), [(65_535, MORE, 4097), (0, 0, 1)]);
    let mut places = Lent::new(511, 4097);
    assert_eq!(places.post()[0], DONE);
    assert_eq!(places.fields([255, 0]), [(511, MORE, 4097), (512, 0, 1)]);
}

#[test]
fn the_packet_takes_free_slots_only() {
    let of = |gso, count| Lent { gso, ..Lent::in_flight(3, 4097, count) }.answer();
    for (gso, slots) in [((0, 1, 1), 2), ((1, 1, 1), 3)] {
        assert_eq!(of(gso, 0), DONE);
        assert_eq!(of(gso, 256 - slots), DONE, "exactly enough");
        for count in [257 - slots, 256, 257, 258, 0x8000_0000, u32::MAX] {
            assert_eq!(of(gso, count), 11, "{count} in flight");
        }
    }
}

#[test]
fn notify_by_req_event() {
    for (req_event, notify) in [(250_u32, 0), (251, 1), (253, 1), (254, 0)] {
        let mut lent = Lent { gso: (1, 1, 1), ..Lent::new(250, 4097) };
        lent.page[4..8].copy_from_slice(&req_event.to_le_bytes());
        assert_eq!(lent.post()[3..5], [3, notify], "req_event {req_event}");
        assert_eq!(lent.page[4..8], req_event.to_le_bytes());
        assert_eq!(lent.page[8..64], [0xEE; 56]);
    }
}

#[test]
fn the_references_used_are_enough_fit_and_distinct() {
    let of = |references: &[u32]| {
        let references = references.to_vec();
        Lent { references, ..Lent::new(0, 8193) }.answer()
    };
    assert_eq!(of(&[FIT, FIT + 1, SAME[0]]), DONE);
    for short in [&[][..], &[FIT], &[FIT, FIT + 1]] {
        assert_eq!(of(short), 12, "{short:?}");
    }
    for unfit in UNFIT {
        for references in [[unfit, FIT, FIT + 2], [FIT, unfit, FIT + 2], [FIT, FIT + 2, unfit]] {
            assert_eq!(of(&references), 12, "{references:?}");
        }
    }
    let [a, b] = SAME;
    for references in [[a, b, FIT], [a, FIT, b], [FIT, a, b], [a, a, FIT], [a, FIT, a], [FIT, a, a]] {
        assert_eq!(of(&references), 12, "{references:?}");
    }
}

#[test]
fn the_references_behind_are_not_looked_at() {
    for behind in UNFIT.into_iter().chain([FIT, FIT + 1, u32::MAX]) {
        let references = vec![FIT, FIT + 1, behind, behind];
        assert_eq!(Lent { references, ..Lent::new(0, 4097) }.answer(), DONE, "{behind}");
    }
}

#[test]
fn every_pair_is_told() {
    for later in 0..16 {
        for earlier in 0..later {
            for pair in [[FIT + 16, SAME[0]], [FIT + 16; 2], SAME] {
                let mut lent = Lent::new(0, 65_535);
                [lent.references[earlier], lent.references[later]] = pair;
                assert_eq!(lent.answer(), 12, "{earlier} and {later}");
            }
        }
    }
}

#[test]
fn the_order_of_the_answers() {
    let mut lent = Lent::in_flight(0, 13, 256);
    lent.references.clear();
    lent.gso = (1, 0, 0);
    lent.page.truncate(4095);
    let mut answers = vec![lent.answer()];
    lent.page.push(0xEE);
    answers.push(lent.answer());
    lent.frame.push(0);
    answers.push(lent.answer());
    lent.gso = (0, 0, 0);
    answers.push(lent.answer());
    lent.references = vec![FIT];
    answers.push(lent.answer());
    lent.replies_read = 0;
    answers.push(lent.answer());
    assert_eq!(answers, [1, 9, 13, 12, 11, 0]);
}

/// At the packet's first slot, with whatever stands behind it.
#[test]
fn what_is_posted_is_taken_back() {
    for length in [14, 4095, 4096, 4097, 8192, 8193, 61_440, 61_441, 65_535] {
        for (gso, behind) in [((0, 9, 9), 0), ((1, 1460, 1), 0), ((2, 65_535, 2), 239)] {
            let first = 0xFFFF_FFF8;
            let mut lent = Lent { gso, ..Lent::new(first, length) };
            let slots = lent.post()[3];
            lent.page[..4].copy_from_slice(&first.wrapping_add(slots + behind).to_le_bytes());
            let (words, frame) = lent.take(&mut { first });
            let (size, kind) = if gso.0 == 0 { (0, 0) } else { (gso.1.into(), gso.2.into()) };
            assert_eq!(words[..4], [0, 0, 0, slots]);
            assert_eq!(words[5..], [length as u32, 0, 0, size, kind, first]);
            assert!(frame == lent.frame, "{length} bytes");
        }
    }
}

/// Packets posted and taken in turn, up to four of them between the two. The driver reads replies only when no slots
/// are free, and each reply has its slot's id.
#[test]
fn packets_come_back_in_their_order() {
    let first = 0xFFFF_FF00;
    let mut lent = Lent::new(first, 14);
    lent.page[8..12].copy_from_slice(&first.to_le_bytes());
    let (mut consumed, mut full, mut posted) = (first, 0, VecDeque::new());
    for k in 0..400_u32 {
        lent.frame = (0..14 + k * 2999 % 12_000).map(|i| (i * k % 251) as u8).collect();
        lent.references = (0..3).map(|n| FIT + (3 * k + n) % 15).collect();
        lent.gso = (k % 3, 1460, 1);
        while lent.answer() != DONE {
            assert_ne!(number(&lent.page, 8, 4), lent.replies_read.into(), "no reply to read");
            lent.replies_read = number(&lent.page, 8, 4) as u32;
            full += 1;
        }
        posted.push_back((lent.frame.clone(), lent.gso.0 != 0));
        if posted.len() == 4 {
            let slot = consumed;
            let (words, frame) = lent.take(&mut consumed);
            assert_eq!((words[0], Some((frame, words[9] == 1))), (DONE, posted.pop_front()));
            assert_eq!(lent.slot(slot)[..4], [slot as u8, (slot >> 8) as u8, 0, 0]);
        }
    }
    assert!(full > 3 && consumed < first, "the ring was full {full} times, up to slot {consumed}");
}

/// The first slot alone would have to give more than a page.
#[test]
fn no_fewer_data_slots_are_done() {
    for length in [4097, 8193, 61_441, 65_535] {
        let mut lent = Lent::new(0, length);
        let slots = lent.post()[3];
        let last = 64 + 12 * (slots as usize - 2);
        lent.page[..4].copy_from_slice(&(slots - 1).to_le_bytes());
        lent.page[last + 6] = 0;
        let (words, _) = lent.take(&mut 0);
        assert_eq!(words[..4], [7, 5, 0, slots - 1], "{length} bytes");
    }
}

#[test]
fn slots_are_read_as_they_are_written() {
    for bits in 0..16 {
        let bit = |k: u32| bits >> k & 1 == 1_u64;
        let slot = Data {
            gref: 0x8765_4321,
            offset: 0x0102,
            id: 0xF00D,
            size: 65_535,
            checksum_blank: bit(0),
            data_validated: bit(1),
            more_data: bit(2),
            extra_follows: bit(3),
        };
        assert_eq!(data(&data_bytes(&slot)), slot);
        let gso = Extra { kind: 1, another_follows: bit(0), gso_size: 0x1234, gso_type: bits };
        assert_eq!(extra(&extra_bytes(&gso)), gso);
    }
}
