//! Packets that are held until the host has finished them, asked of the second program.

#![deny(warnings)]

use reference::calls::{transmit_finish, transmit_take, Words};
use reference::grants::whole_page_bytes;
use reference::held::{Fault, Held, HeldWords, TransmitQueue};
use reference::slots::Slot;
use reference::words::number;

const DONE: u32 = 0;
const SPOILED: u32 = 7;
const NO_RECORD: u32 = 14;
const BAD_TICKET: u32 = 15;
const BAD_RECORDS: u32 = 17;

const FREE: HeldWords = [0; 5];
const JUNK: HeldWords = [7, 0, 9, 65_535, 1];

/// Statuses as a record has them.
const OKAY: u32 = 0;
const ERROR: u32 = 0xFFFF_FFFF;
const DROPPED: u32 = 0xFFFF_FFFE;

/// A ring with a queue, and a window of one page that reference 0 names.
#[derive(Clone, PartialEq, Debug)]
struct Lent {
    consumed: u32,
    replied: u32,
    halted: u32,
    page: Vec<u8>,
    held: Vec<HeldWords>,
    frame: Vec<u8>,
}

impl Lent {
    /// A fresh queue with these slots posted from a counter on, and so many free records. rsp_event is far off.
    fn new(counter: u32, records: usize, slots: &[Slot]) -> Lent {
        let mut page = vec![0; 4096];
        page[12..16].copy_from_slice(&counter.wrapping_sub(1).to_le_bytes());
        for (n, slot) in (u64::from(counter)..).zip(slots) {
            let at = 64 + 12 * (n % 256) as usize;
            page[at..at + 12].copy_from_slice(slot);
        }
        let (held, frame) = (vec![FREE; records], vec![0xEE; 60]);
        let mut lent = Lent { consumed: counter, replied: counter, halted: 0, page, held, frame };
        lent.set_req_prod(counter.wrapping_add(slots.len() as u32));
        lent
    }

    /// A queue whose list is these records, with nothing posted behind the slots consumed.
    fn with_list(replied: u32, consumed: u32, held: &[HeldWords]) -> Lent {
        let mut lent = Lent::new(replied, 0, &[]);
        (lent.consumed, lent.held) = (consumed, held.to_vec());
        lent.set_req_prod(consumed);
        lent
    }

    fn set_req_prod(&mut self, counter: u32) {
        self.page[..4].copy_from_slice(&counter.to_le_bytes());
    }

    fn rsp_prod(&self) -> u64 {
        number(&self.page, 8, 4)
    }

    fn take(&mut self) -> Words {
        let Lent { consumed, replied, halted, page, held, frame } = self;
        let window = [0x77; 4096];
        transmit_take([consumed, replied, halted], page, &whole_page_bytes(3), &window, held, frame)
    }

    fn finish(&mut self, ticket: u32, status: i32) -> Words {
        let Lent { consumed, replied, page, held, .. } = self;
        transmit_finish(*consumed, replied, page, held, ticket, status)
    }

    /// The answer of a call that reports nothing else and changes nothing.
    fn refusal(&self, call: impl Fn(&mut Lent) -> Words) -> u32 {
        let mut after = self.clone();
        let words = call(&mut after);
        assert_eq!(words[1..], [0; 10]);
        assert!(after == *self, "answer {} changed something", words[0]);
        words[0]
    }

    /// The first four bytes of slot n: id and status of a reply.
    fn reply(&self, n: u32) -> [u8; 4] {
        let at = 64 + 12 * (n % 256) as usize;
        self.page[at..at + 4].try_into().expect("a reply")
    }

    fn faults(&self) -> Vec<Fault> {
        let list = self.held.iter().copied().map(Held::from_words).collect();
        let (consumed, replied) = (self.consumed.into(), self.replied.into());
        TransmitQueue { consumed, replied, halted: self.halted, list }.faults()
    }
}

/// A data slot of page 0 with an id, flags and a size.
fn slot(id: u16, flags: u16, size: u16) -> Slot {
    let mut slot = [0; 12];
    for (at, field) in (6..).step_by(2).zip([flags, id, size]) {
        slot[at..at + 2].copy_from_slice(&field.to_le_bytes());
    }
    slot
}

/// A packet of one slot that is handed over.
fn good(id: u16) -> Slot {
    slot(id, 0, 60)
}

/// A packet of one slot with cause 1.
fn bad(id: u16) -> Slot {
    slot(id, 0, 13)
}

/// A packet of three slots, the second of them an extra.
fn with_extra(ids: [u16; 2]) -> [Slot; 3] {
    let extra = [1, 0, 0xB4, 0x05, 1, 0, 0, 0, 9, 9, 9, 9];
    [slot(ids[0], 12, 60), extra, slot(ids[1], 0, 20)]
}

#[test]
fn a_done_take_holds_the_packet_and_replies_nothing() {
    let mut lent = Lent::new(5, 2, &with_extra([100, 101]));
    lent.held[0] = JUNK;
    let page = lent.page.clone();
    assert_eq!(lent.take(), [0, 0, 0, 3, 0, 60, 0, 0, 1460, 1, 5]);
    assert_eq!(lent.held, [[5, 3, 1, OKAY, 0], FREE]);
    assert_eq!((lent.consumed, lent.replied), (8, 5));
    assert!(lent.page == page, "a reply left");
}

#[test]
fn replies_leave_in_the_order_of_taking() {
    let mut lent = Lent::new(0, 3, &[good(10), good(11), good(12)]);
    assert_eq!([0, 1, 2].map(|_| lent.take()[10]), [0, 1, 2]);
    let page = lent.page.clone();
    assert_eq!(lent.finish(2, -2), [0; 11]);
    assert_eq!(lent.finish(1, -1), [0; 11]);
    assert_eq!(lent.held, [[0, 1, 0, OKAY, 0], [1, 1, 0, ERROR, 1], [2, 1, 0, DROPPED, 1]]);
    assert!(lent.page == page, "a reply left out of turn");
    assert_eq!(lent.finish(0, 0), [0, 0, 0, 3, 0, 0, 0, 0, 0, 0, 0]);
    let replies = [0, 1, 2].map(|n| lent.reply(n));
    assert_eq!(replies, [[10, 0, 0, 0], [11, 0, 0xFF, 0xFF], [12, 0, 0xFE, 0xFF]]);
    assert_eq!((lent.rsp_prod(), lent.held), (3, vec![FREE; 3]));
}

#[test]
fn replies_leave_as_far_as_finished_ones_reach() {
    let mut lent = Lent::new(u32::MAX, 4, &[good(10), good(11), good(12), good(13)]);
    (0..4).for_each(|_| assert_eq!(lent.take()[0], DONE));
    assert_eq!([0, 2].map(|ticket| lent.finish(ticket, 0)[3]), [0, 0]);
    assert_eq!(lent.finish(u32::MAX, 0)[3], 2);
    assert_eq!((lent.replied, lent.rsp_prod()), (1, 1));
    assert_eq!(lent.held, [FREE, FREE, [1, 1, 0, OKAY, 0], [2, 1, 0, OKAY, 1]]);
    assert_eq!(lent.finish(1, 0)[3], 2);
}

#[test]
fn ids_are_read_when_a_reply_leaves_and_counts_from_the_record() {
    let mut lent = Lent::new(0, 1, &with_extra([100, 101]));
    lent.take();
    lent.page[64..100].fill(0xAB);
    assert_eq!(lent.finish(0, -2)[3], 3);
    let replies = [0, 1, 2].map(|n| lent.reply(n));
    assert_eq!(replies, [[0xAB, 0xAB, 0xFE, 0xFF], [0, 0, 1, 0], [0xAB, 0xAB, 0xFE, 0xFF]]);
    assert_eq!(lent.page[68..76], [0xAB; 8]);
}

#[test]
fn the_first_free_record_is_taken() {
    let mut lent = Lent::new(0, 3, &[good(1), good(2), good(3), good(4)]);
    (0..3).for_each(|_| assert_eq!(lent.take()[0], DONE));
    lent.finish(0, 0);
    assert_eq!(lent.take()[10], 3);
    assert_eq!(lent.held.iter().map(|record| record[0]).collect::<Vec<_>>(), [3, 1, 2]);
}

#[test]
fn a_spoiled_packet_leaves_at_once_where_nothing_is_held() {
    let mut lent = Lent::new(9, 2, &[bad(10)]);
    lent.held[0] = JUNK;
    lent.page[12..16].copy_from_slice(&10_u32.to_le_bytes());
    assert_eq!(lent.take(), [7, 1, 0, 1, 1, 0, 0, 0, 0, 0, 0]);
    assert_eq!(lent.reply(9), [10, 0, 0xFF, 0xFF]);
    assert_eq!((lent.consumed, lent.replied, lent.rsp_prod()), (10, 10, 10));
    assert_eq!(lent.held, [FREE, FREE]);
}

#[test]
fn a_spoiled_packet_waits_behind_an_older_one() {
    let mut lent = Lent::new(9, 2, &[good(10), bad(11)]);
    lent.page[12..16].copy_from_slice(&11_u32.to_le_bytes());
    lent.take();
    let page = lent.page.clone();
    assert_eq!(lent.take(), [7, 1, 0, 1, 0, 0, 0, 0, 0, 0, 0]);
    assert_eq!(lent.held, [[9, 1, 0, OKAY, 0], [10, 1, 0, ERROR, 1]]);
    assert!(lent.page == page && lent.replied == 9, "a reply left out of turn");
    assert_eq!(lent.refusal(|lent| lent.finish(10, 0)), BAD_TICKET);
    assert_eq!(lent.finish(9, 0), [0, 0, 0, 2, 1, 0, 0, 0, 0, 0, 0]);
    assert_eq!([9, 10].map(|n| lent.reply(n)), [[10, 0, 0, 0], [11, 0, 0xFF, 0xFF]]);
}

#[test]
fn no_record_is_free() {
    let full = |slots: &[Slot]| {
        let mut lent = Lent::new(0, 1, &[&[good(10)], slots].concat());
        lent.take();
        lent
    };
    assert_eq!(full(&[good(11)]).refusal(Lent::take), NO_RECORD);
    assert_eq!(full(&[bad(11)]).refusal(Lent::take), NO_RECORD);
    let short = |slots: &[Slot]| Lent { frame: vec![0; 59], ..full(slots) }.refusal(Lent::take);
    assert_eq!(short(&[good(11)]), 8);
    assert_eq!(short(&[bad(11)]), NO_RECORD);
    assert_eq!(full(&[]).take()[0], 4);
    assert_eq!(full(&[slot(11, 4, 60)]).take()[0], 6);
    assert_eq!(full(&[slot(11, 8, 60), [2; 12]]).take()[0], 5);
    for slots in [[good(10)], [bad(10)]] {
        assert_eq!(Lent::new(0, 0, &slots).refusal(Lent::take), NO_RECORD);
    }
    assert_eq!(Lent::new(0, 0, &[]).take()[0], 4);
}

#[test]
fn tickets_and_statuses_that_are_refused() {
    let mut lent = Lent::new(0, 3, &[&with_extra([1, 2])[..], &[good(3)]].concat());
    assert_eq!((lent.take()[10], lent.take()[10]), (0, 3));
    lent.held[2] = JUNK;
    for ticket in [1, 2, 4, 5, 7, 255, 256, 259, u32::MAX] {
        assert_eq!(lent.refusal(|lent| lent.finish(ticket, 0)), BAD_TICKET, "ticket {ticket}");
    }
    for status in [1, 2, -3, 65_535, 65_534, 65_536, -65_536, 255, i32::MIN, i32::MAX] {
        assert_eq!(lent.refusal(|lent| lent.finish(0, status)), BAD_TICKET, "status {status}");
    }
    assert_eq!(lent.finish(3, -1)[0], DONE);
    assert_eq!(lent.refusal(|lent| lent.finish(3, -1)), BAD_TICKET);
    assert_eq!(lent.finish(0, -2)[3], 4);
    assert_eq!(lent.refusal(|lent| lent.finish(0, -2)), BAD_TICKET);
}

/// Lists with one fault each, behind the counters of replies and of slots consumed.
fn refused_lists() -> Vec<(Fault, u32, u32, Vec<HeldWords>)> {
    let record = |ticket, slots| [ticket, slots, 0, OKAY, 0];
    let packets = |count: u32| (0..count).map(|n| record(18 * n, 18)).collect::<Vec<_>>();
    vec![
        (Fault::TooLong, 0, 0, vec![FREE; 257]),
        (Fault::TooLong, 0, 1, [vec![FREE; 256], vec![record(0, 1)]].concat()),
        (Fault::TooManySlots, 0, 270, packets(15)),
        (Fault::TooManySlots, 0, 257, [packets(14), vec![record(252, 5)]].concat()),
        (Fault::TooManySlots, 1, 0, vec![]),
        (Fault::Uncovered, 0, 1, vec![]),
        (Fault::Uncovered, 0, 3, vec![record(0, 1), record(2, 1)]),
        (Fault::Uncovered, 0, 3, vec![record(1, 2)]),
        (Fault::Uncovered, u32::MAX, 2, vec![record(u32::MAX, 2)]),
        (Fault::CoveredTwice, 0, 3, vec![record(0, 2), record(1, 2)]),
        (Fault::CoveredTwice, 0, 2, vec![record(0, 2), record(0, 2)]),
        (Fault::CoveredTwice, 0, 3, vec![record(2, 1), record(0, 3)]),
        (Fault::Elsewhere, 0, 2, vec![record(0, 3)]),
        (Fault::Elsewhere, 0, 2, vec![record(0, 2), record(2, 1)]),
        (Fault::Elsewhere, 1, 3, vec![record(0, 3)]),
        (Fault::Elsewhere, 0, 0, vec![record(0, 1)]),
        (Fault::Elsewhere, 0, 1, vec![record(0, 1), record(256, 1)]),
        (Fault::BadCounts, 0, 19, vec![record(0, 19)]),
        (Fault::BadCounts, 0, 1, vec![[0, 1, 1, OKAY, 0]]),
        (Fault::BadCounts, 0, 1, vec![[0, 1, u32::MAX, OKAY, 0]]),
        (Fault::BadCounts, 0, 6, vec![[0, 6, 5, OKAY, 0]]),
        (Fault::BadCounts, 0, 23, vec![[0, 23, 4, OKAY, 0]]),
        (Fault::BadStatus, 0, 1, vec![[0, 1, 0, 1, 0]]),
        (Fault::BadStatus, 0, 1, vec![[0, 1, 0, 65_535, 0]]),
        (Fault::BadStatus, 0, 1, vec![[0, 1, 0, 65_534, 0]]),
        (Fault::BadStatus, 0, 1, vec![[0, 1, 0, 0xFFFF_FFFD, 0]]),
        (Fault::BadStatus, 0, 2, vec![record(0, 1), [1, 1, 0, 0x8000_0000, 1]]),
        (Fault::OldestFinished, 0, 1, vec![[0, 1, 0, OKAY, 1]]),
        (Fault::OldestFinished, 4, 6, vec![record(5, 1), [4, 1, 0, ERROR, 0x100]]),
    ]
}

/// Both calls refuse such lists, before what the mark and the ticket ask for.
#[test]
fn lists_that_are_refused() {
    for (fault, replied, consumed, list) in refused_lists() {
        let mut lent = Lent::with_list(replied, consumed, &list);
        assert_eq!(lent.faults(), [fault], "{list:?}");
        lent.halted = 1;
        assert_eq!(lent.refusal(Lent::take), BAD_RECORDS, "{list:?}");
        assert_eq!(lent.refusal(|lent| lent.finish(replied, 0)), BAD_RECORDS, "{list:?}");
        assert_eq!(lent.refusal(|lent| lent.finish(99, 5)), BAD_RECORDS, "{list:?}");
        lent.page.pop();
        assert_eq!(lent.refusal(Lent::take), 1, "{list:?}");
        assert_eq!(lent.refusal(|lent| lent.finish(replied, 0)), 1, "{list:?}");
    }
}

#[test]
fn lists_that_are_taken() {
    let full = (0..256).rev().map(|n| [n, 1, 0, OKAY, 0]).collect::<Vec<_>>();
    let longest = (0..11).map(|n| [22 * n, 22, 4, OKAY, 0]).chain([[242, 14, 4, DROPPED, 0]]).collect();
    let lists: [(u32, u32, Vec<HeldWords>); 7] = [
        (0, 0, vec![]),
        (3, 3, vec![JUNK; 256]),
        (0, 256, full),
        (0, 256, longest),
        (0xFFFF_FFFE, 2, vec![[0, 2, 1, ERROR, 0], JUNK, [0xFFFF_FFFE, 2, 0, DROPPED, 0]]),
        (0, 2, vec![[1, 1, 0, DROPPED, 7], [0, 1, 0, ERROR, 0]]),
        (0, 5, vec![[0, 5, 4, OKAY, 0]]),
    ];
    for (replied, consumed, list) in lists {
        let mut lent = Lent::with_list(replied, consumed, &list);
        assert_eq!(lent.faults(), [], "{list:?}");
        let finished = lent.clone().finish(replied, 0)[0];
        assert_eq!(finished, if replied == consumed { BAD_TICKET } else { DONE }, "{list:?}");
        assert_eq!(lent.take()[0], 4, "{list:?}");
    }
}

#[test]
fn a_finish_does_not_look_at_the_mark_or_at_req_prod() {
    let mut lent = Lent::new(0, 2, &[good(1), slot(2, 8, 60), [2; 12]]);
    assert_eq!([0, 1, 2].map(|_| lent.take()[0]), [DONE, 5, 2]);
    lent.set_req_prod(1000);
    assert_eq!(lent.finish(0, 0)[..4], [0, 0, 0, 1]);
    assert_eq!((lent.halted, lent.replied, lent.consumed), (1, 1, 1));
}

#[test]
fn overflow_goes_by_replies_sent() {
    let of = |req_prod| {
        let mut lent = Lent::new(0xFFFF_FFF0, 3, &[&with_extra([1, 2])[..], &[good(3); 40]].concat());
        assert_eq!(lent.take()[0], DONE);
        lent.set_req_prod(req_prod);
        let answer = lent.take()[0];
        assert_eq!(lent.halted, u32::from(answer == 3));
        answer
    };
    assert_eq!(of(0xFFFF_FFF0 + 3), 4);
    assert_eq!(of(0xFFFF_FFF0 + 4), DONE);
    assert_eq!(of(0xF0), DONE);
    for req_prod in [0xF1, 0xF3, 0xF4, 0x7FFF_FFFF, 0xFFFF_FFEF, 0xFFFF_FFF0, 0xFFFF_FFF2] {
        assert_eq!(of(req_prod), 3, "req_prod {req_prod:x}");
    }
}

/// rsp_prod stays as the guest has it where no reply leaves, and otherwise is the counter of replies.
#[test]
fn rsp_prod_is_written_with_replies_only() {
    let mut lent = Lent::new(0, 3, &[good(1), good(2), bad(3)]);
    lent.page[8..12].copy_from_slice(&77_u32.to_le_bytes());
    assert_eq!([0, 1, 2].map(|_| lent.take()[0]), [DONE, DONE, SPOILED]);
    lent.finish(1, 0);
    assert_eq!(lent.rsp_prod(), 77);
    lent.finish(0, 0);
    assert_eq!(lent.rsp_prod(), 3);
}

#[test]
fn notify_goes_by_replies_sent() {
    for (rsp_event, first, second) in [(250, 0, 0), (251, 1, 0), (252, 0, 1), (253, 0, 1), (254, 0, 0)] {
        let mut lent = Lent::new(250, 3, &[good(1), good(2), good(3)]);
        lent.page[12..16].copy_from_slice(&u32::to_le_bytes(rsp_event));
        (0..3).for_each(|_| assert_eq!(lent.take()[4], 0));
        assert_eq!(lent.finish(252, 0)[3..5], [0, 0], "rsp_event {rsp_event}");
        assert_eq!(lent.finish(250, 0)[3..5], [1, first], "rsp_event {rsp_event}");
        assert_eq!(lent.finish(251, 0)[3..5], [2, second], "rsp_event {rsp_event}");
    }
}
