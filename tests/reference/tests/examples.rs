//! Document 01's examples and traps, asked of the second program.

#![deny(warnings)]

use reference::calls::{receive_put, transmit_finish, transmit_take, Words};
use reference::grammar::{begins_packet, division, front, Front};
use reference::grants::whole_page_bytes;
use reference::held::HeldWords;
use reference::replay::fnv1a;
use reference::slots::{data, extra, Slot};
use reference::words::number;

const MORE: u16 = 4;
const EXTRA: u16 = 8;

/// Answer, cause and place of a packet that is done, and of one whose slot in place 1 is not fit or not in its range.
const DONE: [u32; 3] = [0, 0, 0];
const UNFIT: [u32; 3] = [7, 4, 1];
const OUTSIDE: [u32; 3] = [7, 5, 1];

/// What a call is lent: a ring with a window of four pages, page p full of the byte p + 1; reference g names the whole
/// of page g, all writable but 3. All of 16 records are free.
struct Lent {
    consumed: u32,
    replied: u32,
    halted: u32,
    page: Vec<u8>,
    grants: Vec<u8>,
    window: Vec<u8>,
    held: Vec<HeldWords>,
    frame: Vec<u8>,
}

impl Lent {
    fn new(consumed: u32, posted: u32) -> Lent {
        let mut page = vec![0; 4096];
        page[..4].copy_from_slice(&consumed.wrapping_add(posted).to_le_bytes());
        page[8..12].copy_from_slice(&consumed.to_le_bytes());
        let grants = [0x03, 0x07, 0x0B, 0x0D].into_iter().flat_map(whole_page_bytes).collect();
        let window = (0..4 * 4096).map(|i| (i / 4096 + 1) as u8).collect();
        let (held, frame) = (vec![[0; 5]; 16], vec![0xEE; 65_535]);
        Lent { consumed, replied: consumed, halted: 0, page, grants, window, held, frame }
    }

    fn with_slots(consumed: u32, slots: &[Slot]) -> Lent {
        let mut lent = Lent::new(consumed, slots.len() as u32);
        for (n, slot) in (u64::from(consumed)..).zip(slots) {
            let at = 64 + (n % 256) as usize * 12;
            lent.page[at..at + 12].copy_from_slice(slot);
        }
        lent
    }

    fn with_requests(ids_and_grefs: &[(u16, u32)]) -> Lent {
        let mut lent = Lent::new(0, ids_and_grefs.len() as u32);
        for (n, (id, gref)) in ids_and_grefs.iter().enumerate() {
            let at = 64 + n * 8;
            lent.page[at..at + 2].copy_from_slice(&id.to_le_bytes());
            lent.page[at + 4..at + 8].copy_from_slice(&gref.to_le_bytes());
        }
        lent
    }

    /// Gives the grant of reference 1 another range.
    fn share(&mut self, (start, length): (u16, u16)) {
        self.grants[12..14].copy_from_slice(&start.to_le_bytes());
        self.grants[14..16].copy_from_slice(&length.to_le_bytes());
    }

    fn take(&mut self) -> Words {
        let Lent { consumed, replied, halted, page, grants, window, held, frame } = self;
        transmit_take([consumed, replied, halted], page, grants, window, held, frame)
    }

    /// Finishes a ticket with okay.
    fn finish(&mut self, ticket: u32) -> Words {
        let Lent { consumed, replied, page, held, .. } = self;
        transmit_finish(*consumed, replied, page, held, ticket, 0)
    }

    fn put(&mut self, length: usize) -> Words {
        let Lent { consumed, halted, page, grants, window, .. } = self;
        let frame: Vec<u8> = (0..length).map(|i| (i / 4096 + 101) as u8).collect();
        receive_put(consumed, halted, page, grants, window, &frame)
    }
}

fn slot(gref: u32, offset: u16, flags: u16, id: u16, size: u16) -> Slot {
    let mut slot = [0; 12];
    slot[..4].copy_from_slice(&gref.to_le_bytes());
    for (at, field) in (4..).step_by(2).zip([offset, flags, id, size]) {
        slot[at..at + 2].copy_from_slice(&field.to_le_bytes());
    }
    slot
}

/// Data slots with sizes and flags, all from offset 0 of page 0.
fn sized(sizes_and_flags: &[(u16, u16)]) -> Vec<Slot> {
    sizes_and_flags.iter().map(|&(size, flags)| slot(0, 0, flags, 7, size)).collect()
}

/// An extra with gso size 1460 and gso type 1, of a type and with extra flags.
fn gso(kind: u8, flags: u8) -> Slot {
    [kind, flags, 0xB4, 0x05, 1, 0, 0, 0, 0x11, 0x22, 0x33, 0x44]
}

/// The verdict on a packet whose slot in place 1 gives a part from an offset of a page with a range.
fn in_range(range: (u16, u16), offset: u16, part: u16) -> [u32; 3] {
    let mut lent = Lent::with_slots(0, &[slot(0, 0, MORE, 1, 60 + part), slot(1, offset, 0, 2, part)]);
    lent.share(range);
    verdict(lent.take())
}

/// Answer, cause and place.
fn verdict(words: Words) -> [u32; 3] {
    [words[0], words[1], words[2]]
}

#[test]
fn one_slot_is_read_and_replied_to() {
    let bytes: Slot = [3, 0, 0, 0, 0x64, 0, 0, 0, 7, 0, 0x3C, 0];
    let read = data(&bytes);
    assert_eq!((read.gref, read.offset, read.id, read.size), (3, 100, 7, 60));
    let mut good = Lent::with_slots(0, &[bytes]);
    assert_eq!(good.take(), [0, 0, 0, 1, 0, 60, 0, 0, 0, 0, 0]);
    assert_eq!(good.page[64..76], bytes);
    assert_eq!(good.finish(0), [0, 0, 0, 1, 0, 0, 0, 0, 0, 0, 0]);
    assert_eq!(good.page[64..68], [7, 0, 0, 0]);
    assert_eq!(good.page[68..76], bytes[4..]);
    assert_eq!(good.frame[..61], [[4; 60].as_slice(), &[0xEE]].concat());
    let mut unfit = Lent::with_slots(0, &[slot(4, 100, 0, 7, 60)]);
    assert_eq!(unfit.take(), [7, 4, 0, 1, 0, 0, 0, 0, 0, 0, 0]);
    assert_eq!(unfit.page[64..68], [7, 0, 0xFF, 0xFF]);
}

#[test]
fn first_part_is_what_the_later_sizes_leave() {
    let packet = |offset| [slot(0, offset, MORE, 1, 5000), slot(1, 0, MORE, 2, 1000), slot(2, 0, 0, 3, 500)];
    let mut lent = Lent::with_slots(0, &packet(596));
    assert_eq!(verdict(lent.take()), [0, 0, 0]);
    assert_eq!(lent.frame[..5000], [vec![1; 3500], vec![2; 1000], vec![3; 500]].concat());
    assert_eq!(verdict(Lent::with_slots(0, &packet(597)).take()), [7, 5, 0]);
}

#[test]
fn totals_and_sums() {
    let of = |slots: &[(u16, u16)]| verdict(Lent::with_slots(0, &sized(slots)).take());
    assert_eq!(of(&[(13, 0)]), [7, 1, 0]);
    assert_eq!(of(&[(14, 0)]), [0, 0, 0]);
    assert_eq!(of(&[(100, MORE), (100, 0)]), [0, 0, 0]);
    assert_eq!(of(&[(100, MORE), (101, 0)]), [7, 3, 0]);
    assert_eq!(of(&[(13, MORE), (100, 0)]), [7, 1, 0]);
    assert_eq!(of(&[(65_535, 0)]), [7, 5, 0]);
}

#[test]
fn a_part_lies_in_the_range() {
    let shared = (100, 60);
    assert_eq!(in_range(shared, 100, 60), DONE);
    assert_eq!(in_range(shared, 101, 59), DONE);
    for (offset, part) in [(99, 60), (99, 1), (100, 61), (101, 60), (160, 1), (0, 60), (65_535, 60)] {
        assert_eq!(in_range(shared, offset, part), OUTSIDE, "{part} bytes from {offset}");
    }
    assert_eq!(in_range((0, 4095), 4094, 1), DONE);
    assert_eq!(in_range((0, 4095), 4095, 1), OUTSIDE);
}

#[test]
fn the_offset_of_an_empty_part_is_tested() {
    for (start, length) in [(100, 60), (100, 0), (4096, 0), (1, 4095)] {
        let end = start + length;
        assert_eq!(in_range((start, length), start, 0), DONE, "start {start}");
        assert_eq!(in_range((start, length), start - 1, 0), OUTSIDE, "start {start}");
        assert_eq!(in_range((start, length), end, 0), DONE, "end {end}");
        assert_eq!(in_range((start, length), end + 1, 0), OUTSIDE, "end {end}");
    }
    assert_eq!(in_range((0, 0), 0, 0), DONE);
    assert_eq!(in_range((0, 0), 0, 1), OUTSIDE);
}

/// Start plus length is at most 4096 in whole numbers, and a range of which that is not so is cause 4 wherever the
/// part lies.
#[test]
fn a_range_lies_in_the_page() {
    for (start, length) in [(0, 4096), (1, 4095), (4095, 1), (4096, 0)] {
        assert_eq!(in_range((start, length), start, length.min(1)), DONE, "{length} bytes from {start}");
    }
    let beyond = [(0, 4097), (1, 4096), (4096, 1), (4097, 0), (65_535, 1), (100, 65_500), (65_535, 65_535)];
    for range in beyond {
        for offset in [range.0, 0, 100] {
            assert_eq!(in_range(range, offset, 0), UNFIT, "{range:?}, offset {offset}");
        }
    }
}

#[test]
fn offsets_count_from_the_pages_first_byte() {
    let mut lent = Lent::with_slots(0, &[slot(1, 110, 0, 7, 14)]);
    lent.share((100, 60));
    lent.window = (0..4 * 4096).map(|i| (i % 251) as u8).collect();
    assert_eq!(verdict(lent.take()), DONE);
    assert_eq!(lent.frame[..14], lent.window[4096 + 110..4096 + 124]);
}

#[test]
fn slot_by_slot_the_grant_before_the_range() {
    let of = |first, second| {
        let mut lent = Lent::with_slots(0, &[slot(first, 0, MORE, 1, 60), slot(second, 0, 0, 2, 1)]);
        lent.share((1, 4095));
        verdict(lent.take())
    };
    assert_eq!(of(1, 4), [7, 5, 0]);
    assert_eq!(of(4, 1), [7, 4, 0]);
    assert_eq!(of(0, 1), OUTSIDE);
}

#[test]
fn a_word_is_eight_bytes_of_the_table() {
    let of = |bytes: usize, gref| {
        let mut lent = Lent::with_slots(0, &[slot(gref, 0, 0, 7, 60)]);
        lent.grants.extend(whole_page_bytes(0x03));
        lent.grants.truncate(bytes);
        verdict(lent.take())
    };
    for spare in 0..8 {
        assert_eq!(of(32 + spare, 3), DONE, "{spare} bytes behind the last word");
        assert_eq!(of(32 + spare, 4), [7, 4, 0], "{spare} bytes of a word");
    }
    assert_eq!(of(40, 4), DONE);
    for gref in [0x1FFF_FFFF, 0x2000_0000, 0x4000_0000, 0xE000_0000, u32::MAX] {
        assert_eq!(of(40, gref), [7, 4, 0], "reference {gref}");
    }
}

#[test]
fn posted_runs_through_the_wrap() {
    let slots = sized(&[(60, 0); 12]);
    let mut lent = Lent::with_slots(4_294_967_290, &slots);
    assert_eq!(number(&lent.page, 0, 4), 6);
    for _ in 0..12 {
        assert_eq!(verdict(lent.take()), [0, 0, 0]);
    }
    assert_eq!((lent.take()[0], lent.consumed), (4, 6));
    assert_eq!(number(&lent.page, 4, 4), 7);
}

#[test]
fn posted_256_is_taken_and_257_is_not() {
    let mut full = Lent::with_slots(0, &sized(&[(60, 0); 256]));
    assert_eq!(full.take()[0], 0);
    let mut over = Lent::with_slots(0, &sized(&[(60, 0); 257]));
    let before = over.page.clone();
    assert_eq!((over.take()[0], over.halted, over.take()[0]), (3, 1, 2));
    assert_eq!(over.page, before);
}

#[test]
fn notify_from_250_to_253() {
    for (rsp_event, notify) in [(250_u32, 0), (251, 1), (253, 1), (254, 0)] {
        let mut lent = Lent::with_slots(250, &sized(&[(60, MORE), (1, MORE), (1, 0)]));
        lent.page[12..16].copy_from_slice(&rsp_event.to_le_bytes());
        assert_eq!(lent.take()[3..5], [3, 0], "rsp_event {rsp_event}");
        assert_eq!(number(&lent.page, 8, 4), 250);
        assert_eq!(lent.finish(250)[3..5], [3, notify], "rsp_event {rsp_event}");
        assert_eq!(number(&lent.page, 8, 4), 253);
    }
}

#[test]
fn an_extra_asks_for_gso() {
    let read = extra(&gso(1, 0));
    assert_eq!((read.gso_size, read.gso_type), (1460, 1));
    let mut lent = Lent::with_slots(0, &[slot(0, 0, EXTRA | 3, 5, 60), gso(1, 0)]);
    assert_eq!(lent.take(), [0, 0, 0, 2, 0, 60, 1, 1, 1460, 1, 0]);
    assert_eq!(lent.finish(0)[3], 2);
    assert_eq!(lent.page[76..80], [0, 0, 1, 0]);
    for kind in [0, 2] {
        assert_eq!(front(&[slot(0, 0, EXTRA, 5, 60), gso(kind, 0)]), Front::Misshapen);
    }
}

#[test]
fn eighteen_data_slots_and_no_more() {
    let mut slots = sized(&[(100, MORE); 18]);
    assert_eq!(front(&slots), Front::Misshapen);
    assert_eq!(front(&slots[..17]), Front::Beginning);
    slots[17] = slot(0, 0, 0, 7, 0);
    assert_eq!(front(&slots), Front::Packet(18));
    slots[17] = slot(0, 0, MORE, 7, 0);
    slots.push(slot(0, 0, 0, 7, 0));
    assert_eq!(front(&slots), Front::Misshapen);
}

#[test]
fn four_extras_and_no_more() {
    for flags in [EXTRA, EXTRA | MORE] {
        let chain = [vec![slot(0, 0, flags, 7, 60)], vec![gso(1, 1); 4], vec![gso(1, 0)]].concat();
        assert!(begins_packet(&chain[..4]));
        assert!(!begins_packet(&chain[..5]));
        assert_eq!(front(&chain), Front::Misshapen);
    }
    let four = [vec![slot(0, 0, EXTRA, 7, 60)], vec![gso(1, 1); 3], vec![gso(1, 0)]].concat();
    assert_eq!(front(&four), Front::Packet(5));
}

#[test]
fn eighteen_data_slots_with_extras() {
    for extras in [1, 4] {
        let first = [vec![slot(0, 0, EXTRA | MORE, 7, 60)], vec![gso(1, 1); extras - 1], vec![gso(1, 0)]];
        let mut slots = [first.concat(), sized(&[(0, MORE); 16]), sized(&[(0, 0)])].concat();
        assert_eq!(front(&slots), Front::Packet(18 + extras));
        assert_eq!(verdict(Lent::with_slots(0, &slots).take()), [0, 0, 0]);
        assert_eq!(front(&slots[..17 + extras]), Front::Beginning);
        slots[17 + extras] = slot(0, 0, MORE, 7, 0);
        assert_eq!(front(&slots), Front::Misshapen);
    }
}

#[test]
fn a_run_is_divided_into_packets_and_a_rest() {
    let run = [sized(&[(60, 0), (60, MORE), (1, 0), (60, MORE)]), vec![slot(0, 0, EXTRA, 7, 1)]].concat();
    let (packets, rest) = division(&run[..4]);
    assert_eq!(packets.iter().map(|packet| packet.len()).collect::<Vec<_>>(), [1, 2]);
    assert!(rest.len() == 1 && begins_packet(rest));
    assert!(!begins_packet(division(&run).1));
}

#[test]
fn receive_replies_and_pieces() {
    let mut one = Lent::with_requests(&[(9, 0)]);
    assert_eq!(one.put(4096), [0, 0, 0, 1, 0, 4096, 0, 0, 0, 0, 0]);
    assert_eq!(one.page[64..72], [9, 0, 0, 0, 0, 0, 0, 0x10]);
    let mut two = Lent::with_requests(&[(9, 0), (10, 2)]);
    assert_eq!(two.put(4097)[..4], [0, 0, 0, 2]);
    assert_eq!(two.page[64..80], [9, 0, 0, 0, 4, 0, 0, 0x10, 10, 0, 0, 0, 0, 0, 1, 0]);
    assert_eq!(two.window[2 * 4096..2 * 4096 + 2], [102, 3]);
    let mut read_only = Lent::with_requests(&[(9, 0), (10, 3)]);
    assert_eq!(verdict(read_only.put(4097)), [7, 4, 1]);
    assert_eq!(read_only.page[64..80], [9, 0, 0, 0, 0, 0, 0xFF, 0xFF, 10, 0, 0, 0, 0, 0, 0xFF, 0xFF]);
    assert_eq!(read_only.window, Lent::new(0, 0).window);
}

/// Even for a last piece that the range would take.
#[test]
fn receive_wants_the_whole_page_to_write() {
    let of = |gref, range| {
        let mut lent = Lent::with_requests(&[(9, 0), (10, gref)]);
        lent.share(range);
        verdict(lent.put(4096 + 60))
    };
    assert_eq!(of(1, (0, 4096)), DONE);
    for range in [(0, 4095), (1, 4095), (0, 60), (0, 0), (1, 4096), (0, 4097), (0, 65_535)] {
        assert_eq!(of(1, range), UNFIT, "{range:?}");
    }
    assert_eq!(of(3, (0, 4096)), UNFIT);
}

#[test]
fn receive_order_of_refusals() {
    let of = |halted, length| {
        let mut lent = Lent { halted, ..Lent::with_requests(&[(9, 4)]) };
        verdict(lent.put(length))
    };
    assert_eq!(of(2, 13), [9, 0, 0]);
    assert_eq!(of(2, 65_536), [9, 0, 0]);
    assert_eq!(of(2, 14), [2, 0, 0]);
    assert_eq!(of(0, 4097), [10, 0, 0]);
    assert_eq!(of(0, 14), [7, 4, 0]);
}

/// Two requests for one page: the later write stands, and the earlier one's bytes behind it stay.
#[test]
fn the_later_write_stands() {
    let mut lent = Lent::with_requests(&[(1, 0), (2, 0), (3, 0)]);
    assert_eq!(lent.put(9000)[0], 0);
    assert_eq!(lent.window[..4096], [vec![103; 808], vec![102; 3288]].concat());
}

#[test]
fn waiting_whatever_cause_shows_already() {
    let mut lent = Lent::with_slots(0, &[slot(99, 0, MORE, 7, 13)]);
    assert_eq!(lent.take()[0], 6);
    assert_eq!(number(&lent.page, 4, 4), 2);
}

#[test]
fn no_room_changes_nothing_and_spoiled_goes_before() {
    let mut short = Lent::with_slots(0, &sized(&[(60, 0)]));
    short.frame.truncate(59);
    let before = short.page.clone();
    assert_eq!(short.take(), [8, 0, 0, 0, 0, 0, 0, 0, 0, 0, 0]);
    assert_eq!((short.page, short.consumed), (before, 0));
    let mut spoiled = Lent::with_slots(0, &[slot(4, 0, 0, 7, 60)]);
    spoiled.frame.clear();
    assert_eq!(verdict(spoiled.take()), [7, 4, 0]);
}

#[test]
fn checksums_of_known_bytes() {
    assert_eq!(fnv1a(b""), 0x811c_9dc5);
    assert_eq!(fnv1a(b"a"), 0xe40c_292c);
    assert_eq!(fnv1a(b"foobar"), 0xbf9c_f968);
}
