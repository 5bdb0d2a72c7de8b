//! The question "does some continuation make a packet of these slots?", asked of every continuation, against
//! `begins_packet`, which tries four.

#![deny(warnings)]

use reference::grammar::{begins_packet, front, is_packet, Front, DATA_LIMIT, EXTRA_LIMIT, LIMIT};
use reference::slots::Slot;

/// An extra that promises another, one that does not, and a later data slot that promises another.
const EXTRA_ON: Slot = letter(3);
const EXTRA_LAST: Slot = letter(1);
const DATA_ON: Slot = letter(4);

/// A slot as the grammar sees it: bits 2 and 3 of its flags as data, type and bit 0 as an extra.
const fn letter(n: u8) -> Slot {
    [n & 1, n >> 1 & 1, 0, 0, 0, 0, n & 12, 0, 0, 0, 0, 0]
}

/// All runs of at most `length` letters.
fn runs(length: usize) -> Vec<Vec<Slot>> {
    let mut all = vec![Vec::new()];
    let mut from = 0;
    for _ in 0..length {
        let shorter = all[from..].to_vec();
        from = all.len();
        all.extend(
            shorter.iter().flat_map(|run| (0..16).map(move |n| [run.as_slice(), &[letter(n)]].concat())),
        );
    }
    all
}

/// A first slot with the given flags, then so many of one letter.
fn chain(flags: u8, repeated: Slot, count: usize) -> Vec<Slot> {
    let first = [0, 0, 0, 0, 0, 0, flags, 0, 0, 0, 0, 0];
    [vec![first], vec![repeated; count]].concat()
}

/// A first slot with so many extras, and so many later data slots that each promise another.
fn with_extras(extras: usize, later: usize) -> Vec<Slot> {
    [chain(12, EXTRA_ON, extras - 1), vec![EXTRA_LAST], vec![DATA_ON; later]].concat()
}

#[test]
fn begins_packet_means_that_some_continuation_is_one() {
    let mut fronts = vec![Vec::new()];
    for datas in 15..=DATA_LIMIT {
        fronts.extend([chain(4, DATA_ON, datas - 1), with_extras(EXTRA_LIMIT, datas - 1)]);
    }
    for extras in 1..=EXTRA_LIMIT {
        fronts.extend([chain(8, EXTRA_ON, extras), chain(12, EXTRA_ON, extras)]);
    }
    let continuations = runs(2);
    for front in fronts {
        for run in runs(2) {
            let slots = [front.as_slice(), &run].concat();
            let makes_packet = |end: &Vec<Slot>| is_packet(&[slots.as_slice(), end].concat());
            assert_eq!(begins_packet(&slots), continuations.iter().any(makes_packet), "{slots:02x?}");
        }
    }
}

#[test]
fn no_packet_begins_another() {
    for run in runs(3) {
        let lengths: Vec<usize> = (1..=run.len()).filter(|&count| is_packet(&run[..count])).collect();
        assert!(lengths.len() <= 1, "{run:02x?}");
        assert_eq!(lengths.first().map(|&count| Front::Packet(count)), packet_at_front(&run));
    }
}

fn packet_at_front(run: &[Slot]) -> Option<Front> {
    Some(front(run)).filter(|found| matches!(found, Front::Packet(_)))
}

#[test]
fn as_many_as_the_limit_allows_are_never_a_proper_beginning() {
    for flags in [4, 8, 12] {
        for repeated in [letter(3), letter(4), letter(7)] {
            let slots = chain(flags, repeated, DATA_LIMIT - 1);
            assert_ne!(front(&slots), Front::Beginning, "{slots:02x?}");
        }
    }
    for flags in [8, 12] {
        assert_eq!(front(&chain(flags, EXTRA_ON, EXTRA_LIMIT)), Front::Misshapen);
    }
    let all = with_extras(EXTRA_LIMIT, DATA_LIMIT - 1);
    assert_eq!((all.len(), front(&all)), (LIMIT, Front::Misshapen));
}
