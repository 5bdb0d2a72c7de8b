//! The generated runs reach what they are made for: each of these shapes, at least so often.

#![deny(warnings)]

use reference::grammar::{division, extras_of};
use reference::runs::{run, RUNS, SETTINGS};
use reference::slots::{data, extra, Slot, TRANSMIT_WIDTH};
use std::collections::BTreeMap;

/// Why a rest begins no packet: its slots are read as the grammar lays them out, up to the first that is wrong.
fn flaw(rest: &[Slot]) -> &'static str {
    let first = data(&rest[0]);
    let (mut another, mut more) = (first.extra_follows, first.more_data);
    let (mut extras, mut datas) = (0, 1);
    for slot in &rest[1..] {
        if another {
            if extras == 4 {
                return "five extras";
            }
            if extra(slot).kind != 1 {
                return "an extra of a wrong type";
            }
            another = extra(slot).another_follows;
            extras += 1;
        } else {
            if datas == 18 {
                return "nineteen data slots";
            }
            if data(slot).extra_follows {
                return "bit 3 on a later slot";
            }
            more = data(slot).more_data;
            datas += 1;
        }
    }
    assert!(another && extras == 4 || more && datas == 18, "these slots begin a packet");
    "announced beyond the limit in the last slot"
}

/// What a packet shows.
fn shape(packet: &[Slot]) -> &'static str {
    match (extras_of(packet).expect("a packet"), packet.len()) {
        (0, 1) => "one slot",
        (0, 18) => "eighteen data slots",
        (4, 22) => "eighteen data slots and four extras",
        (0, _) => "more data slots",
        (extras, length) if length == 1 + extras => "one data slot and extras",
        _ => "more data slots and extras",
    }
}

#[test]
fn each_shape_is_reached() {
    let mut seen = BTreeMap::new();
    for (setting, first) in SETTINGS.iter().zip((0..).step_by(RUNS as usize)) {
        for number in first..first + RUNS {
            let bytes = run(number, setting);
            if bytes.len() % TRANSMIT_WIDTH != 0 || bytes.len() > 256 * TRANSMIT_WIDTH {
                continue;
            }
            let slots: Vec<Slot> =
                bytes.chunks_exact(TRANSMIT_WIDTH).map(|slot| slot.try_into().expect("a slot")).collect();
            let (packets, rest) = division(&slots);
            packets.iter().for_each(|packet| *seen.entry(shape(packet)).or_insert(0) += 1);
            if !rest.is_empty() && !reference::grammar::begins_packet(rest) {
                *seen.entry(flaw(rest)).or_insert(0) += 1;
            }
        }
    }
    for (name, least) in [
        ("one slot", 10_000),
        ("one data slot and extras", 5_000),
        ("more data slots", 1_000),
        ("more data slots and extras", 1_000),
        ("eighteen data slots", 100),
        ("eighteen data slots and four extras", 10),
        ("an extra of a wrong type", 100),
        ("bit 3 on a later slot", 100),
        ("five extras", 100),
        ("nineteen data slots", 50),
    ] {
        assert!(seen.get(name) >= Some(&least), "{name}: {seen:?}");
    }
}
