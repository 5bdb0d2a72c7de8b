//! The grammar by enumeration: every run of up to four slots, and every shape of up to twenty-four.

use crate::bytes::{put_u16, put_u32};
use crate::case::{Call, Case, State, REFERENCE};
use crate::cases::check;
use crate::crash::{self, Phase};
use crate::guest::Guest;
use crate::lending::Lending;
use crate::library::Library;
use crate::packet::{Packet, Shape};
use crate::random::Random;
use reference::grammar::LIMIT;
use reference::grants::whole_page_bytes;
use reference::slots::Slot;

/// The longest run of which every combination of slots is tried.
const LONGEST_RUN: u32 = 4;
/// The most slots of a shape: two more than a packet may have.
const LONGEST_SHAPE: usize = LIMIT + 2;

/// Checks all runs and shapes, and gives their number.
pub fn check_all(library: &mut Library) -> Result<u64, String> {
    let lengths = 1..=LONGEST_RUN;
    let runs =
        lengths.flat_map(|length| (0..16_u32.pow(length)).map(move |number| short_run(number, length)));
    let cuts = shapes().into_iter().flat_map(|shape| (1..=shape.slots()).map(move |posted| (shape, posted)));
    let cases = runs.chain(cuts.map(|(shape, posted)| shape_case(shape, posted)));
    let mut checked = 0;
    for case in cases {
        crash::note(Phase::Grammar, checked);
        check(library, &REFERENCE, &case)
            .map_err(|difference| format!("grammar run {checked}: {difference}\n{case}"))?;
        checked += 1;
    }
    Ok(checked)
}

/// Run `number` of a length, a hexadecimal digit for each slot: what the grammar sees of a slot are bits 2 and 3
/// of its flags as data, and as an extra bit 0 of its flags and whether its type is 1.
fn short_run(number: u32, length: u32) -> Case {
    let mut page = vec![0; 4096];
    put_u32(&mut page, 0, length);
    for place in 0..length {
        let digit = (number >> (4 * place) & 15) as u8;
        let at = 64 + 12 * place as usize;
        page[at] = if digit & 1 == 1 { 1 } else { (place % 2) as u8 * 2 };
        page[at + 1] = digit >> 1 & 1;
        page[at + 6] = digit & 12;
        put_u16(&mut page, at + 8, 100 + place as u16);
        put_u16(&mut page, at + 10, if place == 0 { 60 } else { 1 });
    }
    let grants = whole_page_bytes(3).repeat(512);
    let (window, held, frame) = (vec![0x77; 4096], vec![[0; 5]], vec![0x11; 64]);
    let before = State { consumed: 0, replied: 0, halted: 0, page, grants, window, held, frame };
    Case { call: Call::Take, before }
}

/// Every shape of up to twenty-four slots.
fn shapes() -> Vec<Shape> {
    let mut shapes = Vec::new();
    for slots in 1..=LONGEST_SHAPE {
        for extras in 0..slots {
            for promises in 0..8 {
                let bit = |k: u32| promises >> k & 1 == 1;
                let later = slots - 1 - extras;
                let (more, extras_end, later_end) = (bit(0), bit(1), bit(2));
                shapes.push(Shape { extras, later, more, extras_end, later_end });
            }
        }
    }
    shapes
}

/// A shape of which `posted` slots are posted, with fields as in the generated cases.
fn shape_case(shape: Shape, posted: usize) -> Case {
    let random = &Random::new(shape.slots() as u64, posted as u64);
    let guest = Guest::new(random, 2);
    let slots: Vec<Slot> = Packet::new(random, &guest, shape).slots;
    Lending::new(random, guest, posted, 65_535).case(random, Call::Take, &slots)
}
