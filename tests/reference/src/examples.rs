//! Document 01's examples that are run and not proved, as rings. FORMAT.md describes them.

use super::calls::Ring;
use super::grants::whole_page_bytes;
use super::replay::Stored;
use super::ring::{slot_at, PAGE_BYTES};
use super::slots::{Slot, TRANSMIT_WIDTH};

/// Pages of the window, and references of the grant table: reference g names the whole of page g.
const PAGES: usize = 18;

/// The examples in the order in which they are replayed.
pub fn all() -> Vec<Stored> {
    let singles: Vec<Slot> = (0..256).map(|k| data(k, 100, 0, 60)).collect();
    let parts = [data(0, 596, 4, 5000), data(1, 0, 4, 1000), data(2, 0, 0, 500)];
    let mut eighteen: Vec<Slot> = (0..18).map(|k| data(k, 0, 4, if k == 0 { 1760 } else { 100 })).collect();
    let more = eighteen.clone();
    eighteen[17] = data(17, 0, 0, 100);
    vec![
        ring("posted-256", 4_294_967_290, 256, &singles),
        ring("posted-257", 4_294_967_290, 257, &singles),
        ring("eighteen-slots", 250, 18, &eighteen),
        ring("eighteen-slots-more", 250, 18, &more),
        ring("offset-596", 0, 3, &parts),
        ring("total-14", 0, 1, &[data(0, 0, 0, 14)]),
        ring("extra-type-0", 0, 2, &[data(0, 0, 8, 60), extra(0)]),
        ring("extra-type-2", 0, 2, &[data(0, 0, 8, 60), extra(2)]),
    ]
}

/// A transmit ring with the slots from the counter on, and every other byte of its page 0 but the header's.
fn ring(name: &str, consumed: u32, posted: u32, slots: &[Slot]) -> Stored {
    let mut page = vec![0; PAGE_BYTES];
    let next = consumed.wrapping_add(1);
    let header = [consumed.wrapping_add(posted), next, consumed, next];
    for (at, word) in (0..).step_by(4).zip(header) {
        page[at..at + 4].copy_from_slice(&word.to_le_bytes());
    }
    for (n, slot) in (u64::from(consumed)..).zip(slots) {
        let at = slot_at(TRANSMIT_WIDTH, n);
        page[at..at + TRANSMIT_WIDTH].copy_from_slice(slot);
    }
    Stored {
        name: name.to_string(),
        ring: Ring::Transmit,
        consumed,
        page,
        grants: (0..PAGES as u32).flat_map(|g| whole_page_bytes(4 * g + 3)).collect(),
        window: (0..PAGES * PAGE_BYTES).map(|i| (i % 251) as u8).collect(),
    }
}

/// Data slot k of an example.
fn data(k: u16, offset: u16, flags: u16, size: u16) -> Slot {
    let mut slot = [0; TRANSMIT_WIDTH];
    let fields = [k % PAGES as u16, 0, offset, flags, 1000 + k, size];
    for (at, field) in (0..).step_by(2).zip(fields) {
        slot[at..at + 2].copy_from_slice(&field.to_le_bytes());
    }
    slot
}

/// An extra of a type, with gso size 1460 and gso type 1.
fn extra(kind: u8) -> Slot {
    [kind, 0, 0xB4, 0x05, 1, 0, 0, 0, 0, 0, 0, 0]
}
