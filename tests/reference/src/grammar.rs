//! The packet grammar, as a question about a slice of slots: is it a packet, does it begin one?

use super::slots::{data, extra, Slot};

/// The most data slots of a packet.
pub const DATA_LIMIT: usize = 18;
/// The most extras of a packet.
pub const EXTRA_LIMIT: usize = 4;
/// The most slots of a packet.
pub const LIMIT: usize = DATA_LIMIT + EXTRA_LIMIT;
/// The type that every extra has.
pub const EXTRA_KIND: u64 = 1;

/// What stands at the front of a run of slots.
#[derive(Clone, Copy, Debug, PartialEq, Eq)]
pub enum Front {
    /// A packet of so many slots.
    Packet(usize),
    /// Not all of a packet, but the first slots of one.
    Beginning,
    /// No packet, whatever may follow.
    Misshapen,
}

/// Asks of each length whether so many slots are a packet, and if none is, whether all of them begin one.
pub fn front(run: &[Slot]) -> Front {
    let longest = run.len().min(LIMIT);
    match (1..=longest).find(|&count| is_packet(&run[..count])) {
        Some(count) => Front::Packet(count),
        None if begins_packet(run) => Front::Beginning,
        None => Front::Misshapen,
    }
}

/// A run's leading packets and the rest, which has no packet at its front.
pub fn division(run: &[Slot]) -> (Vec<&[Slot]>, &[Slot]) {
    let mut packets = Vec::new();
    let mut rest = run;
    while let Front::Packet(count) = front(rest) {
        let (packet, after) = rest.split_at(count);
        packets.push(packet);
        rest = after;
    }
    (packets, rest)
}

/// Whether the slots are one packet, from the first to the last.
pub fn is_packet(slots: &[Slot]) -> bool {
    let within = |extras| slots.len() - extras <= DATA_LIMIT && extras <= EXTRA_LIMIT;
    extras_of(slots).is_some_and(within)
}

/// The number of extras with which the slots are laid out as a packet, of any length.
pub fn extras_of(slots: &[Slot]) -> Option<usize> {
    (0..slots.len()).find(|&extras| is_laid_out(slots, extras))
}

/// Whether some slots, put after these, make a packet of them. If any do, then so do an extra that ends the
/// extras, or a data slot that ends the packet, or both, or nothing: no longer end needs to be tried.
pub fn begins_packet(slots: &[Slot]) -> bool {
    let last_extra: Slot = [EXTRA_KIND as u8, 0, 0, 0, 0, 0, 0, 0, 0, 0, 0, 0];
    let last_data: Slot = [0; 12];
    let ends: [&[Slot]; 4] = [&[], &[last_extra], &[last_data], &[last_extra, last_data]];
    ends.iter().any(|end| is_packet(&[slots, end].concat()))
}

/// Whether the slots are a first data slot, so many extras, and later data slots, as their flags promise.
fn is_laid_out(slots: &[Slot], extras: usize) -> bool {
    let first = data(&slots[0]);
    let (extras, later) = slots[1..].split_at(extras);
    first.extra_follows != extras.is_empty()
        && first.more_data != later.is_empty()
        && extras.iter().all(|slot| extra(slot).kind == EXTRA_KIND)
        && all_but_last(extras, |slot| extra(slot).another_follows)
        && later.iter().all(|slot| !data(slot).extra_follows)
        && all_but_last(later, |slot| data(slot).more_data)
}

/// Whether each slot but the last promises another, and the last does not.
fn all_but_last(slots: &[Slot], promises: impl Fn(&Slot) -> bool) -> bool {
    (1..).zip(slots).all(|(number, slot)| promises(slot) == (number < slots.len()))
}
