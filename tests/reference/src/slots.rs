//! Slot layouts: what the guest posts and what it gets back.

use super::words::{bit, number};

/// Bytes of a slot on the transmit ring.
pub const TRANSMIT_WIDTH: usize = 12;
/// Bytes of a slot on the receive ring.
pub const RECEIVE_WIDTH: usize = 8;

/// A transmit slot as it stands on the ring. Whether it is a data slot or an extra is for the grammar to say.
pub type Slot = [u8; TRANSMIT_WIDTH];

pub const OKAY: i16 = 0;
pub const ERROR: i16 = -1;
pub const DROPPED: i16 = -2;
pub const NULL: i16 = 1;

/// Receive reply flag: another piece of the frame follows.
pub const MORE_DATA: u16 = 4;

#[derive(Clone, Copy, Debug, PartialEq, Eq)]
pub struct Data {
    pub gref: u64,
    pub offset: u64,
    pub id: u16,
    pub size: u64,
    pub checksum_blank: bool,
    pub data_validated: bool,
    pub more_data: bool,
    pub extra_follows: bool,
}

/// A slot read as a data slot.
pub fn data(slot: &Slot) -> Data {
    let flags = number(slot, 6, 2);
    Data {
        gref: number(slot, 0, 4),
        offset: number(slot, 4, 2),
        id: number(slot, 8, 2) as u16,
        size: number(slot, 10, 2),
        checksum_blank: bit(flags, 0),
        data_validated: bit(flags, 1),
        more_data: bit(flags, 2),
        extra_follows: bit(flags, 3),
    }
}

/// The bytes of a data slot. Bits of the flags that have no name are 0.
pub fn data_bytes(data: &Data) -> Slot {
    let bits = [data.checksum_blank, data.data_validated, data.more_data, data.extra_follows];
    let flags: u64 = [1, 2, 4, 8].into_iter().zip(bits).map(|(value, bit)| value * u64::from(bit)).sum();
    let mut slot = [0; TRANSMIT_WIDTH];
    slot[..4].copy_from_slice(&data.gref.to_le_bytes()[..4]);
    for (at, field) in (4..).step_by(2).zip([data.offset, flags, data.id.into(), data.size]) {
        slot[at..at + 2].copy_from_slice(&field.to_le_bytes()[..2]);
    }
    slot
}

#[derive(Clone, Copy, Debug, PartialEq, Eq)]
pub struct Extra {
    pub kind: u64,
    pub another_follows: bool,
    pub gso_size: u64,
    pub gso_type: u64,
}

/// A slot read as an extra.
pub fn extra(slot: &Slot) -> Extra {
    Extra {
        kind: number(slot, 0, 1),
        another_follows: bit(number(slot, 1, 1), 0),
        gso_size: number(slot, 2, 2),
        gso_type: number(slot, 4, 1),
    }
}

/// Whether cause 6 lets a gso size and type pass.
pub fn gso_passes(size: u64, kind: u64) -> bool {
    size != 0 && (1..=2).contains(&kind)
}

/// The bytes of an extra. Its pad, its features and the bytes that no field has are 0.
pub fn extra_bytes(extra: &Extra) -> Slot {
    let [low, high, ..] = extra.gso_size.to_le_bytes();
    let flags = u8::from(extra.another_follows);
    [extra.kind as u8, flags, low, high, extra.gso_type as u8, 0, 0, 0, 0, 0, 0, 0]
}

/// The reply to a transmit slot. The slot's other 8 bytes stay.
pub fn transmit_reply(id: u16, status: i16) -> Vec<u8> {
    [id.to_le_bytes(), status.to_le_bytes()].concat()
}

#[derive(Clone, Copy, Debug)]
pub struct Request {
    pub id: u16,
    pub gref: u64,
}

/// A receive request.
pub fn request(slot: &[u8; RECEIVE_WIDTH]) -> Request {
    Request { id: number(slot, 0, 2) as u16, gref: number(slot, 4, 4) }
}

/// The reply to a receive request. Its offset is always 0.
pub fn receive_reply(id: u16, flags: u16, status: i16) -> Vec<u8> {
    [id.to_le_bytes(), [0, 0], flags.to_le_bytes(), status.to_le_bytes()].concat()
}
