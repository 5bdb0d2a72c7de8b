//! Generated runs of transmit slots, by the run's number and a setting. FORMAT.md describes them.

use super::slots::{Slot, TRANSMIT_WIDTH};

/// Runs of each setting.
pub const RUNS: u64 = 512;

/// A setting of the generator.
pub struct Setting {
    pub name: &'static str,
    /// The most later data slots and the most extras that a packet is given.
    pub later: u64,
    pub extras: u64,
    /// How many slots in 256 stay as drawn.
    pub flaws: u64,
}

/// The settings in their order. Their runs are numbered on from one to the next.
pub const SETTINGS: [Setting; 7] = [
    Setting { name: "singles", later: 0, extras: 0, flaws: 0 },
    Setting { name: "extras", later: 0, extras: 4, flaws: 0 },
    Setting { name: "data", later: 17, extras: 0, flaws: 0 },
    Setting { name: "both", later: 17, extras: 4, flaws: 0 },
    Setting { name: "over", later: 18, extras: 5, flaws: 0 },
    Setting { name: "flawed", later: 17, extras: 4, flaws: 4 },
    Setting { name: "free", later: 17, extras: 4, flaws: 256 },
];

/// The sequence of drawn numbers, at the one drawn last.
struct Draws(u64);

impl Draws {
    fn next(&mut self) -> u64 {
        self.0 = self.0 * 48_271 % 2_147_483_647;
        self.0
    }

    /// A drawn number as a count from 0 to `most`.
    fn share(&mut self, most: u64) -> u64 {
        match self.next() % (2 * most + 1) {
            drawn if drawn < most => drawn + 1,
            _ => 0,
        }
    }

    /// Twelve bytes, of which the first is at most 3.
    fn slot(&mut self) -> Slot {
        let words = [self.next(), self.next(), self.next()];
        let mut slot: Slot = [0; TRANSMIT_WIDTH];
        for (bytes, word) in slot.chunks_exact_mut(4).zip(words) {
            bytes.copy_from_slice(&(word as u32).to_le_bytes());
        }
        slot[0] &= 3;
        slot
    }
}

/// What the slot to be laid is.
enum Place {
    First { extra: bool, more: bool },
    Extra { another: bool },
    Later { more: bool },
}

/// The bytes of run `number`.
pub fn run(number: u64, setting: &Setting) -> Vec<u8> {
    let mut draws = Draws(number + 1);
    draws.next();
    let length = length(number, draws.next());
    let mut bytes = Vec::new();
    let mut owed = Vec::new();
    for _ in 0..length / TRANSMIT_WIDTH {
        let mut slot = draws.slot();
        let sound = draws.next() % 256 >= setting.flaws;
        if owed.is_empty() {
            owed = packet(draws.share(setting.extras), draws.share(setting.later));
        }
        let place = owed.remove(0);
        if sound {
            lay(&mut slot, &place);
        }
        bytes.extend(slot);
    }
    bytes.resize(length, 0);
    bytes
}

/// The bytes of a run: no slot, 256, 257, a part of a slot at the end, or any whole slots up to 256.
fn length(number: u64, drawn: u64) -> usize {
    let slots = drawn % 257;
    let bytes = match number % 16 {
        0 => 0,
        1 => 12 * 256,
        2 => 12 * 257,
        3 => 12 * slots + 1 + drawn % 11,
        _ => 12 * slots,
    };
    bytes as usize
}

/// The places of a packet of so many extras and later data slots.
fn packet(extras: u64, later: u64) -> Vec<Place> {
    let mut places = vec![Place::First { extra: extras > 0, more: later > 0 }];
    places.extend((1..=extras).map(|number| Place::Extra { another: number < extras }));
    places.extend((1..=later).map(|number| Place::Later { more: number < later }));
    places
}

/// Makes a drawn slot what stands at a place: every bit that the place does not name stays.
fn lay(slot: &mut Slot, place: &Place) {
    match *place {
        Place::First { extra, more } => slot[6] = slot[6] & !12 | u8::from(more) << 2 | u8::from(extra) << 3,
        Place::Later { more } => slot[6] = slot[6] & !12 | u8::from(more) << 2,
        Place::Extra { another } => {
            slot[0] = 1;
            slot[1] = slot[1] & !1 | u8::from(another);
        }
    }
}
