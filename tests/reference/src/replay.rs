//! Replay: calls on a stored ring, one after another, with a printed line for each. FORMAT.md fixes the lines.

use super::calls::{receive_put, transmit_finish, transmit_take, Ring, Words};
use super::held::{Held, HeldWords};
use super::report::{DONE, NAMES, SPOILED};
use super::slots::OKAY;

/// Bytes of the frame buffer lent to transmit calls.
const FRAME_BUFFER: usize = 65_535;

/// The lengths of the frames delivered to a receive ring, taken in turn and over again.
const FRAME_LENGTHS: [usize; 9] = [14, 60, 1514, 4095, 4096, 4097, 8192, 9000, 65_535];

/// A ring with what is lent beside it, and the counter at which all slots consumed have their replies.
#[derive(Clone, Debug)]
pub struct Stored {
    pub name: String,
    pub ring: Ring,
    pub consumed: u32,
    pub page: Vec<u8>,
    pub grants: Vec<u8>,
    pub window: Vec<u8>,
}

/// What a ring's calls leave beside the buffers. A receive ring has one counter and no list.
struct State {
    consumed: u32,
    replied: u32,
    halted: u32,
    held: [HeldWords; 1],
}

/// A call on a stored ring.
pub struct Call {
    /// The counter before the call.
    pub consumed: u32,
    /// The report. Behind a done take, slots and notify are those of the finish.
    pub words: Words,
    /// The frame handed over or delivered.
    pub frame: Vec<u8>,
    /// Checksums of the ring page and the window after the call.
    pub page: u32,
    pub window: u32,
}

/// The lines of all calls on a ring.
pub fn lines(stored: &Stored) -> Vec<String> {
    calls(stored).iter().map(|call| line(stored, call)).collect()
}

/// Calls on a ring up to and including the first that is answered neither done nor spoiled.
pub fn calls(stored: &Stored) -> Vec<Call> {
    let mut stored = stored.clone();
    let consumed = stored.consumed;
    let mut state = State { consumed, replied: consumed, halted: 0, held: [Held::FREE.words()] };
    let mut calls = Vec::new();
    loop {
        let call = next_call(&mut stored, &mut state, calls.len());
        let last = call.words[0] != DONE && call.words[0] != SPOILED;
        calls.push(call);
        if last {
            return calls;
        }
    }
}

fn next_call(stored: &mut Stored, state: &mut State, number: usize) -> Call {
    let consumed = state.consumed;
    let (words, mut frame) = match stored.ring {
        Ring::Transmit => {
            let mut frame = vec![0; FRAME_BUFFER];
            (take_and_finish(stored, state, &mut frame), frame)
        }
        Ring::Receive => {
            let frame = delivered_frame(number);
            let Stored { page, grants, window, .. } = stored;
            (receive_put(&mut state.consumed, &mut state.halted, page, grants, window, &frame), frame)
        }
    };
    frame.truncate(words[5] as usize);
    Call { consumed, words, frame, page: fnv1a(&stored.page), window: fnv1a(&stored.window) }
}

/// A take, and where it is done a finish of its ticket at once.
fn take_and_finish(stored: &mut Stored, state: &mut State, frame: &mut [u8]) -> Words {
    let Stored { page, grants, window, .. } = stored;
    let State { consumed, replied, halted, held } = state;
    let mut words = transmit_take([consumed, replied, halted], page, grants, window, held, frame);
    if words[0] == DONE {
        let finished = transmit_finish(*consumed, replied, page, held, words[10], OKAY.into());
        words[3..5].copy_from_slice(&finished[3..5]);
    }
    words
}

/// The frame that receive call `number` of a ring delivers.
fn delivered_frame(number: usize) -> Vec<u8> {
    let length = FRAME_LENGTHS[number % FRAME_LENGTHS.len()];
    (0..length).map(|i| ((i + 7 * number + 1) % 251) as u8).collect()
}

fn line(stored: &Stored, call: &Call) -> String {
    let [answer, cause, place, slots, notify, total, blank, validated, gso_size, gso_type, _ticket] =
        call.words;
    let ring = if stored.ring == Ring::Transmit { "tx" } else { "rx" };
    let mut line = format!(
        "{} {ring} consumed {} answer {answer} {} cause {cause} place {place} slots {slots} notify {notify} \
         total {total} blank {blank} validated {validated} gso {gso_size} {gso_type} frame {:08x} page {:08x}",
        stored.name,
        call.consumed,
        NAMES[answer as usize],
        fnv1a(&call.frame),
        call.page,
    );
    if stored.ring == Ring::Receive {
        line += &format!(" window {:08x}", call.window);
    }
    line
}

/// FNV-1a in 32 bits.
pub fn fnv1a(bytes: &[u8]) -> u32 {
    bytes.iter().fold(2_166_136_261, |hash: u32, &byte| (hash ^ u32::from(byte)).wrapping_mul(16_777_619))
}
