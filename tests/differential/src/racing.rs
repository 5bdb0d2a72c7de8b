//! A guest that rewrites the ring page while the library reads it. Document 01 rules this out; a host that lends
//! the live page must still not be harmed: nothing outside the buffers is touched, and every call ends.

use crate::case::Call;
use crate::coverage::Answers;
use crate::guarded::{Guarded, Placed, Placement};
use crate::library::{call, refuse_reserved, Parameters};
use crate::random::Random;
use crate::records::STATUSES;
use reference::calls::Ring;
use reference::grammar::{DATA_LIMIT, LIMIT};
use reference::grants::word_bytes;
use reference::held::HeldWords;
use reference::report::{DONE, NAMES, NO_RECORD, SPOILED};
use reference::ring::{slot_at, PAGE_BYTES};
use reference::slots::{RECEIVE_WIDTH, TRANSMIT_WIDTH};
use std::sync::atomic::{AtomicBool, AtomicU16, AtomicU32, AtomicU64, Ordering::Relaxed};
use std::thread;
use std::time::{Duration, Instant};

/// A call that has not ended after so long never will.
const CALL_TIMEOUT: Duration = Duration::from_secs(10);
/// Slots from the counter on that are posted and rewritten: all that a call reads.
const RACED_SLOTS: usize = LIMIT + 2;
/// Slots before the counter that are rewritten too on a transmit ring: those of held packets.
const RACED_HELD: usize = 12;
/// Records of the list. With so many longest packets held there is room for all slots that are posted.
const RECORDS: usize = 8;
/// The guest's longest pause between two rewrites, in turns of a loop.
const LONGEST_PAUSE: usize = 40;
/// Rewrites with pauses in a loop, then rewrites with sleeps, in turn; and rewrites to one sleep.
const SPINNING: u64 = 10_000;
const SLEEPING: u64 = 2000;
const REWRITES_PER_SLEEP: u64 = 16;
/// With fewer rewrites the guest has hardly run.
const LEAST_REWRITES: u64 = 1000;

const GRANTS_BYTES: usize = 4096;
const WINDOW_BYTES: usize = 4 * 4096;
/// Frame buffers: one for the largest frames, and one that is often too short.
const FRAME_BYTES: [usize; 2] = [16 * 4096, 4096];
/// Grant words with start and length: the whole of pages 0 to 3 of the window, of one past it, of the last there is,
/// of one not granted and of one read only; then parts of pages, and ranges that reach past theirs.
const GRANT_WORDS: [(u32, u16, u16); 16] = [
    (0x03, 0, 4096),
    (0x07, 0, 4096),
    (0x0B, 0, 4096),
    (0x0F, 0, 4096),
    (0x13, 0, 4096),
    (0xFFFF_FFFF, 0, 4096),
    (0x06, 0, 4096),
    (0x09, 0, 4096),
    (0x0F, 0, 4040),
    (0x0F, 200, 3840),
    (0x0F, 1, 4095),
    (0x0F, 4096, 0),
    (0x0F, 1, 4096),
    (0x0F, 0, 65_535),
    (0x0F, 65_535, 1),
    (0x0F, 65_535, 65_535),
];
/// References that take what the host posts: those fit for receive, and those that share bytes 200 to 4039.
const FOR_RECEIVE: [u32; 4] = [0, 1, 2, 3];
const FOR_TRANSMIT: [u32; 6] = [0, 1, 2, 3, 8, 9];

/// What the host's, the guest's and the watching thread share.
struct Race {
    ring: Ring,
    page: Guarded,
    grants: Guarded,
    window: Guarded,
    frames: [Guarded; 2],
    list: Guarded,
    list_at: Placed,
    consumed: AtomicU32,
    calls: AtomicU64,
    rewrites: AtomicU64,
    over: AtomicBool,
}

/// What the host has for itself: its counters, the tickets of the packets that wait, and what the calls answered.
struct Host {
    consumed: u32,
    replied: u32,
    tickets: Vec<u32>,
    answers: Answers,
    finishes: u64,
}

// SAFETY: the threads reach the ring page by atomic words only, and the other buffers by the library's calls in the
// host's thread only. The library itself reads and writes the page plainly while it changes: that is the test.
unsafe impl Sync for Race {}

/// Races on a ring for so long, and says how it went.
pub fn race(ring: Ring, seed: u64, time: Duration) -> Result<String, String> {
    let random = Random::new(seed, 0);
    let words = GRANT_WORDS.map(|(word, start, length)| word_bytes(word, start, length)).concat();
    let grants = words.repeat(GRANTS_BYTES / words.len());
    let window = random.bytes(WINDOW_BYTES);
    let mut list = Guarded::new(1, 4);
    let list_at = list.place(&[0; RECORDS * size_of::<HeldWords>()], Placement::End);
    let mut race = Race {
        ring,
        page: Guarded::full(&random.bytes(PAGE_BYTES)),
        grants: Guarded::full(&grants),
        window: Guarded::full(&window),
        frames: FRAME_BYTES.map(|length| Guarded::full(&random.bytes(length))),
        list,
        list_at,
        consumed: AtomicU32::new(random.u32()),
        calls: AtomicU64::new(0),
        rewrites: AtomicU64::new(0),
        over: AtomicBool::new(false),
    };
    let Host { answers, finishes, .. } = race.run(seed, time)?;
    if race.grants.memory() != grants {
        return Err("the grant table was written".to_string());
    }
    if ring == Ring::Transmit && race.window.memory() != window {
        return Err("a transmit call wrote to the window".to_string());
    }
    if race.list.contents(list_at).is_none_or(|list| list.iter().any(|&byte| byte != 0)) {
        return Err("records in use when all is finished, or bytes written beside the list".to_string());
    }
    let rewrites = race.rewrites.load(Relaxed);
    let summary = format!("answers by number {answers:?}, {finishes} finishes, {rewrites} rewrites");
    let none_finished = ring == Ring::Transmit && finishes == 0;
    if answers[DONE as usize] == 0 || none_finished || rewrites < LEAST_REWRITES {
        return Err(format!("no race: {summary}"));
    }
    Ok(summary)
}

impl Race {
    fn run(&self, seed: u64, time: Duration) -> Result<Host, String> {
        thread::scope(|scope| {
            scope.spawn(|| self.guest(&Random::new(seed, 1)));
            scope.spawn(|| self.watch());
            let host = self.host(&Random::new(seed, 2), time);
            self.over.store(true, Relaxed);
            host
        })
    }

    /// The ring page as words of 16 bits.
    fn page_words(&self) -> &[AtomicU16] {
        // SAFETY: the page is aligned and mapped as long as the race lasts.
        unsafe { std::slice::from_raw_parts(self.page.start().cast(), PAGE_BYTES / 2) }
    }

    /// Posts slots that are in order and calls the library on what the guest makes of them. Packets are finished in any
    /// order, and in the end all.
    fn host(&self, random: &Random, time: Duration) -> Result<Host, String> {
        let start = Instant::now();
        let consumed = self.consumed.load(Relaxed);
        let (tickets, answers) = (Vec::new(), [0; NAMES.len()]);
        let mut host = Host { consumed, replied: consumed, tickets, answers, finishes: 0 };
        while start.elapsed() < time {
            self.consumed.store(host.consumed, Relaxed);
            self.post(random, host.consumed);
            let answer = self.take_or_put(random, &mut host)?;
            let count = host.answers.get_mut(answer as usize).ok_or_else(|| format!("answer {answer}"))?;
            *count += 1;
            if !host.tickets.is_empty() && (answer == NO_RECORD || random.one_in(2)) {
                self.finish(random, &mut host)?;
            }
            if ![DONE, SPOILED, NO_RECORD].contains(&answer) {
                self.finish_all(random, &mut host)?;
                (host.consumed, host.replied) = (host.consumed.wrapping_add(1), host.replied.wrapping_add(1));
            }
        }
        self.finish_all(random, &mut host)?;
        Ok(host)
    }

    /// Finishes all packets. Then all slots consumed are replied to.
    fn finish_all(&self, random: &Random, host: &mut Host) -> Result<(), String> {
        while !host.tickets.is_empty() {
            self.finish(random, host)?;
        }
        if self.ring == Ring::Transmit && host.replied != host.consumed {
            return Err(format!("all finished, consumed {}, replied {}", host.consumed, host.replied));
        }
        Ok(())
    }

    /// Finishes one of the packets that wait.
    fn finish(&self, random: &Random, host: &mut Host) -> Result<(), String> {
        let ticket = host.tickets.swap_remove(random.below(host.tickets.len()));
        let status = random.pick(&STATUSES);
        let (answer, _) = self.call(Call::Finish { ticket, status }, host, 0, 0)?;
        host.finishes += 1;
        if answer != DONE {
            return Err(format!("a finish of ticket {ticket} is answered {answer}"));
        }
        Ok(())
    }

    fn store(&self, at: usize, value: u16) {
        self.page_words()[at / 2].store(value, Relaxed);
    }

    fn store_u32(&self, at: usize, value: u32) {
        self.store(at, value as u16);
        self.store(at + 2, (value >> 16) as u16);
    }

    /// Posts a packet, or as many requests as the largest frame needs.
    fn post(&self, random: &Random, consumed: u32) {
        let slots = random.between(1, DATA_LIMIT);
        let size = random.pick(&[60, 1000, 3640]);
        for k in 0..RACED_SLOTS {
            let n = u64::from(consumed) + k as u64;
            match self.ring {
                Ring::Transmit => {
                    let at = slot_at(TRANSMIT_WIDTH, n);
                    self.store_u32(at, random.pick(&FOR_TRANSMIT));
                    self.store(at + 4, random.between(200, 400) as u16);
                    self.store(at + 6, if k + 1 < slots { 4 } else { 0 });
                    self.store(at + 10, if k == 0 { size * slots as u16 } else { size });
                }
                Ring::Receive => self.store_u32(slot_at(RECEIVE_WIDTH, n) + 4, random.pick(&FOR_RECEIVE)),
            }
        }
        self.store_u32(0, consumed.wrapping_add(RACED_SLOTS as u32));
    }

    fn take_or_put(&self, random: &Random, host: &mut Host) -> Result<u32, String> {
        let which = random.below(2);
        let Ring::Transmit = self.ring else {
            let length = random.between(14, FRAME_BYTES[which] - 1);
            return self.call(Call::Put, host, which, length).map(|(answer, _)| answer);
        };
        let first = host.consumed;
        let (answer, ticket) = self.call(Call::Take, host, which, FRAME_BYTES[which])?;
        if answer == DONE {
            host.tickets.push(ticket);
        }
        if answer == DONE && ticket != first {
            return Err(format!("ticket {ticket} of the packet at {first}"));
        }
        Ok(answer)
    }

    /// Calls the library with the frame buffer of a number, and gives the answer and the ticket.
    fn call(&self, which: Call, host: &mut Host, frame: usize, length: usize) -> Result<(u32, u32), String> {
        let (mut halted, mut report) = (0, [0; 11]);
        let parameters = Parameters {
            consumed: &mut host.consumed,
            replied: &mut host.replied,
            halted: &mut halted,
            page: (self.page.start(), PAGE_BYTES),
            grants: (self.grants.start(), GRANTS_BYTES),
            window: (self.window.start(), WINDOW_BYTES),
            held: (self.list.pointer(self.list_at).cast(), RECORDS),
            frame: (self.frames[frame].start(), length),
            report: &mut report,
        };
        // SAFETY: the lengths are those of the buffers, which are apart. The page changes meanwhile.
        let answer = unsafe { call(which, &parameters) };
        self.calls.fetch_add(1, Relaxed);
        refuse_reserved(&report)?;
        Ok((answer, report[10]))
    }

    /// Rewrites fields of the slots that the host's call may be reading, until the race is over.
    fn guest(&self, random: &Random) {
        let behind = if self.ring == Ring::Transmit { RACED_HELD } else { 0 };
        while !self.over.load(Relaxed) {
            let place = random.below(behind + RACED_SLOTS) as u32;
            let n = self.consumed.load(Relaxed).wrapping_add(place).wrapping_sub(behind as u32).into();
            match self.ring {
                Ring::Transmit => self.rewrite_transmit_slot(random, slot_at(TRANSMIT_WIDTH, n)),
                Ring::Receive => self.rewrite_reference(random, slot_at(RECEIVE_WIDTH, n) + 4),
            }
            let rewrites = self.rewrites.fetch_add(1, Relaxed);
            pause(random, rewrites);
        }
    }

    fn rewrite_transmit_slot(&self, random: &Random, at: usize) {
        match random.below(5) {
            0 => self.rewrite_reference(random, at),
            1 => self.store(at + 4, random.pick(&[0, 0, 1, 199, 200, 400, 401, 4000, 4095, 4096, 65_535])),
            2 => self.store(at + 6, random.pick(&[0, 0, 4, 4, 8, 12])),
            3 => self.store(at + 10, random.pick(&[0, 1, 13, 14, 60, 1000, 3640, 4096, 65_520, 65_535])),
            _ => {
                self.store(at, random.pick(&[1, 1, 0x0101]));
                self.store(at + 2, random.pick(&[0, 1460]));
                self.store(at + 4, random.pick(&[1, 2]));
            }
        }
    }

    fn rewrite_reference(&self, random: &Random, at: usize) {
        let fit = random.pick(&FOR_RECEIVE);
        let any = random.below(GRANT_WORDS.len()) as u32;
        self.store_u32(at, random.pick(&[fit, fit, fit, any, any, any, 511, 512, 0x2000_0000, u32::MAX]));
    }

    /// Fails the test, by ending the process, when a call does not end.
    fn watch(&self) {
        let mut calls = 0;
        let mut since = Instant::now();
        while !self.over.load(Relaxed) {
            thread::sleep(Duration::from_millis(20));
            let now = self.calls.load(Relaxed);
            if now != calls {
                (calls, since) = (now, Instant::now());
            } else if since.elapsed() > CALL_TIMEOUT {
                eprintln!("differential: {:?} call {calls} has not ended after {CALL_TIMEOUT:?}", self.ring);
                std::process::exit(1);
            }
        }
    }
}

/// Waits between two rewrites. For a time in a loop, which races best on a core of its own; for a time by a short
/// sleep after some rewrites, since on a shared core the guest wakes up in the midst of the host's call.
fn pause(random: &Random, rewrites: u64) {
    if rewrites % (SPINNING + SLEEPING) < SPINNING {
        for _ in 0..random.below(LONGEST_PAUSE) {
            std::hint::spin_loop();
        }
    } else if rewrites.is_multiple_of(REWRITES_PER_SLEEP) {
        thread::sleep(Duration::from_micros(1));
    }
}
