//! The second program on ring pages of real guests, against what the guests' own packet layer saw.
//!
//! TOLLMEANDER_CAPTURES names the folder of snapshots; without it, it is the replay program's data folder.

#![deny(warnings)]

mod sha256;

use reference::calls::{transmit_finish, transmit_take, Ring};
use reference::captures::{folders, load};
use reference::replay::{calls, fnv1a};
use reference::report::{DONE, EMPTY, NO_BUFFERS};
use sha256::hex_digest;
use std::collections::HashSet;
use std::fs;
use std::path::{Path, PathBuf};

fn snapshots() -> Vec<PathBuf> {
    let replay_data = Path::new(env!("CARGO_MANIFEST_DIR")).join("../../crates/replay/data");
    let root = std::env::var_os("TOLLMEANDER_CAPTURES").map_or(replay_data, PathBuf::from);
    let found = folders(&root).expect("a folder of snapshots");
    assert!(!found.is_empty(), "no snapshots in {}", root.display());
    found
}

/// A line of frames.txt: length, SHA-256, gso size and gso type as the ring has it.
#[derive(Debug, PartialEq)]
struct Frame {
    length: usize,
    digest: String,
    gso_size: u32,
    gso_type: u32,
}

fn frames(folder: &Path) -> Vec<Frame> {
    let text = fs::read_to_string(folder.join("frames.txt")).expect("frames.txt");
    text.lines().map(frame).collect()
}

fn frame(line: &str) -> Frame {
    let fields: Vec<&str> = line.split_whitespace().collect();
    let [_, length, digest, gso_type, gso_size] = fields[..] else { panic!("{line}") };
    let after = |field: &str, name: &str| field.strip_prefix(name).expect(name).parse().expect("a number");
    let linux_type: u32 = after(gso_type, "gso_type=");
    let gso_type = match linux_type {
        4 => 2,
        other => other,
    };
    let gso_size = after(gso_size, "gso_size=");
    Frame { length: length.parse().expect("a length"), digest: digest.to_string(), gso_size, gso_type }
}

/// The posted packets' slot counts, from lines such as `packet 0: 17 slots (1 extra), size 57974, ..`.
fn slot_counts(folder: &Path) -> Vec<usize> {
    let meta = meta(folder);
    let packets = meta.lines().filter(|line| line.starts_with("packet "));
    packets.map(|line| line.split_whitespace().nth(2).expect("slots").parse().expect("a count")).collect()
}

fn meta(folder: &Path) -> String {
    fs::read_to_string(folder.join("meta.txt")).expect("meta.txt")
}

#[test]
fn counter_is_the_pages_rsp_prod() {
    for folder in snapshots() {
        let stored = load(&folder).expect("a snapshot");
        let ring = if stored.ring == Ring::Transmit { "tx" } else { "rx" };
        let line = format!("{ring}: consumed {} ", stored.consumed);
        assert!(meta(&folder).contains(&line), "{}: no '{line}' in meta.txt", stored.name);
    }
}

/// Every packet is handed over, as the guest's packet layer saw it.
#[test]
fn transmitted_frames_are_the_guests() {
    for folder in snapshots() {
        let stored = load(&folder).expect("a snapshot");
        if stored.ring == Ring::Receive {
            continue;
        }
        let (counts, frames) = (slot_counts(&folder), frames(&folder));
        assert_eq!(counts.len(), frames.len(), "{}: packets posted", stored.name);
        let calls = calls(&stored);
        let handed_over = &calls[..calls.len() - 1];
        assert_eq!(handed_over.len(), frames.len(), "{}: packets handed over", stored.name);
        for ((call, expected), slots) in handed_over.iter().zip(frames).zip(&counts) {
            let [answer, .., gso_size, gso_type, _ticket] = call.words;
            assert_eq!(answer, DONE, "{}", stored.name);
            assert_eq!(call.words[3] as usize, *slots, "{}", stored.name);
            let (length, digest) = (call.frame.len(), hex_digest(&call.frame));
            assert_eq!(Frame { length, digest, gso_size, gso_type }, expected, "{}", stored.name);
        }
    }
}

/// A transmit ring ends empty, a receive ring without requests. The snapshots show both.
#[test]
fn nothing_is_left_on_a_ring() {
    let mut seen = HashSet::new();
    for folder in snapshots() {
        let stored = load(&folder).expect("a snapshot");
        let last = calls(&stored).last().expect("a call").words[0];
        let expected = match stored.ring {
            Ring::Transmit => EMPTY,
            Ring::Receive => NO_BUFFERS,
        };
        assert_eq!(last, expected, "{}", stored.name);
        seen.insert(last);
    }
    assert_eq!(seen, HashSet::from([EMPTY, NO_BUFFERS]));
}

/// Packets all taken before the last of them is finished, and then the one before it, leave the ring page as packets do
/// that are finished at once.
#[test]
fn packets_finished_in_reverse_order_leave_the_same_page() {
    let mut most = 0;
    for folder in snapshots() {
        let mut stored = load(&folder).expect("a snapshot");
        if stored.ring == Ring::Receive {
            continue;
        }
        let at_once = calls(&stored).last().expect("a call").page;
        let (mut consumed, mut replied, mut halted) = (stored.consumed, stored.consumed, 0);
        let (mut held, mut frame, mut tickets) = (vec![[0; 5]; 256], vec![0; 65_535], Vec::new());
        loop {
            let numbers = [&mut consumed, &mut replied, &mut halted];
            let words = transmit_take(
                numbers,
                &mut stored.page,
                &stored.grants,
                &stored.window,
                &mut held,
                &mut frame,
            );
            if words[0] != DONE {
                break;
            }
            tickets.push(words[10]);
        }
        most = most.max(tickets.len());
        for (left, ticket) in tickets.into_iter().enumerate().rev() {
            let words = transmit_finish(consumed, &mut replied, &mut stored.page, &mut held, ticket, 0);
            assert_eq!((words[0], words[3] > 0), (DONE, left == 0), "{}", stored.name);
        }
        assert_eq!((replied, fnv1a(&stored.page)), (consumed, at_once), "{}", stored.name);
    }
    assert!(most > 100, "at most {most} packets were held");
}

/// Real TCP sends 18 data slots and an extra. The snapshots show it.
#[test]
fn some_packets_have_nineteen_slots() {
    assert!(snapshots().iter().any(|folder| slot_counts(folder).contains(&19)));
}

#[test]
fn sha256_of_known_messages() {
    assert_eq!(hex_digest(b""), "e3b0c44298fc1c149afbf4c8996fb92427ae41e4649b934ca495991b7852b855");
    assert_eq!(hex_digest(b"abc"), "ba7816bf8f01cfea414140de5dae2223b00361a396177a9cb410ff61f20015ad");
    let million = vec![b'a'; 1_000_000];
    let digest = "cdc76e5c9914fb9281a1c7e284d73e67f1809a48a497200e046d39ccc7112cd0";
    assert_eq!(hex_digest(&million), digest);
}
