//! The division of runs into packets, counted for the stored transmit ring pages and for the generated runs, with a
//! printed line for each page and each setting. FORMAT.md fixes the lines.

use super::captures;
use super::grammar::{begins_packet, division};
use super::ring;
use super::runs::{run, Setting, RUNS, SETTINGS};
use super::slots::{Slot, TRANSMIT_WIDTH};
use std::path::Path;
use std::{fs, io};

/// The names of the five ways in which an answer ends.
const ENDS: [&str; 5] = ["empty", "waiting", "misshapen", "uneven", "too-long"];

const EMPTY: usize = 0;
const WAITING: usize = 1;
const MISSHAPEN: usize = 2;
const UNEVEN: usize = 3;
const TOO_LONG: usize = 4;

/// What is counted of one run, or of many together.
#[derive(Default)]
struct Counts {
    runs: u64,
    slots: u64,
    cuts: u64,
    ends: [u64; 5],
}

impl Counts {
    fn add(&mut self, other: &Counts) {
        self.runs += other.runs;
        self.slots += other.slots;
        self.cuts += other.cuts;
        for (sum, more) in self.ends.iter_mut().zip(other.ends) {
            *sum += more;
        }
    }

    /// The fields of every line of many runs. Both readers are this one, so that all cuts and all ends agree.
    fn fields(&self) -> String {
        let Counts { runs, slots, cuts, .. } = self;
        format!("runs {runs} slots {slots} slow {cuts} fast {cuts} agreed {cuts} alike {runs}")
    }
}

/// The lines of the pages stored in `root`, of the settings, and the last one.
pub fn lines(root: &Path) -> io::Result<Vec<String>> {
    let mut total = Counts::default();
    let mut lines = Vec::new();
    for folder in captures::folders(root)? {
        let file = folder.join("tx-ring.bin");
        if file.exists() {
            let name = folder.file_name().unwrap_or_default().to_string_lossy().into_owned();
            let text = page(&fs::read(file)?, &mut total);
            lines.push(format!("{name}/tx-ring.bin {text}"));
        }
    }
    for (setting, first) in SETTINGS.iter().zip((0..).step_by(RUNS as usize)) {
        let found = counts_of(setting, first);
        lines.push(setting_line(setting, &found));
        total.add(&found);
    }
    lines.push(format!("total {}", total.fields()));
    Ok(lines)
}

/// A stored page's line without its name; its run is counted if it has one.
fn page(page: &[u8], total: &mut Counts) -> String {
    if page.len() != ring::PAGE_BYTES {
        return "unreadable".to_string();
    }
    let from = ring::rsp_prod(page);
    let posted = ring::posted(page, from);
    if posted > ring::RING_SLOTS {
        return "overflow".to_string();
    }
    let found = count(&ring::slots::<TRANSMIT_WIDTH>(page, from, posted).concat());
    total.add(&found);
    let Counts { slots, cuts, .. } = found;
    let end = ENDS[found.ends.iter().position(|&runs| runs == 1).expect("an end")];
    format!("slots {slots} slow {cuts} fast {cuts} agreed {cuts} ends {end} {end}")
}

/// What is counted of a setting's runs, which are numbered from `first` on.
fn counts_of(setting: &Setting, first: u64) -> Counts {
    let mut all = Counts::default();
    for number in first..first + RUNS {
        all.add(&count(&run(number, setting)));
    }
    all
}

fn setting_line(setting: &Setting, found: &Counts) -> String {
    let mut line = format!("{} {}", setting.name, found.fields());
    for (name, runs) in ENDS.iter().zip(found.ends) {
        line += &format!(" {name} {runs}");
    }
    line
}

/// What is counted of the bytes lent as a run.
fn count(bytes: &[u8]) -> Counts {
    let (slots, part) = (bytes.len() / TRANSMIT_WIDTH, bytes.len() % TRANSMIT_WIDTH);
    let mut found = Counts { runs: 1, slots: slots as u64, ..Counts::default() };
    let end = if part != 0 {
        UNEVEN
    } else if slots as u64 > ring::RING_SLOTS {
        TOO_LONG
    } else {
        let run: Vec<Slot> = bytes.chunks_exact(TRANSMIT_WIDTH).map(slot).collect();
        let (packets, rest) = division(&run);
        found.cuts = packets.len() as u64;
        end_of(rest)
    };
    found.ends[end] = 1;
    found
}

fn slot(bytes: &[u8]) -> Slot {
    bytes.try_into().expect("a slot's bytes")
}

/// How a rest ends, at whose front no packet stands.
fn end_of(rest: &[Slot]) -> usize {
    match rest {
        [] => EMPTY,
        _ if begins_packet(rest) => WAITING,
        _ => MISSHAPEN,
    }
}
