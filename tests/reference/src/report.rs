//! Answers, the report, and what a call leaves.

pub const DONE: u32 = 0;
pub const BAD_PAGE: u32 = 1;
pub const HALTED_ALREADY: u32 = 2;
pub const OVERFLOW: u32 = 3;
pub const EMPTY: u32 = 4;
pub const MISSHAPEN: u32 = 5;
pub const WAITING: u32 = 6;
pub const SPOILED: u32 = 7;
pub const NO_ROOM: u32 = 8;
pub const BAD_LENGTH: u32 = 9;
pub const NO_BUFFERS: u32 = 10;
pub const NO_SLOTS: u32 = 11;
pub const BAD_PAGES: u32 = 12;
pub const BAD_GSO: u32 = 13;
pub const NO_RECORD: u32 = 14;
pub const BAD_TICKET: u32 = 15;
pub const BAD_RECORDS: u32 = 17;

/// The cause for a total above 65,535, which a size of 16 bits cannot be. No call reports it.
pub const RESERVED_CAUSE: u32 = 2;

/// The lengths a frame may have.
pub const SMALLEST_FRAME: u64 = 14;
pub const LARGEST_FRAME: u64 = 65_535;

/// The answers' names, by number. No call gives 16.
pub const NAMES: [&str; 18] = [
    "done",
    "bad-page",
    "halted-already",
    "overflow",
    "empty",
    "misshapen",
    "waiting",
    "spoiled",
    "no-room",
    "bad-frame-length",
    "no-buffers",
    "no-slots",
    "bad-pages",
    "bad-gso",
    "no-record",
    "bad-ticket",
    "",
    "bad-records",
];

/// What a call reports. A field that the answer does not name is 0.
#[derive(Clone, Debug, Default, PartialEq, Eq)]
pub struct Report {
    pub answer: u32,
    pub cause: u32,
    pub place: u32,
    pub slots: u32,
    pub notify: bool,
    pub total: u32,
    pub checksum_blank: bool,
    pub data_validated: bool,
    pub gso_size: u32,
    pub gso_type: u32,
    pub ticket: u32,
}

impl Report {
    /// The eleven words of the C interface.
    pub fn words(&self) -> [u32; 11] {
        [
            self.answer,
            self.cause,
            self.place,
            self.slots,
            self.notify.into(),
            self.total,
            self.checksum_blank.into(),
            self.data_validated.into(),
            self.gso_size,
            self.gso_type,
            self.ticket,
        ]
    }
}

/// What the host lends for a call.
pub struct Lent<'a> {
    pub page: &'a [u8],
    pub grants: &'a [u8],
    pub window: &'a [u8],
    pub frame: &'a [u8],
}

#[derive(Clone, Copy, Debug, PartialEq, Eq)]
pub enum Buffer {
    Page,
    Window,
    Frame,
}

/// New bytes for a place in a lent buffer.
#[derive(Clone, Debug, PartialEq, Eq)]
pub struct Change {
    pub buffer: Buffer,
    pub at: usize,
    pub bytes: Vec<u8>,
}

/// What a call leaves of a queue and of the lent buffers. Changes apply in order, and bytes that none of them covers
/// stay.
#[derive(Clone, Debug, PartialEq, Eq)]
pub struct Outcome<Queue> {
    pub report: Report,
    pub queue: Queue,
    pub changes: Vec<Change>,
}

impl<Queue> Outcome<Queue> {
    /// A refusal that leaves this queue and the buffers as found.
    pub fn refused(queue: Queue, answer: u32) -> Outcome<Queue> {
        let report = Report { answer, ..Report::default() };
        Outcome { report, queue, changes: Vec::new() }
    }

    /// A refusal that asks for an event, by `change`, when the guest posts more.
    pub fn asking(queue: Queue, answer: u32, change: Change) -> Outcome<Queue> {
        Outcome { changes: vec![change], ..Outcome::refused(queue, answer) }
    }
}
