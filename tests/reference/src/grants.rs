//! The grant table: which page of the window a reference names, and which range of the page is shared.

use super::words::{bit, number};

/// Bytes of a page in the window.
pub const PAGE_BYTES: u64 = 4096;
/// Bytes of a grant word.
pub const WORD_BYTES: u64 = 8;

/// What a grant is wanted for. Transmit reads in the shared range and receive writes the whole page.
#[derive(Clone, Copy, PartialEq, Eq)]
pub enum Access {
    Read,
    Write,
}

/// The bytes of a page that a grant shares, counted from the page's first byte.
#[derive(Clone, Copy, Debug, PartialEq, Eq)]
pub struct Range {
    pub start: i64,
    pub length: i64,
}

/// The range of a page of which every byte is shared.
pub const WHOLE_PAGE: Range = Range { start: 0, length: PAGE_BYTES as i64 };

impl Range {
    /// The byte behind the range's last.
    pub fn end(&self) -> i64 {
        self.start + self.length
    }

    /// Whether a part lies in the range. The offset of a part without bytes may be anywhere from start to end.
    pub fn holds(&self, offset: i64, part: i64) -> bool {
        self.start <= offset && offset + part <= self.end()
    }
}

/// What a grant word says.
#[derive(Clone, Copy, Debug)]
pub struct Grant {
    pub granted: bool,
    pub writable: bool,
    /// Where in the window the page begins. The window may be too short for it.
    pub page_at: u64,
    /// The range as the guest wrote it. It may reach past the page.
    pub range: Range,
}

impl Grant {
    /// Whether the grant, with the window as it is, is fit for the access.
    pub fn is_fit(&self, window: &[u8], access: Access) -> bool {
        let usable = self.page_at + PAGE_BYTES <= window.len() as u64;
        let in_page = self.range.end() <= PAGE_BYTES as i64;
        let enough = match access {
            Access::Read => true,
            Access::Write => self.writable && self.range == WHOLE_PAGE,
        };
        self.granted && usable && in_page && enough
    }
}

/// The grant of a reference, if the table has a word for it.
pub fn grant(grants: &[u8], gref: u64) -> Option<Grant> {
    let at = WORD_BYTES * gref;
    let in_table = at + WORD_BYTES <= grants.len() as u64;
    in_table.then(|| read(&grants[at as usize..]))
}

/// What the grant word at the front of these bytes says.
fn read(bytes: &[u8]) -> Grant {
    let word = number(bytes, 0, 4);
    let page = word / 4;
    let (start, length) = (number(bytes, 4, 2) as i64, number(bytes, 6, 2) as i64);
    Grant {
        granted: bit(word, 0),
        writable: bit(word, 1),
        page_at: PAGE_BYTES * page,
        range: Range { start, length },
    }
}

/// The grant of a reference, if it is fit for the access.
pub fn fit_grant(grants: &[u8], window: &[u8], gref: u64, access: Access) -> Option<Grant> {
    grant(grants, gref).filter(|grant| grant.is_fit(window, access))
}

/// A grant word's bytes: bits and page number as in its first four, then the range.
pub fn word_bytes(word: u32, start: u16, length: u16) -> [u8; WORD_BYTES as usize] {
    let mut bytes = [0; WORD_BYTES as usize];
    bytes[..4].copy_from_slice(&word.to_le_bytes());
    bytes[4..6].copy_from_slice(&start.to_le_bytes());
    bytes[6..].copy_from_slice(&length.to_le_bytes());
    bytes
}

/// The bytes of a grant word that shares the whole page.
pub fn whole_page_bytes(word: u32) -> [u8; WORD_BYTES as usize] {
    word_bytes(word, 0, PAGE_BYTES as u16)
}
