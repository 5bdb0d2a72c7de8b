//! A post: what is lent to one call of the guest's side, and what the call gave back and left.

use crate::case::{buffer_difference, Second};
use reference::calls::Words;
use reference::grants::grant;
use reference::ring::{req_prod, PAGE_BYTES};
use reference::words::minus;
use std::fmt;

/// A gso as the C interface has it. Not 0 is asked for.
#[derive(Clone, Copy, Debug, PartialEq, Eq)]
pub struct Gso {
    pub asked: u32,
    pub size: u16,
    pub kind: u8,
}

#[derive(Clone)]
pub struct Post {
    pub replies_read: u32,
    pub page: Vec<u8>,
    pub grants: Vec<u8>,
    pub window: Vec<u8>,
    pub references: Vec<u32>,
    pub frame: Vec<u8>,
    pub gso: Gso,
}

pub struct PostAnswer {
    pub returned: u32,
    pub words: Words,
    pub after: Post,
}

impl Post {
    /// The slot that the next packet begins with, where the ring page has a req_prod.
    pub fn first(&self) -> u32 {
        if self.page.len() < 4 {
            return 0;
        }
        req_prod(&self.page) as u32
    }

    /// The pages that the frame needs.
    pub fn pages(&self) -> usize {
        self.frame.len().div_ceil(PAGE_BYTES)
    }

    /// The slots of the packet.
    pub fn slots(&self) -> usize {
        self.pages() + usize::from(self.gso.asked != 0)
    }
}

impl Second {
    /// The answer to a post.
    pub fn post_answer(&self, post: &Post) -> PostAnswer {
        let mut after = post.clone();
        let Post { replies_read, page, grants, window, references, frame, gso } = &mut after;
        let numbers = (*replies_read, gso.asked, gso.size, gso.kind);
        let words = (self.post)(numbers, page, grants, window, references, frame);
        PostAnswer { returned: words[0], words, after }
    }
}

/// The first difference between an answer and the one expected.
pub fn difference(expected: &PostAnswer, found: &PostAnswer) -> Option<String> {
    if expected.words != found.words || expected.returned != found.returned {
        let [expected, found] = [expected, found].map(|answer| (answer.words, answer.returned));
        return Some(format!("report and value returned: expected {expected:?}, found {found:?}"));
    }
    if expected.after.references != found.after.references {
        return Some(format!("references: found {:?}", found.after.references));
    }
    let buffers = [
        ("ring page", &expected.after.page, &found.after.page),
        ("grant table", &expected.after.grants, &found.after.grants),
        ("window", &expected.after.window, &found.after.window),
        ("frame", &expected.after.frame, &found.after.frame),
    ];
    buffers.into_iter().find_map(|(name, expected, found)| buffer_difference(name, expected, found))
}

impl fmt::Display for Post {
    fn fmt(&self, f: &mut fmt::Formatter) -> fmt::Result {
        let lengths = (self.page.len(), self.grants.len(), self.window.len(), self.frame.len());
        writeln!(f, "  post of {} pages, replies read {}, {:?}", self.pages(), self.replies_read, self.gso)?;
        writeln!(f, "  bytes of ring page, grant table, window, frame: {lengths:?}")?;
        if self.page.len() == PAGE_BYTES {
            let in_flight = minus(self.first().into(), self.replies_read.into());
            writeln!(
                f,
                "  req_prod {}, in flight {in_flight}, header {:02x?}",
                self.first(),
                &self.page[..16]
            )?;
        }
        writeln!(f, "  references, with what the table says of them:")?;
        for (n, &gref) in self.references.iter().enumerate() {
            writeln!(f, "    {n:3}: {gref} {:?}", grant(&self.grants, gref.into()))?;
        }
        Ok(())
    }
}
