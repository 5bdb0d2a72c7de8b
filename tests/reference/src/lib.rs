//! The second program: the backend side of one Xen network queue and the guest's side of its transmit ring, written
//! from document 01 and the requests alone, to be compared with the library.
//!
//! A call is a function from what is lent to an `Outcome`: a report, the queue (a transmit ring's with its held
//! packets), and the list of changes to the lent buffers. (The guest's side has no queue.) Nothing is written in
//! place, so every byte that no rule names stays as found. Numbers are natural numbers in 64 bits, and counters are reduced modulo 2^32 where document 01
//! says so.

#![deny(warnings)]
#![forbid(unsafe_code)]

pub mod calls;
pub mod captures;
pub mod divide;
pub mod examples;
pub mod finish;
pub mod grammar;
pub mod grants;
pub mod held;
pub mod post;
pub mod receive;
pub mod replay;
pub mod report;
pub mod ring;
pub mod runs;
pub mod slots;
pub mod transmit;
pub mod words;
