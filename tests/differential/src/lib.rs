//! The library over its C interface, compared with the second program.

#![deny(warnings)]

mod bytes;
pub mod case;
pub mod cases;
pub mod coverage;
pub mod covers;
pub mod crash;
mod driver;
mod facts;
mod finishing;
pub mod grammar;
mod guarded;
mod guest;
mod held_coverage;
mod held_facts;
mod ledger;
mod lending;
pub mod library;
pub mod options;
mod packet;
pub mod post;
pub mod post_coverage;
pub mod post_facts;
pub mod posts;
pub mod racing;
mod random;
mod receive;
mod records;
pub mod sequence;
pub mod sequence_counts;
mod transmit;
