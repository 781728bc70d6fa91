// Simulator of the TRM with its cache, one clock at a time, written from the paper alone.
// Paper: all of it but images and the listing program; A1 for the serial board.
// Every call takes any input and returns the refusal number of the paper's table as its error.
#![forbid(unsafe_code)]

mod alu;
pub mod board;
mod cache;
mod calls;
mod clock;
mod devices;
mod events;
mod feed;
mod flight;
mod record;
mod refuse;
mod rule;
mod serial;
mod short;
mod watch;
mod word;

pub use cache::{Cache, Line};
pub use calls::{clock, copy, device_due, look, reset, run, trace, Answer, Ran};
pub use events::Events;
pub use feed::Feed;
pub use record::{Flags, Record, State};
pub use watch::{shows_write, watch};
