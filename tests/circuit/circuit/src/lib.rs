// The published circuit of the TRM-3, register by register and clock by clock, with a switch for each deviation.
// Source: Part 1, "The Implementation of the TRM-3". Paper: the other setting of each switch.
// It does not have the floating-point unit, the DDR memory or the cache of Part 5; of refusals it has only some.
#![forbid(unsafe_code)]

mod alu;
mod cache;
mod circuit;
mod control;
mod data;
mod divider;
mod image;
mod interrupt;
mod lister;
mod memory;
mod multiplier;
mod switches;
mod wires;
pub mod words;

pub use circuit::{Circuit, Pins};
pub use image::{read, Image, Run};
pub use lister::{list, Lister, Listing};
pub use switches::{Row, Setting, Switch, Switches, TABLE};
pub use wires::Out;
