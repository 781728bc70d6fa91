//! A clock-accurate simulator of Wirth's Tiny Register Machine (TRM), over the proved library `libtrm.a`.
//! "The paper" in these pages is the specification that the library is proved to meet; see the repository's README.
//! Every call returns a result or a numbered [`Refusal`]; a refused call changes nothing.
//!
//! # Quick start
//!
//! The paper's example: MOV R0, 5; MUL R0, 3; and a branch to itself. MOV takes 1 clock and MUL 33, so after 34 clocks two
//! instructions are finished.
//!
//! ```
//! use trm::Machine;
//!
//! let mut machine = Machine::new(vec![0x00005, 0x20003, 0x3BBFF], vec![0; 2048])?;
//! let ran = machine.run(&[0; 34], &[0; 34])?; // a line byte and an input word for each clock
//! assert_eq!(ran.totals.finished, 2);
//! assert_eq!(machine.registers()[0], 15);
//! assert_eq!(machine.pc(), 2);
//! # Ok::<(), trm::Refusal>(())
//! ```
//!
//! Clock by clock, with the device accesses of the program:
//!
//! ```
//! use trm::{LineByte, Machine, Phase};
//!
//! let mut machine = Machine::new(vec![0x00005, 0x20003, 0x3BBFF], vec![0; 2048])?;
//! assert!(machine.clock(LineByte::NONE, 0)?.finished); // MOV
//! machine.clock(LineByte::NONE, 0)?; // the first of MUL's 32 steps
//! machine.clock(LineByte::STALL, 0)?; // held: it counts and does nothing else
//! assert_eq!(machine.phase(), Phase::Arithmetic { done: 1 });
//! assert_eq!((machine.counts().clocks, machine.counts().held), (3, 1));
//! # Ok::<(), trm::Refusal>(())
//! ```
//!
//! # What is here
//!
//! | | |
//! |---|---|
//! | [`Machine`] | a machine with its program and store: clocks, runs, looks at memory, what a programmer sees |
//! | [`LineByte`], [`Access`], [`watch`] | a clock's line byte; its device access; a write to a device in a run |
//! | [`Board`], [`Given`] | a machine with a serial line, a tick, switches and lamps; what a clock of it is given |
//! | [`decode`], [`Instruction`] | words and instructions, also as text |
//! | [`image`] | images, as the listing program `trmlist` reads them |
//! | [`Refusal`], [`ImageFault`] | why a call was refused |
//! | [`raw`] | the C interface, for callers who hold record and store themselves |
#![deny(unsafe_code)]
#![warn(missing_docs)]

mod access;
mod assembly;
mod board;
mod fields;
mod given;
pub mod image;
mod instruction;
mod line_byte;
mod machine;
pub mod raw;
mod refusal;
mod state;

pub use access::{watch, Access};
pub use board::{Board, BoardClocked, BoardRan};
pub use given::Given;
pub use instruction::{decode, Instruction, Operand, Operation};
pub use line_byte::LineByte;
pub use machine::{Clocked, Machine, Ran, Totals};
pub use refusal::{ImageFault, Refusal};
pub use state::{Counts, Flags, Phase, Status};

/// The example of the package's README.md, as a test.
#[cfg(doctest)]
#[doc = include_str!("../README.md")]
struct Readme;
