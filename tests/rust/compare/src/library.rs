// The library as one of the two sides.
// Paper: the calls; "Later a second entry lends the record itself for one clock, with the same outcome".
// The C interface itself is `raw` of the package bindings/rust.
use crate::side::Side;
use trm::raw;
pub use trm::raw::{ClockValueAnswer, LookAnswer, Machine, ResetAnswer, RunAnswer, WatchAnswer};

/// The library, with the record of a clock by value or lent.
pub enum Library {
    ByValue,
    Lending,
}

/// The lent clock on a copy of the record; its answer, and the record after it.
fn clock_lent(m: &Machine, program: &[u32], store: &mut [u32], line_byte: u8, input: u32) -> ClockValueAnswer {
    let mut machine = *m;
    let raw::ClockAnswer { number, byte, word, finished } = raw::clock(&mut machine, program, store, line_byte, input);
    ClockValueAnswer { machine, number, byte, word, finished }
}

impl Side for Library {
    fn reset(&self, store: &[u32]) -> ResetAnswer {
        raw::reset(store)
    }

    fn clock(&self, m: &Machine, program: &[u32], store: &mut [u32], line_byte: u8, input: u32) -> ClockValueAnswer {
        match self {
            Library::ByValue => raw::clock_value(m, program, store, line_byte, input),
            Library::Lending => clock_lent(m, program, store, line_byte, input),
        }
    }

    fn run(
        &self,
        m: &Machine,
        program: &[u32],
        store: &mut [u32],
        line_bytes: &[u8],
        inputs: &[u32],
        bytes: &mut [u8],
        words: &mut [u32],
    ) -> RunAnswer {
        raw::run(m, program, store, line_bytes, inputs, bytes, words)
    }

    fn look(&self, m: &Machine, program: &[u32], store: &[u32], address: u32) -> LookAnswer {
        raw::look(m, program, store, address)
    }

    fn copy(&self, m: &Machine, program: &[u32], store: &[u32], buffer: &mut [u32]) -> u32 {
        raw::copy(m, program, store, buffer)
    }

    fn watch(&self, bytes: &[u8], device: u32) -> WatchAnswer {
        raw::watch(bytes, device)
    }
}
