// The two sides of the comparison behind one trait; here the simulator's side.
// Paper: the calls of "Clock by clock" and "Where calls are turned down".
// A refused clock or run returns the record as given and zeros; a refused reset a record of zeros.
use crate::library::{ClockValueAnswer, LookAnswer, Machine, ResetAnswer, RunAnswer, WatchAnswer};
use simulator::{Cache, Flags, Line, Record, State};

pub trait Side {
    fn reset(&self, store: &[u32]) -> ResetAnswer;
    fn clock(&self, m: &Machine, program: &[u32], store: &mut [u32], line_byte: u8, input: u32) -> ClockValueAnswer;
    #[allow(clippy::too_many_arguments)]
    fn run(
        &self,
        m: &Machine,
        program: &[u32],
        store: &mut [u32],
        line_bytes: &[u8],
        inputs: &[u32],
        bytes: &mut [u8],
        words: &mut [u32],
    ) -> RunAnswer;
    fn look(&self, m: &Machine, program: &[u32], store: &[u32], address: u32) -> LookAnswer;
    fn copy(&self, m: &Machine, program: &[u32], store: &[u32], buffer: &mut [u32]) -> u32;
    fn watch(&self, bytes: &[u8], device: u32) -> WatchAnswer;
}

pub struct Simulator;

pub fn zeros() -> Machine {
    from_record(&Record::default())
}

pub fn to_record(m: &Machine) -> Record {
    let flags = Flags { n: m.n, z: m.z, c: m.c, v: m.v };
    let state = State {
        pc: m.pc,
        h: m.h,
        status: m.status,
        flags,
        phase: m.phase,
        count: m.count,
        product: m.product,
        remainder: m.remainder,
        quotient: m.quotient,
        size: m.size,
        clocks: m.clocks,
        held: m.held,
        refills: m.refills,
        writebacks: m.writebacks,
    };
    let lines = std::array::from_fn(|i| Line { full: m.full[i], dirty: m.dirty[i], block: m.block[i] });
    Record { state, registers: m.regs, cache: Cache { lines, words: m.words } }
}

pub fn from_record(record: &Record) -> Machine {
    let (state, lines) = (&record.state, &record.cache.lines);
    Machine {
        h: state.h,
        status: state.status,
        pc: state.pc,
        n: state.flags.n,
        z: state.flags.z,
        c: state.flags.c,
        v: state.flags.v,
        phase: state.phase,
        count: state.count,
        product: state.product,
        remainder: state.remainder,
        quotient: state.quotient,
        size: state.size,
        clocks: state.clocks,
        held: state.held,
        refills: state.refills,
        writebacks: state.writebacks,
        regs: record.registers,
        full: std::array::from_fn(|i| lines[i].full),
        dirty: std::array::from_fn(|i| lines[i].dirty),
        block: std::array::from_fn(|i| lines[i].block),
        words: record.cache.words,
    }
}

impl Side for Simulator {
    fn reset(&self, store: &[u32]) -> ResetAnswer {
        match simulator::reset(store) {
            Ok(record) => ResetAnswer { machine: from_record(&record), number: 0 },
            Err(number) => ResetAnswer { machine: zeros(), number },
        }
    }

    fn clock(&self, m: &Machine, program: &[u32], store: &mut [u32], line_byte: u8, input: u32) -> ClockValueAnswer {
        let mut record = to_record(m);
        let answer = simulator::clock(&mut record, program, store, line_byte, input);
        let number = answer.err().unwrap_or(0);
        let answer = answer.unwrap_or_default();
        let machine = from_record(&record);
        ClockValueAnswer { machine, number, byte: answer.byte, word: answer.word, finished: answer.finished }
    }

    fn run(
        &self,
        m: &Machine,
        program: &[u32],
        store: &mut [u32],
        line_bytes: &[u8],
        inputs: &[u32],
        bytes: &mut [u8],
        words: &mut [u32],
    ) -> RunAnswer {
        let mut record = to_record(m);
        let answer = simulator::run(&mut record, program, store, line_bytes, inputs, bytes, words);
        let number = answer.err().unwrap_or(0);
        let answer = answer.unwrap_or_default();
        RunAnswer { machine: from_record(&record), number, used: answer.used, finished: answer.finished }
    }

    fn look(&self, m: &Machine, program: &[u32], store: &[u32], address: u32) -> LookAnswer {
        match simulator::look(&to_record(m), program, store, address) {
            Ok(word) => LookAnswer { number: 0, word },
            Err(number) => LookAnswer { number, word: 0 },
        }
    }

    fn copy(&self, m: &Machine, program: &[u32], store: &[u32], buffer: &mut [u32]) -> u32 {
        simulator::copy(&to_record(m), program, store, buffer).err().unwrap_or(0)
    }

    fn watch(&self, bytes: &[u8], device: u32) -> WatchAnswer {
        match simulator::watch(bytes, device) {
            Ok(Some(clock)) => WatchAnswer { number: 0, found: 1, clock },
            Ok(None) => WatchAnswer { number: 0, found: 0, clock: 0 },
            Err(number) => WatchAnswer { number, found: 0, clock: 0 },
        }
    }
}
