// Instructions of one and two clocks, and interrupts, from ready to ready; and every last clock that is due.
// Paper: "What a programmer sees"; "Clock by clock", the interrupt and the short rows of the clock table.
// One loop that keeps its scalars in machine registers; longer instructions are passed on after their first clock.
use crate::alu::{self, Nz};
use crate::cache::Cache;
use crate::clock::Machine;
use crate::events::Events;
use crate::feed::{self, Feed, STALL};
use crate::record::{State, LAST, MODE, READY};
use crate::word::{self, Place};
use std::slice::Iter;

/// Why the loop of short instructions was left.
pub enum Left {
    /// The feed is used up.
    Over,
    /// The first clock of a longer instruction has been used.
    Long(u32),
}

/// What changes in nearly every clock, taken out of the record.
struct Core<'r, 'c, E> {
    pc: usize,
    nz: Nz,
    /// Bits of the line byte that need attention: stall, and interrupts if they can be taken.
    watched: u8,
    /// First register of the current bank.
    bank: u32,
    finished: u64,
    clocks: Iter<'c, u8>,
    registers: &'r mut [u32; 16],
    events: &'r mut E,
}

impl<E: Events> Machine<'_, E> {
    pub fn short(&mut self) -> Left {
        let Machine { state, registers, cache, program, store, feed, finished, events } = self;
        let (program, size) = (*program, store.len());
        let mut core = Core {
            pc: state.pc as usize,
            nz: Nz::new(state.flags.n, state.flags.z),
            watched: watched(state.status as u32),
            bank: bank(state.status as u32),
            finished: *finished,
            clocks: feed.clocks.clone(),
            registers,
            events: &mut **events,
        };
        if state.phase == LAST {
            if core.used_up(&mut feed.held, state) {
                return Left::Over;
            }
            state.phase = READY;
            core.last(word::fetch(program, core.pc), state, cache, feed, size);
        }
        let left = loop {
            let Some(&line_byte) = core.clocks.next() else { break Left::Over };
            if line_byte & core.watched != 0 {
                if line_byte & STALL != 0 {
                    feed.held += 1;
                } else {
                    core.interrupt(state, line_byte);
                }
                continue;
            }
            let word = word::fetch(program, core.pc);
            match word::operation(word) {
                0 if word::moves_h(word) => core.result(word, state.h),
                0 => core.result(word, core.a(word)),
                1 => core.result(word, !core.a(word)),
                2 => core.result(word, alu::add(&mut state.flags, core.b(word), core.a(word))),
                3 => core.result(word, alu::subtract(&mut state.flags, core.b(word), core.a(word))),
                4 => core.result(word, core.b(word) & core.a(word)),
                5 => core.result(word, core.b(word) & !core.a(word)),
                6 => core.result(word, core.b(word) | core.a(word)),
                7 => core.result(word, core.b(word) ^ core.a(word)),
                10 => core.result(word, alu::rotate(&mut state.flags, core.b(word), core.a(word))),
                word::CONTROL if !word::bit10(word) => {
                    if word::clears_cache(word, state.status as u32) && cache.lowest_dirty().is_some() {
                        break Left::Long(word);
                    }
                    core.set_status(word, state, cache)
                }
                word::LD => {
                    if matches!(core.place(word, size), Place::Memory(address) if !cache.hit(address)) {
                        break Left::Long(word);
                    }
                    if core.used_up(&mut feed.held, state) {
                        break Left::Over;
                    }
                    core.load(word, cache, feed, size)
                }
                word::ST => {
                    match core.place(word, size) {
                        Place::Memory(address) if !cache.hit(address) => break Left::Long(word),
                        Place::Memory(address) => cache.write(address, core.b(word)),
                        Place::Device(device) => feed.write(device, core.b(word), core.clocks.len()),
                    }
                    core.advance()
                }
                word::BRANCH if !word::taken(word, core.nz.nzcv(state.flags.c, state.flags.v)) => core.advance(),
                word::BRANCH => {
                    if core.used_up(&mut feed.held, state) {
                        break Left::Over;
                    }
                    core.go_to(word::branch_target(word, core.pc))
                }
                word::CALL => {
                    if core.used_up(&mut feed.held, state) {
                        break Left::Over;
                    }
                    core.call(word)
                }
                word::CONTROL => {
                    if core.used_up(&mut feed.held, state) {
                        break Left::Over;
                    }
                    core.jump(word, state)
                }
                word::MUL | word::DIV => break Left::Long(word),
                16.. => unreachable!("an operation has four bits"),
            }
        };
        state.pc = core.pc as u64;
        (state.flags.n, state.flags.z) = (core.nz.n(), core.nz.z());
        *finished = core.finished;
        feed.clocks = core.clocks;
        left
    }
}

/// The bits of the line byte watched under a status.
#[inline(always)]
fn watched(status: u32) -> u8 {
    let enabled = if status & MODE == 0 { status & 3 } else { 0 };
    STALL | enabled as u8
}

#[inline(always)]
fn bank(status: u32) -> u32 {
    (status & MODE) << 1
}

/// What an interrupt stores in bank 1's R7; a separate function so that no other clock prepares it.
#[cold]
#[inline(never)]
fn saved(nz: Nz, c: u64, v: u64, pc: usize) -> u32 {
    nz.nzcv(c, v) << 28 | pc as u32
}

impl<E: Events> Core<'_, '_, E> {
    #[inline(always)]
    fn get(&self, number: u32) -> u32 {
        self.registers[(self.bank | number) as usize & 15]
    }

    #[inline(always)]
    fn set(&mut self, number: u32, value: u32) {
        self.registers[(self.bank | number) as usize & 15] = value;
    }

    /// Operand A.
    #[inline(always)]
    fn a(&self, word: u32) -> u32 {
        word::operand(word, self.get(word::s(word)))
    }

    /// Operand B, R.d.
    #[inline(always)]
    fn b(&self, word: u32) -> u32 {
        self.get(word::d(word))
    }

    #[inline(always)]
    fn place(&self, word: u32, size: usize) -> Place {
        word::place(word, self.get(word::s(word)), size)
    }

    /// The instruction ends and PC is incremented.
    #[inline(always)]
    fn advance(&mut self) {
        self.go_to(word::next(self.pc))
    }

    #[inline(always)]
    fn go_to(&mut self, pc: usize) {
        self.events.finished(self.pc, self.clocks.len());
        self.pc = pc;
        self.finished += 1;
    }

    /// Writes the result of 0-10 to R.d, N and Z.
    #[inline(always)]
    fn result(&mut self, word: u32, value: u32) {
        self.nz = Nz::of(value);
        self.set(word::d(word), value);
        self.advance()
    }

    /// Takes the last clock of an instruction from the feed; if there is none, marks it as due in the record.
    #[inline(always)]
    fn used_up(&mut self, held: &mut u64, state: &mut State) -> bool {
        let due = feed::unheld(&mut self.clocks, held).is_none();
        if due {
            (state.phase, state.count) = (LAST, 0);
        }
        due
    }

    /// The last clock of the word at PC.
    #[inline(always)]
    fn last(&mut self, word: u32, state: &mut State, cache: &mut Cache, feed: &mut Feed, size: usize) {
        match word::operation(word) {
            word::CONTROL if word::bit10(word) => self.jump(word, state),
            word::CONTROL => self.set_status(word, state, cache),
            word::LD => self.load(word, cache, feed, size),
            word::ST => {
                if let Place::Memory(address) = self.place(word, size) {
                    cache.write(address, self.b(word));
                }
                self.advance()
            }
            word::BRANCH => self.go_to(word::branch_target(word, self.pc)),
            _ => self.call(word),
        }
    }

    #[inline(always)]
    fn load(&mut self, word: u32, cache: &Cache, feed: &mut Feed, size: usize) {
        let value = match self.place(word, size) {
            Place::Memory(address) => cache.read(address),
            Place::Device(device) => feed.read(device, self.clocks.len()),
        };
        self.set(word::d(word), value);
        self.advance()
    }

    #[inline(always)]
    fn call(&mut self, word: u32) {
        self.set(7, word::next(self.pc) as u32);
        self.go_to(word::call_target(word, self.pc))
    }

    /// Operation 11 with bit 10 clear; a cache turned off is emptied.
    #[inline(always)]
    fn set_status(&mut self, word: u32, state: &mut State, cache: &mut Cache) {
        if word::clears_cache(word, state.status as u32) {
            cache.empty_all();
        }
        self.change_status(state, word & 15);
        self.advance()
    }

    #[inline(always)]
    fn change_status(&mut self, state: &mut State, status: u32) {
        state.status = status.into();
        self.watched = watched(status);
        self.bank = bank(status);
    }

    #[inline(always)]
    fn interrupt(&mut self, state: &mut State, line_byte: u8) {
        self.registers[15] = saved(self.nz, state.flags.c, state.flags.v, self.pc);
        let first = u32::from(line_byte) & state.status as u32 & 1 != 0;
        self.events.interrupted(self.pc, if first { 0 } else { 1 }, self.clocks.len());
        self.pc = if first { 2 } else { 3 };
        self.change_status(state, state.status as u32 | MODE);
    }

    /// Operation 11 with bit 10 set; bits 9-8: 00 jump, 10 jump and link, 01 and 11 return from interrupt.
    #[inline(always)]
    fn jump(&mut self, word: u32, state: &mut State) {
        let target = self.get(word::s(word));
        if word & 0x100 != 0 {
            let bit = |index: u32| u64::from(target >> index & 1);
            self.nz = Nz::new(bit(31), bit(30));
            (state.flags.c, state.flags.v) = (bit(29), bit(28));
            self.change_status(state, state.status as u32 & !MODE);
        } else if word & 0x200 != 0 {
            self.set(word::d(word), word::next(self.pc) as u32);
        }
        self.go_to(target as usize & 0xFFF)
    }
}
