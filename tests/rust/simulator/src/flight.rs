// Instructions of more than two clocks, and instructions found in flight in a lent record.
// Paper: "Clock by clock": the clock table, the bursts of the cache, the phases and their counts.
// Each function uses clocks of the feed one by one; when the feed is used up, phase and count are in the record.
use crate::cache::{line_of, Line};
use crate::clock::Machine;
use crate::events::Events;
use crate::record::{ARITHMETIC, LAST, REFILL, UNCACHED, WRITE_BACK};
use crate::serial;
use crate::word;

impl<E: Events> Machine<'_, E> {
    /// Continues a longer instruction after its first clock, which the loop in short.rs ran.
    pub fn begin(&mut self, word: u32) {
        match word::operation(word) {
            word::MUL => {
                self.state.product = serial::multiply_step(serial::multiply_start(self.a(word)), self.b(word), 1);
                self.multiply(word, 1)
            }
            word::DIV => {
                let (b, a) = (self.b(word), self.a(word));
                self.set_divider(serial::divide_step(serial::divide_start(b, a), a));
                self.divide(word, 1)
            }
            word::CONTROL => self.empty(1),
            _ if !self.state.cache_on() => self.uncached(word, 1),
            _ => self.miss(word),
        }
    }

    pub fn multiply(&mut self, word: u32, done: u64) {
        let (b, mut product) = (self.b(word), self.state.product);
        let step = |count| product = serial::multiply_step(product, b, count + 1);
        let whole = self.feed.spend(self.state, ARITHMETIC, done..32, step);
        self.state.product = product;
        if whole && self.feed.spend(self.state, ARITHMETIC, 32..33, |_| ()) {
            self.state.product = 0;
            self.result(word, product as u32, (product >> 32) as u32)
        }
    }

    pub fn divide(&mut self, word: u32, done: u64) {
        let (b, a) = (self.b(word), self.a(word));
        let mut pair = serial::pair(self.state.remainder, self.state.quotient);
        let step = |_| pair = serial::divide_step(pair, a);
        let whole = self.feed.spend(self.state, ARITHMETIC, done..32, step);
        self.set_divider(pair);
        if whole && self.feed.spend(self.state, ARITHMETIC, 32..33, |_| ()) {
            self.set_divider(0);
            let (quotient, remainder) = serial::divide_result(pair, b, a);
            self.result(word, quotient, remainder)
        }
    }

    fn set_divider(&mut self, pair: u64) {
        self.state.remainder = pair >> 32;
        self.state.quotient = pair & 0xFFFF_FFFF;
    }

    /// Writes the result of 8 and 9 to R.d and H, N and Z.
    fn result(&mut self, word: u32, value: u32, h: u32) {
        self.state.h = h;
        self.state.flags.n = u64::from(value >> 31);
        self.state.flags.z = u64::from(value == 0);
        self.set_d(word, value);
        self.advance()
    }

    /// Writes back all dirty lines, with `done` clocks of the lowest one's burst over.
    pub fn empty(&mut self, mut done: u64) {
        while let Some(line) = self.cache.lowest_dirty() {
            if !self.ten_back(line, done) {
                return;
            }
            self.cache.lines[line].dirty = 0;
            done = 0;
        }
        self.due()
    }

    /// Continues a miss after its tag-check clock.
    fn miss(&mut self, word: u32) {
        let line = &mut self.cache.lines[line_of(self.address(word))];
        if line.dirty != 0 {
            self.write_back(word, 0)
        } else {
            *line = Line::default();
            self.refill(word, 0)
        }
    }

    /// The write-back of a miss, then its refill.
    pub fn write_back(&mut self, word: u32, done: u64) {
        let line = line_of(self.address(word));
        if self.ten_back(line, done) {
            self.cache.lines[line] = Line::default();
            self.refill(word, 0)
        }
    }

    /// The ten clocks of a write-back; false if the feed is used up before.
    fn ten_back(&mut self, line: usize, done: u64) -> bool {
        let (cache, store) = (&*self.cache, &mut *self.store);
        let word = |count| cache.write_back_clock(store, line, count);
        let whole = self.feed.spend(self.state, WRITE_BACK, done..10, word);
        self.state.writebacks += u64::from(whole);
        whole
    }

    /// The ten clocks of a refill, then the last clock.
    pub fn refill(&mut self, word: u32, done: u64) {
        let address = self.address(word);
        let (cache, store) = (&mut *self.cache, &*self.store);
        let moved = |count| cache.refill_clock(store, address, count);
        if self.feed.spend(self.state, REFILL, done..10, moved) {
            self.state.refills += 1;
            self.cache.fill(address);
            self.due()
        }
    }

    /// Five waits for LD, four for ST, then the last clock.
    pub fn uncached(&mut self, word: u32, done: u64) {
        let load = word::operation(word) == word::LD;
        let clocks = if load { 6 } else { 5 };
        if !self.feed.spend(self.state, UNCACHED, done..clocks, |_| ()) {
            return;
        }
        let address = self.address(word);
        if load {
            self.set_d(word, self.store[address]);
        } else {
            self.store[address] = self.b(word);
        }
        self.advance()
    }

    /// Marks the last clock as due; the loop in short.rs runs it.
    fn due(&mut self) {
        (self.state.phase, self.state.count) = (LAST, 0);
    }

    fn advance(&mut self) {
        self.events.finished(self.state.pc as usize, self.feed.clocks.len());
        self.state.pc = word::next(self.state.pc as usize) as u64;
        self.finished += 1;
    }

    /// Operand A.
    fn a(&self, word: u32) -> u32 {
        word::operand(word, self.registers[self.state.register(word::s(word))])
    }

    /// Operand B, R.d.
    fn b(&self, word: u32) -> u32 {
        self.registers[self.state.register(word::d(word))]
    }

    fn set_d(&mut self, word: u32, value: u32) {
        self.registers[self.state.register(word::d(word))] = value;
    }

    /// The memory address of an LD or ST known to go to memory.
    fn address(&self, word: u32) -> usize {
        word::address(word, self.registers[self.state.register(word::s(word))]) & (self.store.len() - 1)
    }
}
