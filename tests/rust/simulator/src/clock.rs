// The clock engine: each instruction takes its clocks from the feed, one by one, until the feed is used up.
// Paper: "Clock by clock": held clocks, interrupts, the phases between two calls.
// The record has been checked before. Short instructions are in short.rs, longer ones in flight.rs.
use crate::cache::Cache;
use crate::events::Events;
use crate::feed::Feed;
use crate::record::{State, ARITHMETIC, LAST, READY, REFILL, WRITE_BACK};
use crate::short::Left;
use crate::word;

/// A running machine: the parts of the record, and what is lent with it.
pub struct Machine<'a, E> {
    pub state: &'a mut State,
    pub registers: &'a mut [u32; 16],
    pub cache: &'a mut Cache,
    pub program: &'a [u32],
    pub store: &'a mut [u32],
    pub feed: Feed<'a>,
    /// Instructions finished.
    pub finished: u64,
    /// The receiver of their events.
    pub events: &'a mut E,
}

impl<E: Events> Machine<'_, E> {
    /// Uses up the feed and returns the number of clocks used.
    pub fn run(&mut self) -> u64 {
        let clocks = self.feed.clocks.len() as u64;
        self.resume();
        while let Left::Long(word) = self.short() {
            self.begin(word);
        }
        self.state.clocks += clocks;
        self.state.held += self.feed.held;
        clocks
    }

    /// Continues a longer instruction in flight, if there is one; a last clock that is due is left to `short`.
    fn resume(&mut self) {
        let (phase, count) = (self.state.phase, self.state.count);
        if phase == READY || phase == LAST {
            return;
        }
        (self.state.phase, self.state.count) = (READY, 0);
        let word = word::fetch(self.program, self.state.pc as usize);
        match (phase, word::operation(word)) {
            (ARITHMETIC, word::MUL) => self.multiply(word, count),
            (ARITHMETIC, _) => self.divide(word, count),
            (WRITE_BACK, word::CONTROL) => self.empty(count),
            (WRITE_BACK, _) => self.write_back(word, count),
            (REFILL, _) => self.refill(word, count),
            _ => self.uncached(word, count),
        }
    }
}
