// Local memory by document 01's clock table: a state machine that stalls the circuit, with its cache.
// Paper: "Clock by clock", the clock table and the cache. It is our reading of document 01, not evidence from the source.
// The cache of the source's Part 5 is a different one and is not here; device accesses do not reach this module.

/// The circuit's request to local memory in one clock.
#[derive(Clone, Copy, PartialEq, Eq, Debug)]
pub enum Request {
    Nothing,
    Load(usize),
    Store(usize, u32),
    /// LDPSR that turns the cache off.
    Empty,
}

#[derive(Clone, Copy, PartialEq, Eq, Debug)]
enum Phase {
    Ready,
    Wait,
    WriteBack,
    Refill,
    Last,
}

#[derive(Clone, Copy, Default)]
struct Line {
    full: bool,
    dirty: bool,
    block: usize,
}

pub struct Cache {
    phase: Phase,
    /// Clocks of the phase that are done.
    count: usize,
    lines: [Line; 16],
    words: [u32; 128],
    pub refills: u64,
    pub writebacks: u64,
}

/// Clocks of a burst (the paper's ten).
const TEN: usize = 10;

fn line_of(address: usize) -> usize {
    address / 8 % 16
}

fn place_of(address: usize) -> usize {
    address % 128
}

impl Cache {
    pub fn empty() -> Cache {
        let lines = [Line::default(); 16];
        Cache { phase: Phase::Ready, count: 0, lines, words: [0; 128], refills: 0, writebacks: 0 }
    }

    pub fn in_flight(&self) -> bool {
        self.phase != Phase::Ready
    }

    fn hit(&self, address: usize) -> bool {
        let line = self.lines[line_of(address)];
        line.full && line.block == address / 8
    }

    fn dirty_line(&self) -> Option<usize> {
        self.lines.iter().position(|line| line.dirty)
    }

    /// Whether this clock is the last of the request, so that the circuit is not stalled.
    pub fn ends(&self, request: Request, on: bool) -> bool {
        match request {
            Request::Nothing => true,
            Request::Empty => self.dirty_line().is_none(),
            Request::Load(_) if !on => self.count == 5,
            Request::Store(..) if !on => self.count == 4,
            Request::Load(_) => self.phase == Phase::Last,
            Request::Store(address, _) => self.phase == Phase::Last || self.phase == Phase::Ready && self.hit(address),
        }
    }

    /// The word that a load gets in its last clock.
    pub fn loaded(&self, store: &[u32], address: usize, on: bool) -> u32 {
        if on {
            self.words[place_of(address)]
        } else {
            store[address]
        }
    }

    /// The registers after an unheld clock with this request.
    pub fn edge(&mut self, store: &mut [u32], request: Request, on: bool) {
        if self.ends(request, on) {
            self.finish(store, request, on);
            (self.phase, self.count) = (Phase::Ready, 0);
            return;
        }
        match (self.phase, request) {
            (Phase::Ready, Request::Load(address) | Request::Store(address, _)) if on => self.look(address),
            (Phase::Ready | Phase::Wait, Request::Load(_) | Request::Store(..)) => {
                (self.phase, self.count) = (Phase::Wait, self.count + 1);
            }
            (Phase::Refill, Request::Load(address) | Request::Store(address, _)) => self.refill(store, address),
            (_, Request::Load(address) | Request::Store(address, _)) => {
                if self.write_back(store, line_of(address)) {
                    self.begin_refill(line_of(address));
                }
            }
            (_, _) => self.write_back_lowest(store),
        }
    }

    fn finish(&mut self, store: &mut [u32], request: Request, on: bool) {
        match request {
            Request::Store(address, word) if on => {
                self.words[place_of(address)] = word;
                self.lines[line_of(address)].dirty = true;
            }
            Request::Store(address, word) => store[address] = word,
            Request::Empty => self.lines = [Line::default(); 16],
            _ => (),
        }
    }

    /// The tag-check clock.
    fn look(&mut self, address: usize) {
        if self.hit(address) {
            self.phase = Phase::Last;
        } else if self.lines[line_of(address)].dirty {
            self.phase = Phase::WriteBack;
        } else {
            self.begin_refill(line_of(address));
        }
    }

    fn begin_refill(&mut self, line: usize) {
        self.lines[line] = Line::default();
        (self.phase, self.count) = (Phase::Refill, 0);
    }

    /// One clock of a write-back burst; true if it was the last.
    fn write_back(&mut self, store: &mut [u32], line: usize) -> bool {
        let first = self.lines[line].block * 8;
        if let Some(word) = self.count.checked_sub(2) {
            store[first + word] = self.words[line * 8 + word];
        }
        self.phase = Phase::WriteBack;
        self.count = (self.count + 1) % TEN;
        if self.count == 0 {
            self.lines[line].dirty = false;
            self.writebacks += 1;
        }
        self.count == 0
    }

    /// One clock of an emptying, which has no tag-check clock.
    fn write_back_lowest(&mut self, store: &mut [u32]) {
        let Some(line) = self.dirty_line() else { return };
        if self.write_back(store, line) && self.dirty_line().is_none() {
            self.phase = Phase::Last;
        }
    }

    /// One clock of a refill burst for the line of an address.
    fn refill(&mut self, store: &[u32], address: usize) {
        let line = line_of(address);
        if let Some(word) = self.count.checked_sub(2) {
            self.words[line * 8 + word] = store[address / 8 * 8 + word];
        }
        self.count = (self.count + 1) % TEN;
        if self.count == 0 {
            self.lines[line] = Line { full: true, dirty: false, block: address / 8 };
            self.refills += 1;
            self.phase = Phase::Last;
        }
    }
}
