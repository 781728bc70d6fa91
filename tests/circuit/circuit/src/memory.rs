// Local memory: the published block RAM with its output register, and the connection to document 01's state machine.
// Source: "The Local Data Memory". Paper: switches MEMORY, DMIO and RESET.
// cache.rs has what document 01's memory does clock by clock.
use crate::cache::{Cache, Request};
use crate::switches::{Switch, Switches};

pub struct Memory {
    pub words: Vec<u32>,
    /// The block RAM's output register.
    pub dmout: u32,
    pub cache: Cache,
}

impl Memory {
    pub fn new(words: Vec<u32>) -> Memory {
        Memory { words, dmout: 0, cache: Cache::empty() }
    }

    /// The address reduced to the store's length.
    pub fn place(&self, address: u32) -> usize {
        address as usize & (self.words.len() - 1)
    }

    /// Whether local memory stalls the processor in this clock, in addition to stall1.
    pub fn stall(&self, request: Request, on: bool, switches: &Switches) -> bool {
        switches.paper(Switch::Memory) && !self.cache.ends(request, on)
    }

    pub fn loaded(&self, request: Request, on: bool, switches: &Switches) -> u32 {
        match request {
            Request::Load(address) if switches.paper(Switch::Memory) => self.cache.loaded(&self.words, address, on),
            _ => self.dmout,
        }
    }

    /// The edge of a clock: `request` goes to local memory, `port` is the store that reaches the block RAM.
    pub fn edge(&mut self, request: Request, port: Port, held: bool, on: bool, switches: &Switches) {
        self.dmout = self.words[port.place];
        if let Some(word) = port.written {
            self.words[port.place] = word;
        }
        if !held && switches.paper(Switch::Memory) {
            self.cache.edge(&mut self.words, request, on);
        }
    }
}

/// The block RAM's wires: dmadr, and dmin if dmwr is high.
#[derive(Clone, Copy)]
pub struct Port {
    pub place: usize,
    pub written: Option<u32>,
}
