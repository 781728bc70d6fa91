// The lister: watches the circuit's wires clock by clock and writes the listing of an image.
// Paper: "Images and the listing program". With the published interrupt `took` follows from the circuit.
// It changes nothing in the circuit; an acknowledge that does not jump has no row.
use crate::circuit::{Circuit, Pins};
use crate::image::Image;
use crate::switches::Switches;
use crate::wires::{Out, Wires};
use std::fmt::Write;

/// A listing as text, and what it counts.
#[derive(Clone, PartialEq, Eq, Debug, Default)]
pub struct Listing {
    pub text: String,
    pub instructions: u64,
    pub interrupts: u64,
    pub clocks: u64,
    pub held: u64,
}

pub struct Lister {
    pub circuit: Circuit,
    pub listing: Listing,
    /// Unheld clocks since the last row.
    took: u64,
    /// Address and word of a branch or an interrupt whose NOP is still to come.
    pending: Option<(u32, String)>,
}

impl Lister {
    pub fn new(circuit: Circuit) -> Lister {
        let text = "clock at word took\n".to_string();
        Lister { circuit, listing: Listing { text, ..Listing::default() }, took: 0, pending: None }
    }

    /// Resets the circuit and begins the listing anew.
    pub fn reset(self) -> Lister {
        let mut circuit = self.circuit;
        circuit.reset();
        Lister::new(circuit)
    }

    pub fn clock(&mut self, line_byte: u8, input: u32) -> Out {
        let pins = Pins::new(line_byte, input);
        let wires = self.circuit.wires(&pins);
        self.listing.clocks += 1;
        if wires.held {
            self.listing.held += 1;
        } else {
            self.watch(&wires);
        }
        self.circuit.edge(&wires, &pins);
        wires.out
    }

    /// Examines an unheld clock before its edge.
    fn watch(&mut self, wires: &Wires) {
        self.took += 1;
        if self.circuit.bubble {
            self.end_pending();
        }
        if wires.ack {
            self.acknowledge(wires);
        } else if !self.circuit.bubble && !wires.stall0 {
            let (at, word) = (self.circuit.pc, format!("{:05X}", self.circuit.ir));
            self.listing.instructions += 1;
            if wires.jump {
                self.pending = Some((at, word));
            } else {
                self.row(at, &word);
            }
        }
    }

    /// The NOP after a branch, an interrupt or a reset; the last of these has no row.
    fn end_pending(&mut self) {
        match self.pending.take() {
            Some((at, word)) => self.row(at, &word),
            None => self.took = 0,
        }
    }

    fn acknowledge(&mut self, wires: &Wires) {
        let at = self.circuit.pc;
        match wires.vector {
            Some(vector) if wires.take => self.row(at, &format!("irq{}", vector - 2)),
            _ if wires.stall0 => (),
            Some(vector) => self.pending = Some((at, format!("irq{}", vector - 2))),
            None => self.took = 0,
        }
    }

    fn row(&mut self, at: u32, word: &str) {
        self.listing.interrupts += u64::from(word.starts_with('i'));
        let clocks = self.listing.clocks;
        // Writing to a string does not fail.
        let _ = writeln!(self.listing.text, "{clocks} {at:03X} {word} {}", self.took);
        self.took = 0;
    }

    /// Adds the last row.
    pub fn end(mut self) -> Listing {
        let cache = &self.circuit.memory.cache;
        let Listing { clocks, held, .. } = self.listing;
        let (refills, writebacks) = (cache.refills, cache.writebacks);
        let _ = writeln!(self.listing.text, "end {clocks} held {held} refills {refills} writebacks {writebacks}");
        self.listing
    }
}

/// The listing of a legal image.
pub fn list(image: &Image, switches: Switches) -> Listing {
    let mut lister = Lister::new(Circuit::new(switches, &image.program, &image.store()));
    for run in &image.runs {
        for _ in 0..run.count {
            lister.clock(run.line_byte, run.input);
        }
    }
    lister.end()
}

#[cfg(test)]
mod tests {
    use super::*;
    use crate::image::read;
    use crate::switches::{Setting, Switch};

    /// The paper's example.
    const BYTES: [u8; 33] =
        [0x0C, 0, 0, 0, 1, 0, 5, 0, 0, 0, 3, 0, 2, 0, 0xFF, 0xBB, 3, 0, 9, 0, 0, 0, 3, 0, 0x28, 0, 0, 0, 0, 0, 0, 0, 0];
    const TEXT: &str = "clock at word took\n1 000 00005 1\n34 001 20003 33\n36 002 3BBFF 2\n38 002 3BBFF 2\n\
                        40 002 3BBFF 2\nend 40 held 0 refills 0 writebacks 0\n";

    #[test]
    fn s4_11_the_papers_example() {
        let image = read(&BYTES).unwrap();
        assert_eq!(image.bytes(), BYTES);
        assert_eq!(list(&image, Switches::all(Setting::Paper)).text, TEXT);
    }

    #[test]
    fn the_published_circuit_agrees_once_its_first_nop_is_not_counted() {
        let published = Switches::all(Setting::Published).with(Switch::Fill, Setting::Paper);
        assert_eq!(list(&read(&BYTES).unwrap(), published).text, TEXT);
    }
}
