// The control unit's edge: pcmux, the fetch registers PCf and IRf, and PC and IR after them.
// Source: "The control unit" (the pipelined form), "Interrupts" (the final pcmux). Paper: switch IRQ1.
// `bubble` is not in the source: it distinguishes a NOP that the circuit put into IR from the program's own 3BC00H.
use crate::circuit::Circuit;
use crate::switches::Switch;
use crate::wires::{Wires, BC, BL};
use crate::words::NEVER;

impl Circuit {
    /// The program memory's output for an address; beyond the program it is 3BC00H.
    fn fetched(&self, address: u32) -> u32 {
        self.program.get(address as usize).copied().unwrap_or(NEVER)
    }

    /// PC + 1, the link.
    pub fn next_pc(&self) -> u32 {
        (self.pc + 1) & 0xFFF
    }

    fn target(&self, wires: &Wires) -> u32 {
        let signed = (self.ir & 0x1FF).wrapping_sub(self.ir & 0x200);
        let sum = match wires.op {
            BL => self.next_pc() + (self.ir & 0xFFF),
            BC => self.next_pc().wrapping_add(signed),
            _ => wires.a,
        };
        sum & 0xFFF
    }

    /// Sets PCf, and IRf with it.
    fn fetch(&mut self, pcmux: u32) {
        self.pcf = pcmux & 0xFFF;
        self.irf = self.fetched(self.pcf);
    }

    /// PC and IR take over what was fetched.
    fn shift(&mut self) {
        (self.pc, self.ir, self.bubble) = (self.pcf, self.irf, false);
    }

    fn insert_nop(&mut self, pc: u32) {
        (self.pc, self.ir, self.bubble) = (pc, NEVER, true);
    }

    pub fn reset_control(&mut self) {
        self.insert_nop(0);
        self.fetch(0);
        self.stall1 = false;
    }

    pub fn edge_control(&mut self, wires: &Wires) {
        if let (true, Some(vector)) = (wires.take, wires.vector) {
            // One clock: words 2 and 3 come from the program memory's second port.
            (self.pc, self.ir, self.bubble) = (vector, self.fetched(vector), false);
            self.fetch(vector + 1);
        } else if wires.stall0 {
            self.fetch(self.pcf);
        } else if let Some(vector) = wires.vector {
            self.insert_nop(self.pcf);
            self.fetch(vector);
        } else if wires.jump {
            let target = self.target(wires);
            self.insert_nop(target);
            self.fetch(target);
        } else {
            self.shift();
            self.fetch(self.pcf + 1);
        }
    }

    pub fn edge_stall1(&mut self, wires: &Wires) {
        let held = wires.held && self.switches.paper(Switch::HoldLd);
        if !held {
            let block_ram = wires.device || self.switches.published(Switch::Memory);
            self.stall1 = wires.op == crate::wires::LD && block_ram && !self.stall1;
        }
    }
}
