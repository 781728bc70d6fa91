// The data unit's edge: regmux into the register file, the flags, H.
// Source: "The data processing unit", regmux of "Input and Output". Paper: switches Z32, RORNZ, NZ and CARRY.
// The interrupt's save, RTI's flags and the condition for writing a register are missing in the text and follow document 01.
use crate::alu::{self, Flags};
use crate::circuit::{Circuit, Pins};
use crate::switches::Switch;
use crate::wires::{Wires, BL, BR, LD};
use crate::words::{ADD, DIV, MUL, ROR, SUB};

impl Circuit {
    /// The index of register `number` of the current bank among the sixteen.
    pub fn place(&self, number: u32) -> usize {
        (u32::from(self.int_md) << 3 | number & 7) as usize
    }

    fn regmux(&self, wires: &Wires, pins: &Pins) -> u32 {
        match wires.op {
            _ if wires.ack => self.flags.bits() << 28 | self.pc,
            LD if wires.device => pins.inbus,
            LD => self.memory.loaded(wires.request, self.cache_on, &self.switches),
            ROR => wires.rotated,
            BL | BR => self.next_pc(),
            _ => wires.alu as u32,
        }
    }

    /// Register 7 of bank 1 for the save, 7 for BL, else bits 13-11.
    fn destination(&self, wires: &Wires) -> usize {
        match wires.op {
            _ if wires.ack => 15,
            BL => self.place(7),
            _ => self.place(self.ir >> 11),
        }
    }

    /// The flags after a register was written.
    fn flags_after(&self, wires: &Wires) -> Flags {
        let Flags { mut n, mut z, mut c, mut v } = self.flags;
        let of_rotation = wires.op == ROR && self.switches.paper(Switch::RorNz);
        let result = if of_rotation { u64::from(wires.rotated) } else { wires.alu };
        if wires.op <= ROR || self.switches.published(Switch::Nz) {
            let looked_at = if self.switches.published(Switch::Z32) { result } else { result & 0xFFFF_FFFF };
            n = result >> 31 & 1 == 1;
            z = looked_at == 0;
        }
        match wires.op {
            ADD | SUB => {
                let bit_32 = result >> 32 == 1;
                let given = self.switches.paper(Switch::Carry);
                c = if given { alu::carry(wires.op, wires.a, wires.b) } else { bit_32 };
                v = bit_32 ^ (result >> 31 & 1 == 1);
            }
            ROR => c = wires.rotated & 1 == 1,
            _ => (),
        }
        Flags { n, z, c, v }
    }

    fn high_after(&self, wires: &Wires) -> u32 {
        match wires.op {
            MUL => (self.multiplier.product() >> 32) as u32,
            DIV => self.divider.remainder(wires.b, wires.a, &self.switches),
            _ => self.h,
        }
    }

    pub fn edge_data(&mut self, wires: &Wires, pins: &Pins) {
        if wires.regwr {
            let (place, word) = (self.destination(wires), self.regmux(wires, pins));
            (self.flags, self.h) = (self.flags_after(wires), self.high_after(wires));
            self.registers[place] = word;
        }
        if wires.is_rti(self.ir) && !wires.stall0 {
            self.flags = Flags::from_bits(wires.aa >> 28);
        }
    }
}
