// The circuit's registers, its pins, and one clock: wires from registers, then the edge.
// Source: Part 1, the TRM module. Paper: switches FILL and RESET.
// The parts of the edge are in control.rs, interrupt.rs, data.rs, multiplier.rs, divider.rs and memory.rs.
use crate::alu::Flags;
use crate::divider::Divider;
use crate::memory::Memory;
use crate::multiplier::Multiplier;
use crate::switches::{Switch, Switches};
use crate::wires::{Out, Wires};
use crate::words::{DIV, MUL};

#[derive(Clone, Copy, Default, Debug)]
pub struct Pins {
    /// Reset. In the source it is active low.
    pub reset: bool,
    pub stall: bool,
    pub irq0: bool,
    pub irq1: bool,
    pub inbus: u32,
}

impl Pins {
    /// The pins for a line byte and an input word of document 01.
    pub fn new(line_byte: u8, inbus: u32) -> Pins {
        Pins { reset: false, irq0: line_byte & 1 != 0, irq1: line_byte & 2 != 0, stall: line_byte & 4 != 0, inbus }
    }
}

pub struct Circuit {
    pub switches: Switches,
    pub program: Vec<u32>,
    /// Control unit; PCf and IRf belong to the word being fetched, PC and IR to the one interpreted.
    pub pcf: u32,
    pub irf: u32,
    pub pc: u32,
    pub ir: u32,
    pub bubble: bool,
    pub stall1: bool,
    /// Data unit; registers 0-7 are bank 0, 8-15 bank 1.
    pub registers: [u32; 16],
    pub flags: Flags,
    pub h: u32,
    pub multiplier: Multiplier,
    pub divider: Divider,
    /// Interrupts.
    pub int_enb0: bool,
    pub int_enb1: bool,
    pub int_md: bool,
    pub int_ack: bool,
    /// The interrupt line that was sampled.
    pub interrupt_line: u32,
    /// Status bit 3.
    pub cache_on: bool,
    pub memory: Memory,
}

impl Circuit {
    /// The circuit after power on, all registers zero, and a reset.
    pub fn new(switches: Switches, program: &[u32], store: &[u32]) -> Circuit {
        let mut circuit = Circuit {
            switches,
            program: program.to_vec(),
            pcf: 0,
            irf: 0,
            pc: 0,
            ir: 0,
            bubble: false,
            stall1: false,
            registers: [0; 16],
            flags: Flags::default(),
            h: 0,
            multiplier: Multiplier::default(),
            divider: Divider::default(),
            int_enb0: false,
            int_enb1: false,
            int_md: false,
            int_ack: false,
            interrupt_line: 0,
            cache_on: false,
            memory: Memory::new(store.to_vec()),
        };
        circuit.reset_control();
        circuit.fill();
        circuit
    }

    /// The clock of the NOP after a reset, which is not counted with FILL on Paper.
    fn fill(&mut self) {
        if self.switches.paper(Switch::Fill) {
            self.clock(Pins::default());
        }
    }

    /// One clock with the reset pin active, and what FILL adds to it. Neither is counted.
    pub fn reset(&mut self) {
        self.clock(Pins { reset: true, ..Pins::default() });
        self.fill();
    }

    pub fn clock(&mut self, pins: Pins) -> Out {
        let wires = self.wires(&pins);
        self.edge(&wires, &pins);
        wires.out
    }

    /// The edge. Everything is computed from the registers as they were before the clock.
    pub fn edge(&mut self, wires: &Wires, pins: &Pins) {
        let (multiplied, divided) = (wires.inputs(MUL), wires.inputs(DIV));
        self.memory_edge(wires);
        self.edge_data(wires, pins);
        self.multiplier.edge(&multiplied, &self.switches);
        self.divider.edge(&divided, &self.switches);
        self.edge_stall1(wires);
        // Before the control unit: these still need IR.
        if pins.reset {
            self.reset_interrupt();
            self.reset_control();
            self.clear();
        } else {
            self.edge_interrupt(wires, pins);
            self.edge_control(wires);
        }
    }

    fn memory_edge(&mut self, wires: &Wires) {
        let on = self.cache_on;
        self.memory.edge(wires.request, wires.port, wires.held, on, &self.switches);
    }

    /// What a reset clears in addition with RESET on Paper.
    fn clear(&mut self) {
        if self.switches.paper(Switch::Reset) {
            (self.registers, self.flags, self.h) = ([0; 16], Flags::default(), 0);
            (self.multiplier, self.divider) = (Multiplier::default(), Divider::default());
            self.memory.cache = crate::cache::Cache::empty();
        }
    }
}
