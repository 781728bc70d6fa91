// The wires of one clock: everything that is computed from the registers and the pins before the edge.
// Source: Part 1, decode, operands, dmadr, ioenb, stall0, regwr. Paper: switches ACKMASK, ADR16, IO1, HOLDREG, IRQ1.
// No register changes here.
use crate::alu::{self, Operands, NONE};
use crate::cache::Request;
use crate::circuit::{Circuit, Pins};
use crate::memory::Port;
use crate::multiplier::Inputs;
use crate::switches::Switch;
use crate::words::{DIV, MOV, MUL, NEVER, ROR};

pub const BR: u32 = 11;
pub const LD: u32 = 12;
pub const ST: u32 = 13;
pub const BC: u32 = 14;
pub const BL: u32 = 15;

/// What a clock shows at the pins: document 01's answer byte and word.
#[derive(Clone, Copy, PartialEq, Eq, Debug, Default)]
pub struct Out {
    pub byte: u8,
    pub word: u32,
}

pub struct Wires {
    /// The outer stall.
    pub held: bool,
    /// The acknowledge clock: intAck, or with IRQ1 on Paper the clock that takes the interrupt.
    pub ack: bool,
    /// With IRQ1 on Paper: this clock takes the interrupt.
    pub take: bool,
    /// 2 or 3 if the interrupt jumps in this clock.
    pub vector: Option<u32>,
    /// The operation, or NONE if it is masked.
    pub op: u32,
    pub a: u32,
    pub b: u32,
    /// AA: R.s.
    pub aa: u32,
    pub alu: u64,
    pub rotated: u32,
    /// LD or ST to a device.
    pub device: bool,
    pub request: Request,
    pub port: Port,
    /// The stalls that the circuit makes itself; then all of them.
    pub own_stall: bool,
    pub stall0: bool,
    /// A branch that is taken.
    pub jump: bool,
    pub regwr: bool,
    pub out: Out,
}

impl Wires {
    /// The inputs of the multiplier (`MUL`) or the divider (`DIV`).
    pub fn inputs(&self, op: u32) -> Inputs {
        Inputs { on: self.op == op, a: self.a, b: self.b, held: self.held }
    }

    pub fn is_ldpsr(&self, ir: u32) -> bool {
        self.op == BR && ir & 0x400 == 0
    }

    pub fn is_rti(&self, ir: u32) -> bool {
        self.op == BR && ir & 0x500 == 0x500
    }
}

impl Circuit {
    /// Register `number` of the current bank.
    fn register(&self, number: u32) -> u32 {
        self.registers[self.place(number)]
    }

    /// dmadr and ioenb.
    fn address(&self, aa: u32) -> (u32, bool) {
        let base = if self.ir & 7 == 7 { 0 } else { aa };
        let sum = base.wrapping_add(self.ir >> 3 & 0xFF);
        if self.switches.published(Switch::Adr16) {
            (sum & 0xFFF, sum >> 6 & 0x3F == 0x3F)
        } else {
            (sum & 0xFFFF, sum >> 6 & 0x3FF == 0x3FF)
        }
    }

    /// The A operand. MOV with bits 10 and 3 takes H, which is missing in the text.
    fn operand(&self, op: u32, aa: u32) -> u32 {
        match self.ir >> 10 & 1 {
            0 => self.ir & 0x3FF,
            _ if op == MOV && self.ir & 8 != 0 => self.h,
            _ => aa,
        }
    }

    fn request(&self, op: u32, device: bool, place: usize, b: u32) -> Request {
        match op {
            LD if !device => Request::Load(place),
            ST if !device => Request::Store(place, b),
            BR if self.ir & 0x408 == 0 && self.cache_on => Request::Empty,
            _ => Request::Nothing,
        }
    }

    /// Which operations write a register; missing in the text.
    fn writes(&self, op: u32) -> bool {
        match op {
            BR => self.ir & 0x700 == 0x600,
            ST | BC | NONE => false,
            _ => true,
        }
    }

    fn out(&self, op: u32, address: u32, b: u32, inbus: u32) -> Out {
        let device = (address as u8 & 63) << 2;
        match op {
            LD => Out { byte: device | 1, word: inbus },
            _ => Out { byte: device | 2, word: b },
        }
    }

    /// dmwr: every ST; with DMIO on Paper not one to a device, with MEMORY on Paper not one to memory.
    fn port(&self, op: u32, device: bool, place: usize, b: u32) -> Port {
        let writes = match device {
            true => self.switches.published(Switch::DmIo),
            false => self.switches.published(Switch::Memory),
        };
        Port { place, written: (op == ST && writes).then_some(b) }
    }

    /// Whether the clock begins an instruction, unless it is held or interrupted.
    fn begins(&self) -> bool {
        let midway = match self.ir >> 14 {
            MUL => self.multiplier.s != 0,
            DIV => self.divider.s != 0,
            LD => self.stall1,
            _ => false,
        };
        !self.bubble && !midway && !self.memory.cache.in_flight()
    }

    /// Whether this clock takes an interrupt, by document 01's rule; never by the published one.
    fn takes(&self, pins: &Pins) -> bool {
        let passed_over = self.switches.published(Switch::NopIrq) && self.ir == NEVER;
        self.switches.paper(Switch::Irq1)
            && !pins.stall
            && self.begins()
            && !self.int_md
            && self.enabled_line(pins).is_some()
            && !passed_over
    }

    pub fn wires(&self, pins: &Pins) -> Wires {
        let take = self.takes(pins);
        let ack = take || self.int_ack;
        let op = if ack && self.switches.paper(Switch::AckMask) { NONE } else { self.ir >> 14 };
        let dst = if ack || op == BL { 7 } else { self.ir >> 11 & 7 };
        let (b, aa) = (self.register(dst), self.register(self.ir & 7));
        let a = self.operand(op, aa);
        let (address, ioenb) = self.address(aa);
        let device = ioenb && (op == LD || op == ST);
        let place = self.memory.place(address);
        let request = self.request(op, device, place, b);

        let block_ram = device || self.switches.published(Switch::Memory);
        let stall_ld = op == LD && block_ram && !self.stall1;
        let stall_local = self.memory.stall(request, self.cache_on, &self.switches);
        let stall_steps = self.multiplier.stall(op == MUL) || self.divider.stall(op == DIV);
        let own_stall = stall_ld || stall_local || stall_steps;
        let stall0 = own_stall || pins.stall;

        let jump = match op {
            BL => true,
            BC => alu::condition(self.ir, self.flags),
            BR => self.ir & 0x400 != 0,
            _ => false,
        };
        let quotient = self.divider.quotient(b, a, &self.switches);
        let operands = Operands { a, b, product: self.multiplier.product() as u32, quotient };
        let quiet = stall0 && self.switches.paper(Switch::Io1);
        let regwr_stall = own_stall || pins.stall && self.switches.paper(Switch::HoldReg);
        Wires {
            held: pins.stall,
            ack,
            take,
            vector: if ack { self.vector(pins, take) } else { None },
            op,
            a,
            b,
            aa,
            alu: alu::result(op, &operands),
            rotated: if op == ROR { alu::rotated(a, b) } else { 0 },
            device,
            request,
            port: self.port(op, device, place, b),
            own_stall,
            stall0,
            jump,
            regwr: (ack || self.writes(op)) && !regwr_stall,
            out: if device && !quiet { self.out(op, address, b, pins.inbus) } else { Out::default() },
        }
    }
}
