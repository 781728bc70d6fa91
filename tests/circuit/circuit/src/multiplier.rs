// The multiplier: state S, and Hi and Lo, which hold the partial product and the bits of the multiplier not yet used.
// Source: "The Multiplier". Paper: "After k multiplier steps"; switches MUL33, HOLDMUL and RESET.
// Hi and Lo keep their values after clock 33, where document 01 has zero; no listing shows it.
use crate::switches::{Switch, Switches};

#[derive(Clone, Default)]
pub struct Multiplier {
    /// Steps done, 0-32.
    pub s: u32,
    pub hi: u32,
    pub lo: u32,
}

/// The wires that go into the module in one clock.
#[derive(Clone, Copy)]
pub struct Inputs {
    /// MUL, or DIV for the divider, is in IR.
    pub on: bool,
    pub a: u32,
    pub b: u32,
    /// The outer stall, which the published modules do not have.
    pub held: bool,
}

impl Inputs {
    /// Whether the module's registers keep their values because the clock is held.
    pub fn stands(&self, switches: &Switches, stepping: bool) -> bool {
        let held_by = if stepping { Switch::HoldMul } else { Switch::Mul33 };
        self.held && switches.paper(held_by)
    }
}

impl Multiplier {
    pub fn stall(&self, mul: bool) -> bool {
        mul && self.s & 32 == 0
    }

    /// mulRes.
    pub fn product(&self) -> u64 {
        u64::from(self.hi) << 32 | u64::from(self.lo)
    }

    /// p: Hi with the multiplicand added or not, in 33 bits; subtracted in the last step.
    fn sum(&self, a: u32, b: u32) -> i64 {
        let (hi, b) = (i64::from(self.hi as i32), i64::from(b as i32));
        match self.s {
            0 if a & 1 == 1 => b,
            0 => 0,
            _ if self.lo & 1 == 0 => hi,
            31 => hi - b,
            _ => hi + b,
        }
    }

    pub fn edge(&mut self, inputs: &Inputs, switches: &Switches) {
        let stepping = self.stall(inputs.on);
        if !inputs.on || inputs.stands(switches, stepping) {
            return;
        }
        if !stepping {
            self.s = 0;
            return;
        }
        let p = self.sum(inputs.a, inputs.b);
        let rest = if self.s == 0 { inputs.a } else { self.lo };
        self.hi = (p >> 1) as u32;
        self.lo = (p as u32 & 1) << 31 | rest >> 1;
        self.s += 1;
    }
}
