// The divider: state S, remainder R and quotient Q, over the absolute value of the dividend.
// Source: "The Divider". Paper: DIV, and the divider's registers after k steps; switches DIVTOP, DIVNP, MUL33, HOLDMUL.
// R and Q keep their values after clock 33, where document 01 has zero; no listing shows it.
use crate::multiplier::Inputs;
use crate::switches::{Switch, Switches};

#[derive(Clone, Default)]
pub struct Divider {
    /// Steps done, 0-32.
    pub s: u32,
    pub r: u32,
    pub q: u32,
}

/// Whether a divisor is at or below zero and document 01 applies.
fn idle(y: u32, switches: &Switches) -> bool {
    y as i32 <= 0 && switches.paper(Switch::DivNp)
}

impl Divider {
    pub fn stall(&self, div: bool) -> bool {
        div && self.s & 32 == 0
    }

    pub fn quotient(&self, x: u32, y: u32, switches: &Switches) -> u32 {
        if idle(y, switches) {
            return 0;
        }
        match (x >> 31, self.r) {
            (0, _) => self.q,
            (_, 0) => self.q.wrapping_neg(),
            _ => self.q.wrapping_neg().wrapping_sub(1),
        }
    }

    pub fn remainder(&self, x: u32, y: u32, switches: &Switches) -> u32 {
        if idle(y, switches) {
            return x;
        }
        match (x >> 31, self.r) {
            (0, r) => r,
            (_, 0) => 0,
            (_, r) => y.wrapping_sub(r),
        }
    }

    pub fn edge(&mut self, inputs: &Inputs, switches: &Switches) {
        let stepping = self.stall(inputs.on);
        if !inputs.on || inputs.stands(switches, stepping) {
            return;
        }
        if !stepping {
            self.s = 0;
            return;
        }
        self.step(inputs.b, inputs.a, switches);
        self.s += 1;
    }

    /// One shift and trial subtraction; x is the dividend, y the divisor.
    fn step(&mut self, x: u32, y: u32, switches: &Switches) {
        if idle(y, switches) {
            (self.r, self.q) = (0, 0);
            return;
        }
        let size = if x >> 31 == 1 { x.wrapping_neg() } else { x };
        let (above, left) = if self.s == 0 { (0, size) } else { (self.r, self.q) };
        let enters = match self.s {
            0 if switches.published(Switch::DivTop) => 0,
            _ => left >> 31,
        };
        let shifted = above << 1 | enters;
        let difference = shifted.wrapping_sub(y);
        let fits = difference >> 31 == 0;
        self.r = if fits { difference } else { shifted };
        self.q = left << 1 | u32::from(fits);
    }
}
