// The interrupt facility: sampling, intAck, intMd and the enables, with LDPSR and RTI.
// Source: "Interrupts". Paper: the interrupt rule; switches NOPIRQ, PSRIRQ, ACKLINE, HOLDRTI and IRQ1.
// The jump itself is in control.rs, the save in data.rs. `interrupt_line` is not in the source; ACKLINE on Paper needs it.
use crate::circuit::{Circuit, Pins};
use crate::switches::Switch;
use crate::wires::Wires;
use crate::words::NEVER;

impl Circuit {
    /// irq0e, then irq1e: the first interrupt line that is high and enabled.
    pub fn enabled_line(&self, pins: &Pins) -> Option<u32> {
        if pins.irq0 && self.int_enb0 {
            Some(0)
        } else if pins.irq1 && self.int_enb1 {
            Some(1)
        } else {
            None
        }
    }

    /// The address the acknowledge clock jumps to, if it jumps.
    pub fn vector(&self, pins: &Pins, take: bool) -> Option<u32> {
        if take || self.switches.published(Switch::AckLine) {
            self.enabled_line(pins).map(|interrupt_line| 2 + interrupt_line)
        } else {
            Some(2 + self.interrupt_line)
        }
    }

    /// Whether the published rule samples an interrupt line in this clock.
    fn samples(&self, wires: &Wires, pins: &Pins) -> bool {
        let nop = match self.switches.published(Switch::NopIrq) {
            true => self.ir == NEVER,
            false => self.bubble,
        };
        let kept = wires.is_ldpsr(self.ir) && self.switches.paper(Switch::PsrIrq);
        self.switches.published(Switch::Irq1)
            && self.enabled_line(pins).is_some()
            && !self.int_md
            && !wires.stall0
            && !nop
            && !kept
    }

    pub fn reset_interrupt(&mut self) {
        (self.int_enb0, self.int_enb1, self.int_md, self.int_ack) = (false, false, false, false);
        self.cache_on = false;
    }

    pub fn edge_interrupt(&mut self, wires: &Wires, pins: &Pins) {
        let acknowledged = self.int_ack && !wires.stall0;
        let waits = wires.held && self.switches.paper(Switch::HoldRti) || wires.own_stall;
        if wires.take {
            self.int_md = true;
        } else if self.samples(wires, pins) {
            (self.int_ack, self.int_md) = (true, true);
            self.interrupt_line = self.enabled_line(pins).unwrap_or(0);
        } else if wires.is_rti(self.ir) && !waits {
            self.int_md = false;
        } else if wires.is_ldpsr(self.ir) && !waits {
            self.set_status();
        }
        if acknowledged {
            self.int_ack = false;
        }
    }

    fn set_status(&mut self) {
        self.int_enb0 = self.ir & 1 != 0;
        self.int_enb1 = self.ir & 2 != 0;
        self.int_md = self.ir & 4 != 0;
        self.cache_on = self.ir & 8 != 0;
    }

    /// The four status bits of document 01.
    pub fn status(&self) -> u32 {
        let bits = [self.int_enb0, self.int_enb1, self.int_md, self.cache_on];
        bits.iter().rev().fold(0, |status, &bit| status << 1 | u32::from(bit))
    }
}
