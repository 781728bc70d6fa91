// The switches: every place where the published text and the paper, documents 01 and 02, differ, as data.
// Source: Part 1. Paper: what each row's third text says; "Misreadings of the source" for the last column.
// The circuit reads the switches; how each changes its behaviour is in the circuit's modules.
//
// Missing in the source's text and filled in from document 01, so that a comparison is no evidence for them:
// regwr (which operations write a register, and that MUL, DIV and LD do not write while they stall themselves), dst
// (7 for BL and for the interrupt's save), LDH, RTI's flags, the save's entry in regmux, the wire S of the conditions
// (N xor V), status bit 3, the place of the interrupt's case in the code of PC and IR, and the widths of imm and off.

/// Which of two behaviours a switch has.
#[derive(Clone, Copy, PartialEq, Eq, Debug)]
pub enum Setting {
    Published,
    /// Documents 01 and 02.
    Paper,
}

#[derive(Clone, Copy, PartialEq, Eq, Debug)]
pub enum Switch {
    Z32,
    RorNz,
    Mul33,
    DivTop,
    NopIrq,
    Nz,
    DivNp,
    Adr16,
    AckMask,
    PsrIrq,
    AckLine,
    HoldLd,
    HoldMul,
    HoldRti,
    Io1,
    Irq1,
    Reset,
    HoldReg,
    DmIo,
    Fill,
    Memory,
    Carry,
}

/// A switch, its name, the id of its sentence in docs/CLAIMS.md, the two behaviours, and whether document 01 lists it under
/// its misreadings.
pub struct Row {
    pub switch: Switch,
    pub name: &'static str,
    pub sentence: &'static str,
    pub published: &'static str,
    pub paper: &'static str,
    pub listed: bool,
}

const fn row(
    switch: Switch,
    name: &'static str,
    sentence: &'static str,
    listed: bool,
    published: &'static str,
    paper: &'static str,
) -> Row {
    Row { switch, name, sentence, published, paper, listed }
}

/// In the order of `Switch`.
pub const TABLE: [Row; 22] = [
    row(
        Switch::Z32,
        "Z32",
        "S6.2",
        true,
        "Z looks at all 33 bits of aluRes, so a wrapped sum of zero and every NOT miss it",
        "Z looks at the 32-bit result",
    ),
    row(
        Switch::RorNz,
        "RORNZ",
        "S6.3",
        true,
        "N and Z of ROR come from B xor A",
        "N and Z of ROR come from its result",
    ),
    row(
        Switch::Mul33,
        "MUL33",
        "S6.4",
        true,
        "a stall in clock 33 clears S, and MUL or DIV starts over",
        "clock 33 is held like any other",
    ),
    row(
        Switch::DivTop,
        "DIVTOP",
        "S6.6",
        true,
        "the divider drops bit 31 of the dividend's absolute value",
        "it is kept",
    ),
    row(
        Switch::NopIrq,
        "NOPIRQ",
        "S6.7",
        true,
        "no line is looked at while IR = 3BC00H, the program's own too",
        "only a NOP that the circuit put in is passed over",
    ),
    row(
        Switch::Nz,
        "NZ",
        "S1.18",
        false,
        "every write to a register sets N and Z: LD, links and the interrupt's save too",
        "only operations 0-10 do",
    ),
    row(
        Switch::DivNp,
        "DIVNP",
        "S1.17",
        false,
        "the divider goes on with a divisor at or below zero and gives what comes out",
        "quotient 0, H the dividend, step registers zero",
    ),
    row(
        Switch::Adr16,
        "ADR16",
        "S1.22",
        false,
        "addresses have 12 bits, devices are 0FC0H-0FFFH",
        "addresses have 16 bits, devices are FFC0H-FFFFH",
    ),
    row(
        Switch::AckMask,
        "ACKMASK",
        "S2.3",
        false,
        "the instruction put off acts in the acknowledge clock: stalls, device and memory accesses, mode, flags",
        "nothing of it happens",
    ),
    row(
        Switch::PsrIrq,
        "PSRIRQ",
        "S2.3",
        false,
        "LDPSR is lost if a line is sampled in its clock",
        "LDPSR is carried out, and no line is sampled in its clock",
    ),
    row(
        Switch::AckLine,
        "ACKLINE",
        "S2.3",
        false,
        "the vector follows the lines of the acknowledge clock; without a line there is no jump",
        "the vector follows the line that was sampled",
    ),
    row(Switch::HoldLd, "HOLDLD", "S2.2", false, "stall1 runs on in held clocks", "stall1 is held"),
    row(
        Switch::HoldMul,
        "HOLDMUL",
        "S2.2",
        false,
        "multiplier and divider step on in held clocks",
        "their steps are held",
    ),
    row(
        Switch::HoldRti,
        "HOLDRTI",
        "S2.2",
        false,
        "RTI and LDPSR change mode and enables in a held clock already",
        "only in the unheld clock",
    ),
    row(
        Switch::Io1,
        "IO1",
        "S2.5",
        false,
        "iord in both clocks of LD; iord and iowr in held clocks too",
        "only in the last clock, which is unheld",
    ),
    row(
        Switch::Irq1,
        "IRQ1",
        "S2.3",
        false,
        "lines are sampled in an instruction's last clock (a taken branch's first); acknowledge and a NOP follow",
        "lines are judged in the clock in which an instruction would begin; that clock is the whole interrupt",
    ),
    row(
        Switch::Reset,
        "RESET",
        "S1.3",
        false,
        "registers, flags, H, step counters and step registers survive a reset",
        "all are zero, and the cache is empty",
    ),
    row(
        Switch::HoldReg,
        "HOLDREG",
        "S2.2",
        false,
        "regwr (elided) without the outer stall: results are written in held clocks too",
        "nothing is written in a held clock",
    ),
    row(Switch::DmIo, "DMIO", "S1.24", false, "a store to a device also writes the local memory", "the device alone"),
    row(
        Switch::Fill,
        "FILL",
        "S2.4",
        false,
        "after a reset one clock goes to a NOP while the word at 0 is fetched",
        "the first clock begins the word at 0",
    ),
    row(
        Switch::Memory,
        "MEMORY",
        "S2.11",
        false,
        "local memory is a block RAM: LD 2 clocks, ST 1, status bit 3 without effect",
        "the clock table's LD 6 and ST 5, or the cache",
    ),
    row(
        Switch::Carry,
        "CARRY",
        "A2.8",
        false,
        "C is bit 32 of the 33-bit sum or difference of the sign-extended words: the sign of the exact result",
        "C of ADD is the carry out of bit 31, of SUB that B is at or above A without sign",
    ),
];

/// One setting for each switch.
#[derive(Clone, Copy, PartialEq, Eq, Debug)]
pub struct Switches([Setting; TABLE.len()]);

impl Switches {
    pub const fn all(setting: Setting) -> Switches {
        Switches([setting; TABLE.len()])
    }

    pub fn with(mut self, switch: Switch, setting: Setting) -> Switches {
        self.0[switch as usize] = setting;
        self
    }

    pub fn published(&self, switch: Switch) -> bool {
        self.0[switch as usize] == Setting::Published
    }

    pub fn paper(&self, switch: Switch) -> bool {
        !self.published(switch)
    }
}

#[cfg(test)]
mod tests {
    use super::*;

    #[test]
    fn rows_stand_in_the_order_of_the_switches() {
        for (at, row) in TABLE.iter().enumerate() {
            assert_eq!(row.switch as usize, at, "{}", row.name);
        }
        assert_eq!(TABLE.iter().filter(|row| row.listed).count(), 5);
    }
}
