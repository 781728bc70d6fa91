// The four groups of random images: what their programs and clocks contain, how the switches are set, and how much they show.
// Paper: "a simulation of the published circuit, its slips above set aside". Source: Part 1.
// A switch that a group does not name stays on Published, so each group states what it sets aside.
use crate::programs::{program, Kind};
use crate::random::Random;
use circuit::{Image, Run, Setting, Switch, Switches, TABLE};

pub struct Group {
    pub name: &'static str,
    pub weight: &'static str,
    pub kind: Kind,
    pub held: bool,
    /// The switches on Paper, in addition to those of the group before.
    pub more: &'static [Switch],
    /// Switches that the group's listings must show when one alone is on Published, in addition to those of the group before.
    /// In no group: IO1 (no listing has device accesses), RESET (an image has one), PSRIRQ and ACKLINE (they need IRQ1).
    pub shows: &'static [Switch],
}

/// Images of a group that are run again with a switch inverted.
pub const AGAIN: u64 = 25;

pub const GROUPS: [Group; 4] = [
    Group {
        name: "S8.8 devices only",
        weight: "evidence from the published text: listed slips, NZ, DIVNP, ADR16, IO1, RESET, HOLDREG, DMIO and FILL set aside, C given",
        kind: Kind { interrupts: false, memory: false },
        held: false,
        more: &[
            Switch::Z32,
            Switch::RorNz,
            Switch::Mul33,
            Switch::DivTop,
            Switch::NopIrq,
            Switch::Nz,
            Switch::DivNp,
            Switch::Adr16,
            Switch::Io1,
            Switch::Reset,
            Switch::HoldReg,
            Switch::DmIo,
            Switch::Fill,
            Switch::Carry,
        ],
        shows: &[Switch::Z32, Switch::RorNz, Switch::DivTop, Switch::Nz, Switch::DivNp, Switch::Fill, Switch::Carry],
    },
    Group {
        name: "S2.2 held clocks",
        weight: "weaker: HOLDLD, HOLDMUL and HOLDRTI set aside too, so that a held clock stops every register",
        kind: Kind { interrupts: false, memory: false },
        held: true,
        more: &[Switch::HoldLd, Switch::HoldMul, Switch::HoldRti],
        shows: &[Switch::Mul33, Switch::HoldLd, Switch::HoldMul, Switch::HoldReg],
    },
    Group {
        name: "S2.3 interrupts",
        weight: "weaker still: ACKMASK, PSRIRQ, ACKLINE and IRQ1 set aside too, so that the interrupt is document 01's",
        kind: Kind { interrupts: true, memory: false },
        held: true,
        more: &[Switch::AckMask, Switch::PsrIrq, Switch::AckLine, Switch::Irq1],
        shows: &[Switch::NopIrq, Switch::HoldRti, Switch::AckMask, Switch::Irq1],
    },
    Group {
        name: "S2.11 S2.16 local memory",
        weight: "no evidence from the source: our own reading of document 01's memory and cache",
        kind: Kind { interrupts: true, memory: true },
        held: true,
        more: &[Switch::Memory],
        shows: &[Switch::Adr16, Switch::DmIo, Switch::Memory],
    },
];

/// The switches of a group: its own and those of the groups before it on Paper.
pub fn switches(group: usize) -> Switches {
    let on = GROUPS[..=group].iter().flat_map(|group| group.more);
    on.fold(Switches::all(Setting::Published), |all, &switch| all.with(switch, Setting::Paper))
}

/// Only what the first group's listings show is set aside.
pub fn fewest() -> Switches {
    let on = GROUPS[0].shows.iter();
    on.fold(Switches::all(Setting::Published), |all, &switch| all.with(switch, Setting::Paper))
}

/// Whether a group must show a switch.
pub fn must_show(group: usize, switch: Switch) -> bool {
    GROUPS[..=group].iter().any(|group| group.shows.contains(&switch))
}

/// The image of a group and a seed.
pub fn image(at: usize, seed: u64) -> Image {
    let random = &mut Random::new(seed.wrapping_mul(16).wrapping_add(at as u64));
    let group = &GROUPS[at];
    let program = program(random, group.kind);
    let data = match random.below(3) {
        _ if !group.kind.memory => 0,
        0 => 0,
        1 => 2048,
        _ => random.below(2048),
    };
    let data = (0..data).map(|_| random.word()).collect();
    let clocks = random.between(2000, 6000);
    Image { program, data, runs: runs(group, random, clocks) }
}

/// Line bytes in runs of equal bytes; a run of held clocks is short.
fn runs(group: &Group, random: &mut Random, clocks: u32) -> Vec<Run> {
    let mut runs = Vec::new();
    let mut left = clocks;
    // In half of the images nothing disturbs the opening.
    let mut longest = if random.percent(50) { 60 } else { 5 };
    while left > 0 && runs.len() < 2000 {
        let held = group.held && random.percent(35);
        let interrupt_lines = match group.kind.interrupts && random.percent(45) {
            true => random.bits(2) as u8,
            false => 0,
        };
        let count = random.between(1, if held { 4 } else { longest }).min(left);
        let input = if random.percent(75) { random.bits(32) } else { random.word() };
        runs.push(Run { count, line_byte: interrupt_lines | u8::from(held) << 2, input });
        longest = random.pick(&[1, 3, 12, 40, if group.held { 20 } else { 90 }]);
        left -= count;
    }
    runs
}

/// The name of a switch.
pub fn name(switch: Switch) -> &'static str {
    TABLE[switch as usize].name
}

/// The name of a switch with the id of its sentence.
pub fn label(switch: Switch) -> String {
    format!("{} {}", TABLE[switch as usize].sentence, name(switch))
}

#[cfg(test)]
mod tests {
    use super::*;

    #[test]
    fn the_last_group_has_every_switch_on_paper() {
        assert_eq!(switches(GROUPS.len() - 1), Switches::all(Setting::Paper));
    }

    #[test]
    fn images_are_good_and_the_same_for_the_same_seed() {
        for at in 0..GROUPS.len() {
            let made = image(at, 7);
            assert_eq!(circuit::read(&made.bytes()), Some(made.clone()));
            assert!(made == image(at, 7) && made != image(at, 8));
        }
    }
}
