// Part 8, continued: each access in each clock around a stop sample, the end of a frame and a rise of the tick.
// Paper: A1, "show what stood when the clock began", "after any read in that clock", "a rise .. wins".
// One word over and over from a ready machine, some clocks before the three edges, with one held clock or none.
use super::call::Run;
use super::declared::{Board, Devices, Serial};
use super::side::Lent;
use super::walk;
use crate::check::Check;
use crate::programs::{load, store};
use crate::side::zeros;

const CLOCKS: usize = 12;

/// Checks all meetings; returns their number.
pub fn meetings(check: &mut Check) -> usize {
    let words = (3..=8).flat_map(|device| [load(1, 6, device), store(0, 6, device)]);
    let mut count = 0;
    for word in words {
        for ahead in 0..8 {
            for held in 0..=CLOCKS {
                for bits in 0..16 {
                    meeting(check, word, ahead, held, bits);
                    count += 1;
                }
            }
        }
        check.pass();
    }
    count
}

/// `bits`: received bit, line, interrupt 0 enabled, joined.
fn meeting(check: &mut Check, word: u32, ahead: u64, held: usize, bits: u8) {
    let lent = lent(word, ahead, u64::from(bits & 1), u64::from(bits >> 2 & 1));
    let mut given = vec![bits >> 1 & 1; CLOCKS];
    if let Some(byte) = given.get_mut(held) {
        *byte |= 4;
    }
    let switches = (0..CLOCKS as u8).map(|clock| 0xA0 + clock).collect();
    let outcome = walk::run(check, &lent, Run::new(bits >> 3 == 1, given, switches), true);
    if outcome.number != 0 {
        check.fail(&format!("A1 a run around the edges is refused with {}", outcome.number));
    }
}

/// A board whose stop sample, last busy clock and tick are `ahead` clocks after the next.
fn lent(word: u32, ahead: u64, ready: u64, status: u64) -> Lent {
    let mut machine = zeros();
    (machine.size, machine.clocks, machine.status) = (64, 3 * 116_600 - 1 - ahead, status);
    (machine.regs[0], machine.regs[6], machine.regs[14]) = (0x7A5, 0xFFC0, 0xFFC0);
    let serial = Serial { left: 1 + ahead, sent: 0x0F, passed: 9613 - ahead, bits: 0x96, byte: 0x69, ready };
    let devices = Devices { serial, tick: 0, lamps: 0x155 };
    Lent { board: Board { machine, devices }, program: vec![word; CLOCKS], store: vec![0; 64] }
}
