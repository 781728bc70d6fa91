// Part 3: accepted records damaged in one field at a time, by edge values and random ones.
// Paper: row 5 of "Where calls are turned down", and row 4 for the store's length.
// Both sides must return the same number, and the same outcome if the damaged record is still accepted.
use crate::call::Call;
use crate::check::Check;
use crate::fields::{self, Field};
use crate::library::Machine;
use crate::programs;
use crate::random::Random;
use crate::records::{accepted, KINDS};

/// Damages all fields in turn of one accepted record of each kind.
pub fn sweep(check: &mut Check, random: &mut Random) {
    for kind in KINDS {
        let lent = accepted(random, kind);
        let line_bytes = programs::line_bytes(random, 1);
        let call = Call::Clock { line_byte: line_bytes[0], input: random.word() };
        check.expect(&lent, &call, 0, &format!("S2.27 a record made for {kind:?}, before its damage"));
        let mut damaged = lent.clone();
        for field in fields::all() {
            if matches!(field, Field::Word(_)) && random.percent(97) {
                continue;
            }
            for value in values(random, field, &lent.machine) {
                damaged.machine = lent.machine;
                field.set(&mut damaged.machine, value);
                check.call(&damaged, &call);
            }
        }
    }
}

/// Values to try in a field: around the old one, around powers of two, all ones, and some of another field.
pub fn values(random: &mut Random, field: Field, m: &Machine) -> Vec<u64> {
    let old = field.get(m);
    let mut values = vec![old.wrapping_add(1), old.wrapping_sub(1), old ^ 1 << random.below(64), u64::MAX];
    match field {
        Field::Full(_) | Field::Dirty(_) => return vec![old ^ 1, 2, 3, 255, 1 << random.below(8)],
        Field::Block(line) => {
            let blocks = u64::from(m.size / 8);
            let aliased = line as u64 + 16 * random.below(256);
            return vec![0, 1, old + 1, old + 16, line as u64, aliased, blocks, blocks + line as u64, 4095, 65535];
        }
        Field::Register(_) | Field::H | Field::Word(_) => {
            return vec![random.word().into(), old ^ 1 << random.below(32)]
        }
        Field::Clocks => values.extend([m.held, m.held.wrapping_sub(1), m.refills, m.writebacks, 0xFFFF_FFFF, 1 << 32]),
        Field::Held | Field::Refills | Field::Writebacks => values.extend([m.clocks, m.clocks + 1, 1 << 32]),
        Field::Size => values.extend([64, 128, 32768, 65536, old * 2, old / 2, old + (1 << 32)]),
        Field::Pc => values.extend([0, 4095, 4096, 4097, random.below(4096), old + 4096, old + (1 << 32)]),
        Field::Status => values.extend((0..17).chain([old ^ 8, old ^ 4, old + 16, 1 << 31])),
        Field::Phase => values.extend((0..8).chain([old + (1 << 32), 256])),
        Field::Count => values.extend((0..12).chain([31, 32, 33, 64, old + (1 << 32)])),
        _ => values.extend([0, 1, 2, old ^ 1 << 32, old ^ 1 << 31, old ^ 1 << 63, old + (1 << 32), random.next()]),
    }
    values
}

/// One random damage, for the lists of calls.
pub fn random_damage(random: &mut Random, m: &mut Machine) {
    let fields = fields::all();
    let place = random.below(81) as usize;
    let field = fields[place];
    let choice = values(random, field, m);
    field.set(m, random.pick(&choice));
}
