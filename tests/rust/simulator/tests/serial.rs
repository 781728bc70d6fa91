// The multiplier and divider registers after each step, against the paper's closed formulas in i128.
// Paper: "Clock by clock", "After k multiplier steps".
// The record is examined after each of the 32 clocks, and each of these records must be accepted.
mod common;
use common::*;

fn two_to(power: u32) -> i128 {
    1 << power
}

fn multiplier(b: u32, a: u32, k: u32) -> u64 {
    let (signed, unsigned) = (i128::from(b as i32), i128::from(a));
    let value = match k {
        32 => signed * i128::from(a as i32),
        _ => signed * (unsigned % two_to(k)) * two_to(32 - k) + unsigned.div_euclid(two_to(k)),
    };
    assert!(i128::from(i64::MIN) <= value && value <= i128::from(i64::MAX));
    value as i64 as u64
}

fn divider(b: u32, a: u32, k: u32) -> (u64, u64) {
    let (size, a) = (i128::from(b as i32).abs(), i128::from(a as i32));
    if a <= 0 {
        return (0, 0);
    }
    let t = size / two_to(32 - k);
    ((t % a) as u64, ((size % two_to(32 - k)) * two_to(k) + t / a) as u64)
}

#[test]
fn s2_13_after_each_step() {
    let mut random = Random(2);
    for _ in 0..3000 {
        let (b, a) = (random.word(), random.word());
        for operation in [MUL, DIV] {
            let mut bench = Bench::new(&[register(operation, 1, 2)], 64);
            bench.record.registers[1] = b;
            bench.record.registers[2] = a;
            for k in 1..=32 {
                bench.tick(0, 0);
                let state = &bench.record.state;
                let expected = if operation == MUL { (multiplier(b, a, k), (0, 0)) } else { (0, divider(b, a, k)) };
                assert_eq!((state.product, (state.remainder, state.quotient)), expected, "{b:X} {a:X} {k}");
                assert_eq!((state.phase, state.count), (1, u64::from(k)));
            }
            assert_eq!(bench.tick(0, 0).finished, 1);
            let state = &bench.record.state;
            assert_eq!((state.product, state.remainder, state.quotient, state.phase), (0, 0, 0, 0));
        }
    }
}
