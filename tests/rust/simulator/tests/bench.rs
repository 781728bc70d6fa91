// The bench cases of the paper, and single-instruction semantics around them.
// Paper: "Bench cases", "What a programmer sees"; A2 for C of ADD and SUB.
// Each case sets registers in the record and executes one word.
mod common;
use common::*;
use simulator::{clock, reset, run, Flags};

/// R.1 op R.2, executed: the result in R.1, H and the flags.
fn execute(operation: u32, b: u32, a: u32) -> (u32, u32, Flags) {
    let mut bench = Bench::new(&[register(operation, 1, 2)], 64);
    bench.record.registers[1] = b;
    bench.record.registers[2] = a;
    bench.finish();
    (bench.record.registers[1], bench.record.state.h, bench.record.state.flags)
}

fn flags(n: u64, z: u64, c: u64, v: u64) -> Flags {
    Flags { n, z, c, v }
}

#[test]
fn s5_1_sums_and_differences() {
    assert_eq!(execute(SUB, 0, 1), (0xFFFF_FFFF, 0, flags(1, 0, 0, 0)));
    assert_eq!(execute(ADD, 0x7FFF_FFFF, 1), (0x8000_0000, 0, flags(1, 0, 0, 1)));
    assert_eq!(execute(ADD, 0x8000_0000, 0x8000_0000), (0, 0, flags(0, 1, 1, 1)));
}

#[test]
fn a2_1_carry_of_sums() {
    assert_eq!(execute(ADD, 0xFFFF_FFFF, 1), (0, 0, flags(0, 1, 1, 0)));
    assert_eq!(execute(ADD, 0xFFFF_FFFF, 0), (0xFFFF_FFFF, 0, flags(1, 0, 0, 0)));
    assert_eq!(execute(ADD, 0xFFFF_FFFF, 0xFFFF_FFFF), (0xFFFF_FFFE, 0, flags(1, 0, 1, 0)));
    assert_eq!(execute(ADD, 0x7FFF_FFFF, 0x8000_0000), (0xFFFF_FFFF, 0, flags(1, 0, 0, 0)));
    assert_eq!(execute(ADD, 0x8000_0001, 0x7FFF_FFFF), (0, 0, flags(0, 1, 1, 0)));
    assert_eq!(execute(ADD, 5, 3), (8, 0, flags(0, 0, 0, 0)));
}

#[test]
fn a2_2_carry_of_differences() {
    assert_eq!(execute(SUB, 5, 3), (2, 0, flags(0, 0, 1, 0)));
    assert_eq!(execute(SUB, 3, 5), (0xFFFF_FFFE, 0, flags(1, 0, 0, 0)));
    assert_eq!(execute(SUB, 0x1234, 0x1234), (0, 0, flags(0, 1, 1, 0)));
    assert_eq!(execute(SUB, 0, 0), (0, 0, flags(0, 1, 1, 0)));
    assert_eq!(execute(SUB, 0x8000_0000, 1), (0x7FFF_FFFF, 0, flags(0, 0, 1, 1)));
    assert_eq!(execute(SUB, 0, 0x8000_0000), (0x8000_0000, 0, flags(1, 0, 0, 1)));
    assert_eq!(execute(SUB, 0x7FFF_FFFF, 0xFFFF_FFFF), (0x8000_0000, 0, flags(1, 0, 0, 1)));
    assert_eq!(execute(SUB, 0xFFFF_FFFF, 0x7FFF_FFFF), (0x8000_0000, 0, flags(1, 0, 1, 0)));
    assert_eq!(execute(SUB, 0x8000_0003, 0x8000_0001), (2, 0, flags(0, 0, 1, 0)));
}

/// SUB of two addresses, then a branch on higher and, in a second program, on lower or same.
#[test]
fn a2_3_branches_compare_addresses() {
    let pairs = [
        (0x8000_0001, 0x7FFF_FFFF, true),
        (0x7FFF_FFFF, 0x8000_0001, false),
        (0x1234, 0x1234, false),
        (0x8000_0001, 0x8000_0001, false),
        (0xFFC0, 0xFFBF, true),
        (0xFFBF, 0xFFC0, false),
        (0, 0xFFFF_FFFF, false),
        (0xFFFF_FFFF, 0, true),
        (0xFFFF_FFFF, 0x8000_0001, true),
        (0x8000_0001, 0xFFFF_FFFF, false),
    ];
    for (b, a, higher) in pairs {
        for (condition, taken) in [(8, higher), (9, !higher)] {
            let mut bench = Bench::new(&[register(SUB, 1, 2), branch(condition, 2)], 64);
            (bench.record.registers[1], bench.record.registers[2]) = (b, a);
            bench.finish();
            let expected = if taken { (2, 4) } else { (1, 2) };
            assert_eq!((bench.charge(), bench.record.state.pc), expected, "{b:X}H - {a:X}H, condition {condition}");
        }
    }
}

#[test]
fn a2_2_an_interrupt_saves_the_carry() {
    for (b, a, saved) in [(5, 3, 0x2000_0001), (3, 5, 0x8000_0001), (5, 5, 0x6000_0001)] {
        let mut bench = Bench::new(&[register(SUB, 1, 2), 0x3BC00, rti(7)], 64);
        (bench.record.registers[1], bench.record.registers[2]) = (b, a);
        bench.record.state.status = 1;
        bench.finish();
        bench.tick(1, 0);
        assert_eq!(bench.record.registers[15], saved);
        bench.record.state.flags.c ^= 1;
        bench.finish();
        assert_eq!((bench.record.state.pc, bench.record.state.flags.c), (1, u64::from(saved >> 29 & 1)));
    }
}

#[test]
fn s5_4_rotation() {
    assert_eq!(execute(ROR, 1, 1), (0x8000_0000, 0, flags(1, 0, 0, 0)));
    assert_eq!(execute(ROR, 1, 32), (1, 0, flags(0, 0, 1, 0)));
    assert_eq!(execute(ROR, 0x0000_0006, 1), (3, 0, flags(0, 0, 1, 0)));
}

#[test]
fn s5_5_products() {
    assert_eq!(execute(MUL, u32::MAX, u32::MAX), (1, 0, flags(0, 0, 0, 0)));
    assert_eq!(execute(MUL, 0x8000_0000, 0x8000_0000), (0, 0x4000_0000, flags(0, 1, 0, 0)));
    assert_eq!(execute(MUL, 3, -5i32 as u32), (-15i32 as u32, u32::MAX, flags(1, 0, 0, 0)));
}

#[test]
fn s5_7_quotients() {
    assert_eq!(execute(DIV, -7i32 as u32, 2), (-4i32 as u32, 1, flags(1, 0, 0, 0)));
    assert_eq!(execute(DIV, -8i32 as u32, 3), (-3i32 as u32, 1, flags(1, 0, 0, 0)));
    assert_eq!(execute(DIV, 0x8000_0000, 1), (0x8000_0000, 0, flags(1, 0, 0, 0)));
    assert_eq!(execute(DIV, 7, 0), (0, 7, flags(0, 1, 0, 0)));
    assert_eq!(execute(DIV, 7, 0x8000_0000), (0, 7, flags(0, 1, 0, 0)));
}

#[test]
fn s1_19_arithmetic_against_wide_integers() {
    let mut random = Random(1);
    for _ in 0..2000 {
        let (b, a) = (random.word(), random.word());
        let (sb, sa) = (i128::from(b as i32), i128::from(a as i32));
        let product = sb * sa;
        assert_eq!(execute(MUL, b, a).0, product as u32);
        assert_eq!(execute(MUL, b, a).1, (product >> 32) as u32);
        let expected = if sa > 0 { (sb.div_euclid(sa) as u32, sb.rem_euclid(sa) as u32) } else { (0, b) };
        let (quotient, rest, _) = execute(DIV, b, a);
        assert_eq!((quotient, rest), expected);
        let sum = u128::from(b) + u128::from(a);
        for (operation, exact, c) in [(ADD, sb + sa, sum >> 32 != 0), (SUB, sb - sa, b >= a)] {
            let fits = i128::from(i32::MIN) <= exact && exact <= i128::from(i32::MAX);
            let low = exact as u32;
            let wanted = flags(u64::from(low >> 31), u64::from(low == 0), u64::from(c), u64::from(!fits));
            assert_eq!(execute(operation, b, a), (low, 0, wanted));
        }
    }
}

#[test]
fn s1_6_logic_and_moves() {
    let (b, a) = (0xF0F0_1234, 0x00FF_8001);
    let expected = [(1, !a), (4, b & a), (5, b & !a), (6, b | a), (7, b ^ a), (0, a)];
    for (operation, result) in expected {
        assert_eq!(execute(operation, b, a).0, result);
    }
    let mut bench = Bench::new(&[register(MOV, 3, 0) | 8, literal(MOV, 4, 8)], 64);
    bench.record.state.h = 0x8000_0005;
    bench.finish();
    bench.finish();
    assert_eq!(bench.record.registers[3..5], [0x8000_0005, 8]);
}

#[test]
fn s5_10_addresses() {
    let mut bench = Bench::new(&[ld(0, 1, 1), ld(2, 3, 0), st(2, 3, 1)], 2048);
    bench.record.registers[1] = 0xFFFF;
    bench.record.registers[3] = 0xFFBF;
    bench.finish();
    bench.finish();
    assert_eq!((bench.record.registers[0], bench.record.registers[2]), (0x5000_0000, 0x5000_07BF));
    let (charge, answer) = bench.finish();
    assert_eq!((charge, answer.byte, answer.word), (1, 2, 0x5000_07BF));
}

#[test]
fn s6_5_seven_as_a_base_is_zero() {
    let mut bench = Bench::new(&[ld(0, 7, 9)], 64);
    bench.record.registers[7] = 3;
    bench.finish();
    assert_eq!(bench.record.registers[0], 0x5000_0009);
}

#[test]
fn s5_12_store_then_load_of_another_block() {
    let mut bench = Bench::new(&[status(8), st(0, 7, 0), ld(1, 7, 128)], 2048);
    assert_eq!((bench.charge(), bench.charge(), bench.charge()), (1, 12, 22));
    assert_eq!((bench.record.state.refills, bench.record.state.writebacks), (2, 1));
    assert_eq!((bench.store[0], bench.record.registers[1]), (0, 0x5000_0080));
}

#[test]
fn s1_26_conditions() {
    for index in 0..16u32 {
        let (n, z, c, v) = (index & 8 != 0, index & 4 != 0, index & 2 != 0, index & 1 != 0);
        let hold =
            [z, !z, c, !c, n, !n, v, !v, c && !z, !c || z, n == v, n != v, n == v && !z, n != v || z, true, false];
        for condition in 0..16 {
            let mut bench = Bench::new(&[branch(condition, -1)], 64);
            bench.record.state.flags = flags(n.into(), z.into(), c.into(), v.into());
            let expected = if hold[condition as usize] { (2, 0) } else { (1, 1) };
            assert_eq!((bench.charge(), bench.record.state.pc), expected);
        }
    }
}

#[test]
fn s1_21_jumps_calls_and_interrupts() {
    let mut bench = Bench::new(&[jump_link(1, 1), call(0xFFE), jump(2), rti(7)], 64);
    bench.record.registers[1] = 0xF001;
    bench.record.registers[2] = 0x0F03;
    bench.finish();
    assert_eq!((bench.record.state.pc, bench.record.registers[1]), (1, 1));
    bench.finish();
    assert_eq!((bench.record.state.pc, bench.record.registers[7]), (0, 2));
    bench.record.state.status = 3;
    bench.record.state.pc = 0x123;
    bench.record.state.flags = flags(1, 0, 1, 0);
    assert_eq!(bench.tick(2, 0).finished, 0);
    assert_eq!((bench.record.state.pc, bench.record.registers[15]), (3, 0xA000_0123));
    assert_eq!(bench.record.state.status, 7);
    bench.record.state.flags = flags(0, 1, 0, 1);
    assert_eq!(bench.charge(), 2);
    assert_eq!((bench.record.state.pc, bench.record.state.status), (0x123, 3));
    assert_eq!(bench.record.state.flags, flags(1, 0, 1, 0));
    bench.tick(3, 0);
    assert_eq!(bench.record.state.pc, 2);
}

#[test]
fn s6_7_beside_a_programs_own_never_an_interrupt_is_taken() {
    let mut bench = Bench::new(&[0x3BC00], 64);
    bench.record.state.status = 1;
    bench.tick(1, 0);
    assert_eq!((bench.record.state.pc, bench.record.state.status), (2, 5));
}

#[test]
fn s5_13_accepted_and_refused_lengths() {
    for (length, expected) in [(4096, Ok(0)), (4097, Err(3)), (1, Ok(0)), (0, Err(3))] {
        let (program, mut store) = (vec![0x3FFFF; length], vec![0; 64]);
        let mut record = reset(&store).unwrap();
        let answer = clock(&mut record, &program, &mut store, 0, 0);
        assert_eq!(answer.map(|moved| moved.finished), expected);
    }
    let mut store = vec![0; 64];
    let mut record = reset(&store).unwrap();
    assert_eq!(clock(&mut record, &[0x40000], &mut store, 0, 0), Err(3));
    for size in 0..70000 {
        let good = [64, 128, 256, 512, 1024, 2048, 4096, 8192, 16384, 32768].contains(&size);
        if size < 300 || size % 1024 < 2 || size % 1024 == 1023 {
            assert_eq!(reset(&vec![0; size]).is_ok(), good);
            assert!(good || reset(&vec![0; size]) == Err(4));
        }
    }
    for (length, expected) in [(0, Ok(0)), (65536, Ok(65536)), (65537, Err(6))] {
        let (line_bytes, inputs) = (vec![0; length], vec![0; length]);
        let (mut bytes, mut words) = (vec![0; length], vec![0; length]);
        let ran = run(&mut record, &[0], &mut store, &line_bytes, &inputs, &mut bytes, &mut words);
        assert_eq!(ran.map(|ran| ran.used), expected);
    }
}
