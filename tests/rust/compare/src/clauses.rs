// Part 4: every clause of row 5 and of the phase rule, as pairs of an accepted record and a refused neighbour.
// Paper: row 5 of "Where calls are turned down"; "The record holds phase and count"; the closed formulas.
// Records and expected numbers are written by hand from the paper, so neither side decides what is right.
use crate::call::{Call, Lent};
use crate::check::Check;
use crate::programs::{branch, call, jump, literal, load, register, status, store};
use crate::side::zeros;

/// The pairs so far: name, accepted, refused with 5. A name has the ids of its part.
#[derive(Default)]
pub struct Pairs {
    ids: &'static str,
    all: Vec<(String, Lent, Lent)>,
}

type Change = fn(&mut Lent);

impl Pairs {
    fn pair(&mut self, name: &str, good: &Lent, change: Change) {
        let mut bad = good.clone();
        change(&mut bad);
        self.all.push((format!("{}, clause \"{name}\"", self.ids), good.clone(), bad));
    }

    /// The same change to several accepted records.
    fn each(&mut self, name: &str, goods: &[(&str, Lent)], change: Change) {
        for (which, good) in goods {
            self.pair(&format!("{name}, {which}"), good, change);
        }
    }
}

/// The parts, each with the ids of the sentences of its clauses.
const PARTS: [(&str, fn(&mut Pairs)); 14] = [
    ("S3.7 S1.1", widths),
    ("S3.7 S2.29", counts),
    ("S3.7 S2.21", lines),
    ("S3.7 S2.15", idle_registers),
    ("S3.7 S2.13", multiplier),
    ("S3.7 S2.14", divider),
    ("S3.7 S2.25 S2.27", write_back),
    ("S3.7 S2.25 S2.27", emptying),
    ("S3.7 S2.25 S2.27", refill),
    ("S3.7 S2.25 S2.27", uncached),
    ("S3.7 S2.25 S2.27", last_jumps),
    ("S3.7 S2.25 S2.27", last_emptying),
    ("S3.7 S2.25 S2.27", last_access),
    ("S3.7 S1.22 S1.24", addresses),
];

/// Checks all pairs by every call that takes a record; returns their number.
pub fn clauses(check: &mut Check) -> usize {
    let mut pairs = Pairs::default();
    for (ids, part) in PARTS {
        pairs.ids = ids;
        part(&mut pairs);
    }
    for (name, good, bad) in &pairs.all {
        for call in calls(good) {
            check.expect(good, &call, 0, &format!("{name}, the accepted record"));
            check.expect(bad, &call, 5, &format!("{name}, the refused neighbour"));
        }
        check.pass();
    }
    pairs.all.len()
}

fn calls(lent: &Lent) -> Vec<Call> {
    let run = |count: usize| Call::Run {
        line_bytes: vec![0; count],
        inputs: vec![9; count],
        bytes: vec![0xEE; count],
        words: vec![0xEEEE_EEEE; count],
    };
    let mut calls = vec![run(0)];
    if lent.machine.clocks < 0xFFFF_FFF0 {
        calls.extend([Call::Clock { line_byte: 0, input: 5 }, Call::Clock { line_byte: 4, input: 5 }, run(3)]);
    }
    calls.extend([Call::Look { address: 3 }, Call::Copy { buffer: vec![0xEEEE_EEEE; lent.store.len()] }]);
    calls
}

/// A ready record over a store of `size` words and a program of one word.
fn ready(word: u32, size: usize) -> Lent {
    let mut machine = zeros();
    machine.size = size as u32;
    machine.clocks = 1000;
    Lent { machine, program: vec![word], store: (0..size as u32).collect() }
}

fn with(mut lent: Lent, change: Change) -> Lent {
    change(&mut lent);
    lent
}

/// The same with the cache on.
fn cached(word: u32, size: usize) -> Lent {
    with(ready(word, size), |l| l.machine.status = 8)
}

fn hold(l: &mut Lent, line: usize, block: u16, dirty: u8) {
    (l.machine.full[line], l.machine.dirty[line], l.machine.block[line]) = (1, dirty, block);
}

fn widths(pairs: &mut Pairs) {
    let good = ready(literal(0, 0, 5), 64);
    pairs.pair("PC, 12 bits", &with(good.clone(), |l| l.machine.pc = 4095), |l| l.machine.pc = 4096);
    pairs.pair("PC, far above 12 bits", &good, |l| l.machine.pc = 1 << 32);
    pairs.pair("status, 4 bits", &with(good.clone(), |l| l.machine.status = 15), |l| l.machine.status = 16);
    pairs.pair("status, its high half", &good, |l| l.machine.status = 0x8000_0000);
    pairs.pair("status, beyond 32 bits", &good, |l| l.machine.status = 1 << 32);
    pairs.pair("N, one bit", &with(good.clone(), |l| l.machine.n = 1), |l| l.machine.n = 2);
    pairs.pair("Z, one bit", &with(good.clone(), |l| l.machine.z = 1), |l| l.machine.z = 2);
    pairs.pair("C, one bit", &with(good.clone(), |l| l.machine.c = 1), |l| l.machine.c = 2);
    pairs.pair("V, one bit", &with(good.clone(), |l| l.machine.v = 1), |l| l.machine.v = 2);
    pairs.pair("V, its high half", &good, |l| l.machine.v = 1 << 63);
    let last = with(ready(call(0), 64), |l| l.machine.phase = 5);
    pairs.pair("phase, 0 to 5", &last, |l| l.machine.phase = 6);
    pairs.pair("phase, its high half", &last, |l| l.machine.phase = 5 + (1 << 32));
    pairs.pair("phase 0, its high half", &good, |l| l.machine.phase = 1 << 32);
    pairs.pair("count, its high half", &good, |l| l.machine.count = 1 << 32);
    let full = with(ready(call(0), 32768), |l| {
        l.machine.status = 8;
        hold(l, 15, 4095, 1);
    });
    pairs.pair("full, one bit", &full, |l| l.machine.full[15] = 2);
    pairs.pair("full, all bits", &full, |l| l.machine.full[15] = 255);
    pairs.pair("full of an empty line", &full, |l| l.machine.full[3] = 2);
    pairs.pair("dirty, one bit", &full, |l| l.machine.dirty[15] = 2);
    pairs.pair("dirty, all bits", &full, |l| l.machine.dirty[15] = 255);
    pairs.pair("block, 12 bits", &full, |l| l.machine.block[15] = 4095 + 16);
    pairs.pair("block, all bits", &full, |l| l.machine.block[15] = 65535);
}

fn counts(pairs: &mut Pairs) {
    let good = ready(literal(0, 0, 5), 64);
    let most = with(good.clone(), |l| l.machine.clocks = 0xFFFF_FFFF);
    pairs.pair("clock count, 32 bits", &most, |l| l.machine.clocks = 1 << 32);
    pairs.pair("clock count, all bits", &most, |l| l.machine.clocks = u64::MAX);
    pairs.pair("held count equal to the clock count", &with(good.clone(), |l| l.machine.held = 1000), |l| {
        l.machine.held = 1001
    });
    pairs.pair("refill count equal to the clock count", &with(good.clone(), |l| l.machine.refills = 1000), |l| {
        l.machine.refills = 1001
    });
    pairs.pair(
        "write-back count equal to the clock count",
        &with(good.clone(), |l| l.machine.writebacks = 1000),
        |l| l.machine.writebacks = 1001,
    );
    let all = with(most, |l| {
        (l.machine.held, l.machine.refills, l.machine.writebacks) = (0xFFFF_FFFF, 0xFFFF_FFFF, 0xFFFF_FFFF)
    });
    pairs.pair("held count, 32 bits", &all, |l| l.machine.held = 1 << 32);
    pairs.pair("refill count, 32 bits", &all, |l| l.machine.refills = 1 << 32);
    pairs.pair("write-back count, 32 bits", &all, |l| l.machine.writebacks = 1 << 32);
    let none = with(good, |l| l.machine.clocks = 0);
    pairs.pair("held count, no clock yet", &none, |l| l.machine.held = 1);
    pairs.pair("refill count, no clock yet", &none, |l| l.machine.refills = 1);
    pairs.pair("write-back count, no clock yet", &none, |l| l.machine.writebacks = 1);
}

fn lines(pairs: &mut Pairs) {
    let word = literal(0, 0, 5);
    let good = with(cached(word, 256), |l| hold(l, 0, 16, 0));
    pairs.pair("full line's block inside the store", &good, |l| l.machine.block[0] = 32);
    pairs.pair("full line's block of its line", &good, |l| l.machine.block[0] = 17);
    let other = with(cached(word, 256), |l| hold(l, 15, 31, 1));
    pairs.pair("full line's block inside the store, last line", &other, |l| l.machine.block[15] = 47);
    pairs.pair("full line's block of its line, last line", &other, |l| l.machine.block[15] = 30);
    let small = with(cached(word, 64), |l| hold(l, 7, 7, 1));
    pairs.pair("full line of a store of 64 words", &small, |l| hold(l, 8, 8, 0));
    pairs.pair("full line of a store of 64 words, last line", &small, |l| hold(l, 15, 15, 0));
    let large = with(cached(word, 32768), |l| hold(l, 15, 4095, 0));
    pairs.pair("full line's block inside the largest store", &large, |l| hold(l, 0, 4096, 0));
    pairs.pair("full line with cache on", &good, |l| l.machine.status = 0);
    pairs.pair("full clean line with cache on, other status bits set", &with(other, |l| l.machine.status = 15), |l| {
        l.machine.status = 7
    });
    pairs.pair("empty line clean", &good, |l| l.machine.dirty[3] = 1);
    pairs.pair("empty line clean, cache off", &ready(word, 256), |l| l.machine.dirty[3] = 1);
    pairs.pair("empty line with block 0", &good, |l| l.machine.block[3] = 3);
    pairs.pair("empty line with block 0, its own line's", &good, |l| l.machine.block[4] = 16 + 4);
    pairs.pair("empty line with block 0, cache off", &ready(word, 256), |l| l.machine.block[0] = 16);
    pairs.pair("first line emptied whole", &good, |l| l.machine.full[0] = 0);
}

/// Multiplier and divider registers are zero outside phase 1.
fn idle_registers(pairs: &mut Pairs) {
    let goods = [
        ("ready", ready(register(8, 1, 2), 64)),
        ("write-back", miss(load(3, 7, 131), 2, 0)),
        ("emptying", turning_off(0, 2, 3)),
        ("refill", filling(load(3, 7, 131), 4)),
        ("uncached", waiting(load(3, 7, 131), 2)),
        ("last clock", with(ready(call(3), 64), |l| l.machine.phase = 5)),
    ];
    pairs.each("multiplier register zero", &goods, |l| l.machine.product = 1);
    pairs.each("multiplier register zero at its top", &goods, |l| l.machine.product = 1 << 63);
    pairs.each("remainder zero", &goods, |l| l.machine.remainder = 1);
    pairs.each("quotient register zero", &goods, |l| l.machine.quotient = 1);
    pairs.each("quotient register zero above 32 bits", &goods, |l| l.machine.quotient = 1 << 32);
    pairs.pair("ready, count 0", &goods[0].1, |l| l.machine.count = 1);
}

/// MUL R1 R2 after `count` steps, with the multiplier's register given.
fn multiplying(b: u32, a: u32, count: u64, product: i64) -> Lent {
    let mut lent = ready(register(8, 1, 2), 64);
    (lent.machine.regs[1], lent.machine.regs[2]) = (b, a);
    (lent.machine.phase, lent.machine.count, lent.machine.product) = (1, count, product as u64);
    lent
}

fn multiplier(pairs: &mut Pairs) {
    let goods = [
        ("3 x 5, step 1", multiplying(3, 5, 1, 6_442_450_946)),
        ("3 x 5, step 2", multiplying(3, 5, 2, 3_221_225_473)),
        ("3 x 5, step 31", multiplying(3, 5, 31, 30)),
        ("3 x 5, step 32", multiplying(3, 5, 32, 15)),
        ("-1 x -1, step 1", multiplying(u32::MAX, u32::MAX, 1, -1)),
        ("-1 x -1, step 31", multiplying(u32::MAX, u32::MAX, 31, -4_294_967_293)),
        ("-1 x -1, step 32", multiplying(u32::MAX, u32::MAX, 32, 1)),
        ("least x least, step 31", multiplying(1 << 31, 1 << 31, 31, 1)),
        ("least x least, step 32", multiplying(1 << 31, 1 << 31, 32, 1 << 62)),
        ("least x -1, step 31", multiplying(1 << 31, u32::MAX, 31, -9_223_372_032_559_808_511)),
    ];
    pairs.each("multiplier register", &goods, |l| l.machine.product ^= 1);
    pairs.each("multiplier register, top bit", &goods, |l| l.machine.product ^= 1 << 63);
    pairs.each("multiplier register, middle bit", &goods, |l| l.machine.product ^= 1 << 32);
    pairs.each("divider's remainder beside MUL", &goods, |l| l.machine.remainder = 1);
    pairs.each("divider's quotient beside MUL", &goods, |l| l.machine.quotient = 1);
    pairs.pair("A without sign before step 32", &goods[5].1, |l| l.machine.product = -4_294_967_295i64 as u64);
    pairs.pair("A with sign at step 32", &goods[6].1, |l| l.machine.product = -4_294_967_295i64 as u64);
    pairs.pair("phase 1 from count 1", &goods[0].1, |l| (l.machine.count, l.machine.product) = (0, 5));
    pairs.pair("phase 1 up to count 32", &goods[3].1, |l| l.machine.count = 33);
    pairs.pair("count one behind", &goods[1].1, |l| l.machine.count = 1);
    pairs.pair("count one ahead", &goods[1].1, |l| l.machine.count = 3);
    pairs.pair("count above its phase", &goods[3].1, |l| l.machine.count = 32 + (1 << 32));
    let zero = multiplying(0, 0, 7, 0);
    pairs.pair("phase 1 needs 8 or 9, not 7", &zero, |l| l.program[0] = register(7, 1, 2));
    pairs.pair("phase 1 needs 8 or 9, not 10", &zero, |l| l.program[0] = register(10, 1, 2));
    pairs.pair("phase 1 needs 8 or 9, not 0", &zero, |l| l.program[0] = 0);
    pairs.pair("phase 1 needs 8 or 9, not 11", &zero, |l| l.program[0] = status(0));
    pairs.pair("phase 1 needs 8 or 9, not LD", &zero, |l| l.program[0] = load(0, 7, 0));
    pairs.pair("phase 1 needs 8 or 9, not a word beyond the program", &zero, |l| l.machine.pc = 1);
    pairs.pair("operand from the register", &goods[1].1, |l| l.machine.regs[2] = 13);
    pairs.pair("operand from R.d", &goods[1].1, |l| l.machine.regs[1] = 4);
    let bank1 = with(goods[1].1.clone(), |l| {
        l.machine.status = 4;
        (l.machine.regs[9], l.machine.regs[10], l.machine.regs[2]) = (3, 5, 6);
    });
    pairs.pair("operands of bank 1", &bank1, |l| l.machine.status = 0);
    let literal = with(goods[1].1.clone(), |l| l.program[0] = literal(8, 1, 5));
    pairs.pair("literal operand", &literal, |l| l.program[0] = 8 << 14 | 1 << 11 | 6);
}

/// DIV R1 R2 after `count` steps, with remainder and quotient register given.
fn dividing(b: u32, a: u32, count: u64, remainder: u64, quotient: u64) -> Lent {
    let mut lent = ready(register(9, 1, 2), 64);
    (lent.machine.regs[1], lent.machine.regs[2]) = (b, a);
    (lent.machine.phase, lent.machine.count) = (1, count);
    (lent.machine.remainder, lent.machine.quotient) = (remainder, quotient);
    lent
}

fn divider(pairs: &mut Pairs) {
    let goods = [
        ("7 by 2, step 1", dividing(7, 2, 1, 0, 14)),
        ("7 by 2, step 30", dividing(7, 2, 30, 1, 3_221_225_472)),
        ("7 by 2, step 31", dividing(7, 2, 31, 1, 2_147_483_649)),
        ("7 by 2, step 32", dividing(7, 2, 32, 1, 3)),
        ("-7 by 2, step 32", dividing(-7i32 as u32, 2, 32, 1, 3)),
        ("least by 1, step 1", dividing(1 << 31, 1, 1, 0, 1)),
        ("least by 1, step 32", dividing(1 << 31, 1, 32, 0, 1 << 31)),
        ("7 by 0, step 5", dividing(7, 0, 5, 0, 0)),
        ("7 by -1, step 32", dividing(7, u32::MAX, 32, 0, 0)),
        ("7 by the least, step 1", dividing(7, 1 << 31, 1, 0, 0)),
    ];
    pairs.each("remainder", &goods, |l| l.machine.remainder ^= 1);
    pairs.each("remainder, top bit", &goods, |l| l.machine.remainder ^= 1 << 31);
    pairs.each("remainder, 32 bits", &goods, |l| l.machine.remainder |= 1 << 32);
    pairs.each("quotient register", &goods, |l| l.machine.quotient ^= 1);
    pairs.each("quotient register, top bit", &goods, |l| l.machine.quotient ^= 1 << 31);
    pairs.each("quotient register, 32 bits", &goods, |l| l.machine.quotient |= 1 << 32);
    pairs.each("multiplier's register beside DIV", &goods, |l| l.machine.product = 1);
    pairs.pair("DIV from count 1", &goods[7].1, |l| l.machine.count = 0);
    pairs.pair("DIV up to count 32", &goods[7].1, |l| l.machine.count = 33);
    pairs.pair("DIV, count one behind", &goods[2].1, |l| l.machine.count = 30);
    pairs.pair("DIV's registers under MUL", &goods[3].1, |l| l.program[0] = register(8, 1, 2));
    pairs.pair("DIV by 0, the dividend in the register", &goods[7].1, |l| l.machine.quotient = 7 << 5);
}

/// LD or ST of address 131 (block 16) with line 0 holding block 0, dirty, in a store of 256 words.
fn miss(word: u32, phase: u64, count: u64) -> Lent {
    let mut lent = cached(word, 256);
    hold(&mut lent, 0, 0, 1);
    (lent.machine.phase, lent.machine.count) = (phase, count);
    lent
}

fn write_back(pairs: &mut Pairs) {
    let goods = [
        ("LD, count 0", miss(load(3, 7, 131), 2, 0)),
        ("LD, count 9", miss(load(3, 7, 131), 2, 9)),
        ("ST, count 0", miss(store(3, 7, 131), 2, 0)),
        ("ST, count 9", miss(store(3, 7, 131), 2, 9)),
    ];
    pairs.each("phase 2 on a dirty line", &goods, |l| l.machine.dirty[0] = 0);
    pairs.each("phase 2 on a full line", &goods, |l| (l.machine.full[0], l.machine.dirty[0]) = (0, 0));
    pairs.each("phase 2, its line holding another block", &goods, |l| l.machine.block[0] = 16);
    pairs.each("phase 2, not the neighbouring line", &goods, |l| {
        (l.machine.full[0], l.machine.dirty[0]) = (0, 0);
        hold(l, 1, 1, 1);
    });
    pairs.each("phase 2, count up to 9", &goods, |l| l.machine.count = 10);
    pairs.each("phase 2, to memory and not to a device", &goods, |l| {
        l.program[0] = (l.program[0] & !7) | 1;
        l.machine.regs[1] = 0xFFC0 - 131;
    });
    pairs.each("phase 2 needs an access, not MOV", &goods, |l| l.program[0] = 0);
    pairs.each("phase 2 needs an access, not 14", &goods, |l| l.program[0] = branch(14, 0));
    pairs.each("phase 2 needs an access, not 15", &goods, |l| l.program[0] = call(0));
    pairs.each("phase 2 needs an access, not a jump", &goods, |l| l.program[0] = jump(0, 0, 1));
    pairs.each("phase 2 needs an access, not MUL", &goods, |l| l.program[0] = register(8, 0, 1));
    pairs.each("phase 2, a word beyond the program", &goods, |l| l.machine.pc = 1);
    pairs.each("phase 2, the same line's own block", &goods, |l| l.program[0] = load(3, 7, 7));
}

/// 11 turning the cache off, with line 5 dirty.
fn turning_off(bits: u32, phase: u64, count: u64) -> Lent {
    let mut lent = cached(status(bits), 256);
    hold(&mut lent, 5, 5, 1);
    (lent.machine.phase, lent.machine.count) = (phase, count);
    lent
}

fn emptying(pairs: &mut Pairs) {
    let goods = [
        ("count 0", turning_off(0, 2, 0)),
        ("count 1", turning_off(7, 2, 1)),
        ("count 9", turning_off(3, 2, 9)),
        ("more lines", with(turning_off(0, 2, 4), |l| hold(l, 15, 31, 0))),
    ];
    pairs.each("emptying needs a dirty line", &goods, |l| l.machine.dirty[5] = 0);
    pairs.each("emptying needs a full line", &goods, |l| {
        (l.machine.full[5], l.machine.dirty[5], l.machine.block[5]) = (0, 0, 0)
    });
    pairs.each("emptying, count up to 9", &goods, |l| l.machine.count = 10);
    pairs.each("emptying clears bit 3", &goods, |l| l.program[0] |= 8);
    pairs.each("emptying has bit 10 clear", &goods, |l| l.program[0] |= 0x400);
    pairs.each("emptying needs the cache on", &goods, |l| {
        l.machine.status = 0;
        (l.machine.full, l.machine.dirty, l.machine.block) = ([0; 16], [0; 16], [0; 16]);
    });
}

/// LD or ST of address 131 (block 16, line 0) in a refill.
fn filling(word: u32, count: u64) -> Lent {
    let mut lent = cached(word, 256);
    hold(&mut lent, 1, 17, 1);
    (lent.machine.phase, lent.machine.count) = (3, count);
    lent
}

fn refill(pairs: &mut Pairs) {
    let goods = [
        ("LD, count 0", filling(load(3, 7, 131), 0)),
        ("LD, count 9", filling(load(3, 7, 131), 9)),
        ("ST, count 0", filling(store(3, 7, 131), 0)),
        ("ST, count 9", filling(store(3, 7, 131), 9)),
    ];
    pairs.each("phase 3, the line empty and not with another block", &goods, |l| hold(l, 0, 0, 0));
    pairs.each("phase 3, the line empty and not with its block", &goods, |l| hold(l, 0, 16, 0));
    pairs.each("phase 3, the line empty and not dirty", &goods, |l| hold(l, 0, 0, 1));
    pairs.each("phase 3, count up to 9", &goods, |l| l.machine.count = 10);
    pairs.each("phase 3, cache on", &goods, |l| {
        l.machine.status = 0;
        (l.machine.full[1], l.machine.dirty[1], l.machine.block[1]) = (0, 0, 0);
    });
    pairs.each("phase 3, to memory and not to a device", &goods, |l| {
        l.program[0] = (l.program[0] & !7) | 1;
        l.machine.regs[1] = 0xFFC0 - 131;
    });
    pairs.each("phase 3 needs an access, not MOV", &goods, |l| l.program[0] = 0);
    pairs.each("phase 3 needs an access, not 11", &goods, |l| l.program[0] = status(0));
    pairs.each("phase 3 needs an access, not 14", &goods, |l| l.program[0] = branch(14, 0));
    pairs.each("phase 3, a word beyond the program", &goods, |l| l.machine.pc = 1);
    pairs.each("phase 3, a line that is full", &goods, |l| l.program[0] = load(3, 7, 9));
}

/// LD or ST of address 131 with the cache off.
fn waiting(word: u32, count: u64) -> Lent {
    let mut lent = ready(word, 256);
    (lent.machine.phase, lent.machine.count) = (4, count);
    lent
}

fn uncached(pairs: &mut Pairs) {
    let goods = [
        ("LD, count 1", waiting(load(3, 7, 131), 1)),
        ("LD, count 5", waiting(load(3, 7, 131), 5)),
        ("ST, count 1", waiting(store(3, 7, 131), 1)),
        ("ST, count 4", waiting(store(3, 7, 131), 4)),
    ];
    pairs.each("phase 4 from count 1", &goods, |l| l.machine.count = 0);
    pairs.each("phase 4, count up to 5 at most", &goods, |l| l.machine.count = 6);
    pairs.pair("phase 4 of ST, count up to 4", &goods[3].1, |l| l.machine.count = 5);
    pairs.pair("phase 4, count 5 of LD only", &goods[1].1, |l| l.program[0] = store(3, 7, 131));
    pairs.each("phase 4, cache off", &goods, |l| l.machine.status = 8);
    pairs.each("phase 4, to memory and not to a device", &goods, |l| {
        l.program[0] = (l.program[0] & !7) | 1;
        l.machine.regs[1] = 0xFFC0 - 131;
    });
    pairs.each("phase 4 needs an access, not MOV", &goods, |l| l.program[0] = 0);
    pairs.each("phase 4 needs an access, not 11", &goods, |l| l.program[0] = status(0));
    pairs.each("phase 4 needs an access, not 15", &goods, |l| l.program[0] = call(0));
    pairs.each("phase 4, a word beyond the program", &goods, |l| l.machine.pc = 1);
}

fn last(word: u32) -> Lent {
    with(ready(word, 256), |l| l.machine.phase = 5)
}

fn last_jumps(pairs: &mut Pairs) {
    let goods = [
        ("branch always", last(branch(14, -1))),
        ("branch on not Z", last(branch(1, 4))),
        ("call", last(call(77))),
        ("jump", last(jump(0, 0, 1))),
        ("jump and link", last(jump(2, 3, 1))),
        ("return, 01", last(jump(1, 0, 7))),
        ("return, 11", last(jump(3, 0, 7))),
    ];
    pairs.each("phase 5, count 0", &goods, |l| l.machine.count = 1);
    pairs.each("phase 5, a word beyond the program", &goods, |l| l.machine.pc = 1);
    pairs.each("phase 5, not 0", &goods, |l| l.program[0] = 0);
    pairs.each("phase 5, not 7", &goods, |l| l.program[0] = register(7, 1, 2));
    pairs.each("phase 5, not 8", &goods, |l| l.program[0] = register(8, 1, 2));
    pairs.each("phase 5, not 9", &goods, |l| l.program[0] = register(9, 1, 2));
    pairs.each("phase 5, not 10", &goods, |l| l.program[0] = register(10, 1, 2));
    pairs.each("phase 5, not branch never", &goods, |l| l.program[0] = branch(15, 0));
    pairs.each("phase 5, not 11 with bit 10 clear", &goods, |l| l.program[0] = status(1));
    for condition in 0..14 {
        let flags = (0..16u32).find(|f| crate::tally::holds(condition, f & 8 != 0, f & 4 != 0, f & 2 != 0, f & 1 != 0));
        let mut good = last(branch(condition, 9));
        let bit = |index: u32| u64::from(flags.unwrap() >> index & 1);
        (good.machine.n, good.machine.z, good.machine.c, good.machine.v) = (bit(3), bit(2), bit(1), bit(0));
        pairs.pair(&format!("phase 5, branch on condition {condition} and its opposite"), &good, |l| {
            l.program[0] ^= 1 << 10;
        });
    }
    let taken = with(last(branch(0, 4)), |l| l.machine.z = 1);
    pairs.pair("phase 5, branch on Z by the record's flag", &taken, |l| l.machine.z = 0);
    let taken = with(last(branch(11, 4)), |l| l.machine.v = 1);
    pairs.pair("phase 5, branch on N against V by the record's flags", &taken, |l| l.machine.n = 1);
}

fn last_emptying(pairs: &mut Pairs) {
    let goods = [
        (
            "all lines empty",
            with(turning_off(0, 5, 0), |l| (l.machine.full[5], l.machine.dirty[5], l.machine.block[5]) = (0, 0, 0)),
        ),
        ("a clean line", with(turning_off(7, 5, 0), |l| l.machine.dirty[5] = 0)),
    ];
    pairs.each("phase 5 of an emptying, no line dirty", &goods, |l| hold(l, 5, 5, 1));
    pairs.each("phase 5 of an emptying, no other line dirty", &goods, |l| hold(l, 15, 15, 1));
    pairs.each("phase 5 of an emptying, bit 3 cleared", &goods, |l| l.program[0] |= 8);
    pairs.each("phase 5 of an emptying, count 0", &goods, |l| l.machine.count = 1);
    pairs.each("phase 5 of an emptying, cache on", &goods, |l| {
        (l.machine.status, l.machine.full[5], l.machine.block[5]) = (0, 0, 0)
    });
}

/// LD or ST of address 131 with its block, 16, in line 0.
fn found(word: u32, dirty: u8) -> Lent {
    let mut lent = cached(word, 256);
    hold(&mut lent, 0, 16, dirty);
    lent.machine.phase = 5;
    lent
}

fn device(word: u32, status: u64) -> Lent {
    let mut lent = last(word);
    (lent.machine.status, lent.machine.regs[1]) = (status, 0xFFC0);
    lent
}

fn last_access(pairs: &mut Pairs) {
    let goods = [
        ("LD, clean", found(load(3, 7, 131), 0)),
        ("LD, dirty", found(load(3, 7, 131), 1)),
        ("ST, clean", found(store(3, 7, 131), 0)),
        ("ST, dirty", found(store(3, 7, 131), 1)),
    ];
    pairs.each("phase 5 of an access, its block in the line", &goods, |l| l.machine.block[0] = 0);
    pairs.each("phase 5 of an access, its line full", &goods, |l| {
        (l.machine.full[0], l.machine.dirty[0], l.machine.block[0]) = (0, 0, 0)
    });
    pairs.each("phase 5 of an access, count 0", &goods, |l| l.machine.count = 1);
    pairs.each("phase 5 of an access, another address", &goods, |l| l.program[0] ^= 8 << 3);
    pairs.each("phase 5 of an access, another block of the line", &goods, |l| l.program[0] ^= 128 << 3);
    pairs.each("phase 5 of an access, cache off", &goods, |l| {
        l.machine.status = 0;
        (l.machine.full[0], l.machine.dirty[0], l.machine.block[0]) = (0, 0, 0);
    });
    let devices =
        [("cache off, device 0", device(load(3, 1, 0), 0)), ("cache on, device 63", device(load(3, 1, 63), 8))];
    pairs.each("phase 5 of a device, LD and not ST", &devices, |l| l.program[0] |= 1 << 14);
    pairs.each("phase 5 of a device, FFC0H and not FFBFH", &devices, |l| {
        l.program[0] = load(3, 1, 0);
        l.machine.regs[1] = 0xFFBF;
    });
    pairs.each("phase 5 of a device, count 0", &devices, |l| l.machine.count = 1);
    pairs.pair("phase 5 of device 63, not the address after it", &devices[1].1, |l| l.machine.regs[1] += 1);
}

/// The address of an access: base, offset, bank, reduction to the store.
fn addresses(pairs: &mut Pairs) {
    let seven = with(found(load(3, 7, 131), 0), |l| l.machine.regs[7] = 8);
    pairs.pair("7 as a base is zero", &seven, |l| {
        l.program[0] = load(3, 6, 131);
        l.machine.regs[6] = 8;
    });
    let wrapped = with(found(load(3, 1, 132), 0), |l| l.machine.regs[1] = 0xFFFF);
    pairs.pair("address mod 65,536", &wrapped, |l| l.machine.regs[1] = 0xFFF0);
    let high = with(found(load(3, 1, 3), 0), |l| l.machine.regs[1] = 0xABCD_0080);
    pairs.pair("address mod 65,536, high half of the base", &high, |l| l.machine.regs[1] = 0xABCD_0088);
    let reduced = with(found(load(3, 1, 3), 0), |l| l.machine.regs[1] = 128 + 256 * 100);
    pairs.pair("address mod the store's length", &reduced, |l| l.machine.regs[1] = 256 * 100);
    let bank = with(found(load(3, 1, 3), 0), |l| {
        l.machine.status = 12;
        (l.machine.regs[1], l.machine.regs[9]) = (8, 128);
    });
    pairs.pair("base of bank 1 in mode 1", &bank, |l| l.machine.status = 8);
    let edge = with(found(load(3, 1, 0), 0), |l| {
        l.machine.regs[1] = 0xFFBF;
        (l.machine.full[0], l.machine.block[0]) = (0, 0);
        hold(l, 7, 23, 0);
    });
    pairs.pair("FFBFH is memory", &edge, |l| {
        (l.machine.full[7], l.machine.block[7]) = (0, 0);
    });
    let unsigned = with(found(load(3, 7, 255), 0), |l| {
        (l.machine.full[0], l.machine.block[0]) = (0, 0);
        hold(l, 15, 31, 0);
    });
    pairs.pair("offset without sign", &unsigned, |l| l.program[0] = load(3, 7, 127));
}
