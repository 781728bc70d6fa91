// Which word moves in which clock of a burst, and when counts and cache lines change.
// Paper: "Clock by clock", the paragraph on the cache.
// Store words are 5000_0000H + address, cached words here C000_0000H + index.
mod common;
use common::*;
use simulator::Line;

fn bench_with(program: &[u32], dirty_lines: &[usize]) -> Bench {
    let mut bench = Bench::new(program, 2048);
    bench.record.state.status = 8;
    for (index, word) in bench.record.cache.words.iter_mut().enumerate() {
        *word = 0xC000_0000 + index as u32;
    }
    for &line in dirty_lines {
        bench.record.cache.lines[line] = Line { full: 1, dirty: 1, block: line as u16 };
    }
    bench
}

/// Clock (from 1) in which each store address first changes.
fn stored_at(bench: &mut Bench, charge: u64) -> Vec<(usize, u64)> {
    let mut found = Vec::new();
    for clock in 1..=charge {
        let before = bench.store.clone();
        bench.tick(0, 0);
        let changed = (0..2048).filter(|&address| before[address] != bench.store[address]);
        found.extend(changed.map(|address| (address, clock)));
    }
    found
}

#[test]
fn s2_12_emptying_writes_lowest_line_first() {
    let dirty = [2, 5, 15];
    let mut bench = bench_with(&[status(0)], &dirty);
    let stored = stored_at(&mut bench, 31);
    let expected: Vec<(usize, u64)> = dirty
        .iter()
        .enumerate()
        .flat_map(|(n, line)| (0..8).map(move |i| (line * 8 + i, (10 * n + 3 + i) as u64)))
        .collect();
    assert_eq!(stored, expected);
    assert_eq!((bench.record.state.status, bench.record.state.writebacks), (0, 3));
    assert_eq!(bench.record.cache.lines, [Line::default(); 16]);
    assert_eq!(bench.record.cache.words[127], 0xC000_007F);
}

#[test]
fn s2_22_emptying_phases() {
    let mut bench = bench_with(&[status(0)], &[1, 9]);
    for clock in 1..=20u64 {
        bench.tick(0, 0);
        let state = &bench.record.state;
        let expected = match clock {
            20 => (5, 0, 2),
            10..=19 => (2, clock - 10, 1),
            _ => (2, clock, 0),
        };
        assert_eq!((state.phase, state.count, state.writebacks), expected);
        let dirty: Vec<u8> = [1, 9].map(|line| bench.record.cache.lines[line].dirty).to_vec();
        assert_eq!(dirty, [u8::from(clock < 10), u8::from(clock < 20)]);
        assert_eq!((bench.record.cache.lines[1].full, bench.record.cache.lines[1].block), (1, 1));
    }
    assert_eq!(bench.tick(0, 0).finished, 1);
}

#[test]
fn s2_18_dirty_miss() {
    for word in [ld(3, 7, 131), st(3, 7, 131)] {
        let mut bench = bench_with(&[word], &[0]);
        bench.record.registers[3] = 99;
        for clock in 1..=22usize {
            bench.tick(0, 0);
            let state = &bench.record.state;
            for i in 0..8 {
                let back = bench.store[i] == 0xC000_0000 + i as u32;
                assert_eq!(back, clock >= 4 + i);
                let filled = bench.record.cache.words[i] != 0xC000_0000 + i as u32;
                assert_eq!(filled, clock >= 14 + i);
            }
            let line = bench.record.cache.lines[0];
            let phase = match clock {
                1..=10 => (2, clock as u64 - 1),
                11..=20 => (3, clock as u64 - 11),
                21 => (5, 0),
                _ => (0, 0),
            };
            assert_eq!((state.phase, state.count), phase);
            let expected = match clock {
                1..=10 => (1, 1, 0),
                11..=20 => (0, 0, 0),
                _ => (1, u8::from(clock == 22 && word == st(3, 7, 131)), 16),
            };
            assert_eq!((line.full, line.dirty, line.block), expected);
            assert_eq!((state.writebacks, state.refills), (u64::from(clock >= 11), u64::from(clock >= 21)));
        }
        let expected = if word == ld(3, 7, 131) { (0x5000_0083, 0x5000_0083) } else { (99, 99) };
        assert_eq!((bench.record.registers[3], bench.record.cache.words[3]), expected);
    }
}

#[test]
fn s2_18_clean_miss() {
    let mut bench = bench_with(&[ld(3, 7, 131)], &[]);
    bench.record.cache.lines[0] = Line { full: 1, dirty: 0, block: 0 };
    for clock in 1..=12usize {
        bench.tick(0, 0);
        for i in 0..8 {
            assert_eq!(bench.record.cache.words[i] != 0xC000_0000 + i as u32, clock >= 4 + i);
        }
        let line = bench.record.cache.lines[0];
        assert_eq!((line.full, line.block), if clock >= 11 { (1, 16) } else { (0, 0) });
        assert_eq!(bench.record.state.refills, u64::from(clock >= 11));
    }
}
