// Charges of every row of the clock table, with and without held clocks at every position.
// Paper: "Clock by clock", the table.
// A charge is the unheld clocks from ready to the instruction's end.
mod common;
use common::*;

/// A machine whose cache is on and holds block 0 of a 2,048-word store, dirty or clean.
fn cached(program: &[u32], dirty: bool) -> Bench {
    let mut bench = Bench::new(program, 2048);
    bench.record.state.status = 8;
    bench.record.cache.lines[0].full = 1;
    bench.record.cache.lines[0].dirty = u8::from(dirty);
    bench.record.cache.words.copy_from_slice(&bench.store[..128]);
    bench
}

fn uncached(word: u32) -> Bench {
    Bench::new(&[word], 2048)
}

fn device(word: u32, status: u32) -> Bench {
    let mut bench = Bench::new(&[word], 2048);
    bench.record.state.status = status.into();
    bench.record.registers[1] = 0xFFC0;
    bench
}

fn emptying(dirty: usize) -> Bench {
    let mut bench = cached(&[status(0)], dirty > 0);
    for line in 1..dirty {
        let block = line as u16;
        bench.record.cache.lines[line] = simulator::Line { full: 1, dirty: 1, block };
    }
    bench
}

fn rows() -> Vec<(Bench, u64)> {
    let mut rows: Vec<(Bench, u64)> = [0, 1, 2, 3, 4, 5, 6, 7, 10]
        .into_iter()
        .flat_map(|operation| [literal(operation, 1, 5), register(operation, 1, 2)])
        .map(|word| (uncached(word), 1))
        .collect();
    rows.extend([status(0), status(7), status(8), branch(15, 4), branch(0, 4)].map(|word| (uncached(word), 1)));
    let two = [branch(14, 0), branch(14, -1), branch(1, 9), call(0), call(77), jump(1), jump_link(2, 1), rti(1)];
    rows.extend(two.map(|word| (uncached(word), 2)));
    rows.extend([MUL, DIV].map(|operation| (uncached(literal(operation, 1, 5)), 33)));
    rows.extend([0, 8].map(|status| (device(ld(0, 1, 63), status), 2)));
    rows.extend([0, 8].map(|status| (device(st(0, 1, 63), status), 1)));
    for dirty in [false, true] {
        rows.push((cached(&[ld(0, 7, 7)], dirty), 2));
        rows.push((cached(&[st(0, 7, 7)], dirty), 1));
        rows.push((cached(&[ld(0, 7, 128)], dirty), if dirty { 22 } else { 12 }));
        rows.push((cached(&[st(0, 7, 128)], dirty), if dirty { 22 } else { 12 }));
        rows.push((cached(&[ld(0, 7, 8)], dirty), 12));
        rows.push((cached(&[status(8)], dirty), 1));
    }
    rows.extend([(uncached(ld(0, 7, 3)), 6), (uncached(st(0, 7, 3)), 5)]);
    rows.extend((0..=16).map(|dirty| (emptying(dirty), 1 + 10 * dirty as u64)));
    rows
}

#[test]
fn s2_6_every_row() {
    for (mut bench, charge) in rows() {
        let word = bench.program[0];
        assert_eq!(bench.charge(), charge, "word {word:05X}");
        assert_eq!(bench.record.state.clocks, charge);
    }
}

#[test]
fn s2_2_held_clocks_only_count() {
    for place in 0..161 {
        for (mut bench, charge) in rows().into_iter().filter(|(_, charge)| *charge > place) {
            for _ in 0..place {
                assert_eq!(bench.tick(0, 0).finished, 0);
            }
            let (mut before, store) = (bench.record.clone(), bench.store.clone());
            assert_eq!(bench.tick(7, 5).finished, 0);
            before.state.clocks += 1;
            before.state.held += 1;
            assert_eq!((&bench.record, &bench.store), (&before, &store));
            assert_eq!(bench.charge(), charge - place);
        }
    }
}

#[test]
fn s2_5_nothing_a_programmer_sees_before_the_last_clock() {
    for (mut bench, charge) in rows() {
        let seen = |bench: &Bench| {
            let state = &bench.record.state;
            let memory: Vec<u32> = (0..2048)
                .map(|address| simulator::look(&bench.record, &bench.program, &bench.store, address).unwrap())
                .collect();
            (state.pc, state.h, state.flags, state.status, bench.record.registers, memory)
        };
        let before = seen(&bench);
        for _ in 1..charge {
            let answer = bench.tick(0, 0);
            assert_eq!((answer.byte, answer.word, answer.finished), (0, 0, 0));
            assert!(seen(&bench) == before);
        }
        assert_eq!(bench.tick(0, 0).finished, 1);
    }
}
