// The clock counts of the paper's listing example, and what a trace reports of instructions and interrupts.
// Paper: "Images and the listing program", words 00005, 20003, 3BBFF and forty clocks.
// MOV R0 5; MUL R0 3; branch always to itself.
mod common;
use common::*;
use simulator::{run, trace, Events, Feed};

#[test]
fn s4_11_ends_of_instructions() {
    let mut bench = Bench::new(&[0x00005, 0x20003, 0x3BBFF], 2048);
    let mut ends = Vec::new();
    for _ in 0..40 {
        let at = bench.record.state.pc;
        if bench.tick(0, 0).finished == 1 {
            ends.push((bench.record.state.clocks, at));
        }
    }
    assert_eq!(ends, [(1, 0), (34, 1), (36, 2), (38, 2), (40, 2)]);
    assert_eq!(bench.record.registers[0], 15);
}

#[test]
fn s2_33_one_run_is_forty_clocks() {
    let mut bench = Bench::new(&[0x00005, 0x20003, 0x3BBFF], 2048);
    let (mut bytes, mut words) = ([9; 40], [9; 40]);
    let Bench { record, program, store } = &mut bench;
    let ran = run(record, program, store, &[0; 40], &[7; 40], &mut bytes, &mut words).unwrap();
    assert_eq!((ran.used, ran.finished), (40, 5));
    assert_eq!((bytes, words), ([0; 40], [0; 40]));
}

/// What a trace reports: address or saved PC, interrupt line if any, clocks left.
#[derive(Default)]
struct Seen(Vec<(usize, Option<u32>, usize)>);

impl Events for Seen {
    fn finished(&mut self, at: usize, left: usize) {
        self.0.push((at, None, left));
    }

    fn interrupted(&mut self, at: usize, interrupt_line: u32, left: usize) {
        self.0.push((at, Some(interrupt_line), left));
    }
}

fn seen(program: &[u32], line_bytes: &[u8]) -> Vec<(usize, Option<u32>, usize)> {
    let Bench { mut record, program, mut store } = Bench::new(program, 2048);
    let (inputs, mut bytes, mut words) =
        (vec![0; line_bytes.len()], vec![0; line_bytes.len()], vec![0; line_bytes.len()]);
    let mut events = Seen::default();
    let ran =
        trace(&mut record, &program, &mut store, Feed::new(line_bytes, &inputs, &mut bytes, &mut words), &mut events);
    assert_eq!(ran.finished as usize, events.0.iter().filter(|event| event.1.is_none()).count());
    events.0
}

#[test]
fn s4_12_a_trace_tells_each_end() {
    let ends = seen(&[0x00005, 0x20003, 0x3BBFF], &[0; 40]);
    assert_eq!(ends, [(0, None, 39), (1, None, 6), (2, None, 4), (2, None, 2), (2, None, 0)]);
}

#[test]
fn s4_12_a_trace_tells_interrupts() {
    // Both interrupt lines enabled; then line 1, a held clock with both, and line 0 while the mode is 1; RTI at 003, then line 0.
    let ends = seen(&[0x2C003, 0x3BC00, 0x3BC00, 0x2C507], &[0, 2, 7, 1, 0, 3]);
    assert_eq!(ends, [(0, None, 5), (1, Some(1), 4), (3, None, 1), (1, Some(0), 0)]);
}
