// The library against the independent simulator in one process: runs, single clocks, looks, the early exit, and the serial board.
// Paper: nothing; what is measured and how is in docs/PERFORMANCE.md.
// Called: bench [TURNS]. The two sides run in turn, and the best time counts; a ratio below 1 means that the library is faster.
mod board;
mod loads;
mod words;

use loads::{lengths, loads, Load};
use std::hint::black_box;
use std::time::Instant;
use trm::raw;

const CLOCKS: usize = 65536;
const WORDS: usize = 2048;
const CALLS: usize = 2000;

/// The best time of each side, in nanoseconds.
struct Best {
    library: f64,
    simulator: f64,
}

impl Best {
    fn of(turns: usize, mut library: impl FnMut() -> f64, mut simulator: impl FnMut() -> f64) -> Best {
        let mut best = Best { library: f64::MAX, simulator: f64::MAX };
        for _ in 0..turns {
            best.library = best.library.min(library());
            best.simulator = best.simulator.min(simulator());
        }
        best
    }

    fn print(&self, name: &str, unit: &str) {
        let ratio = self.library / self.simulator;
        println!("{name:24} library {:8.2} ns  simulator {:8.2} ns  a {unit}: ratio {ratio:.2}", self.library, self.simulator);
    }
}

/// Nanoseconds for each of the `count` things that `work` does.
fn timed(count: usize, work: impl FnOnce()) -> f64 {
    let start = Instant::now();
    work();
    start.elapsed().as_nanos() as f64 / count as f64
}

fn runs(turns: usize, load: &Load) {
    let (line_bytes, inputs) = (vec![load.line_byte; CLOCKS], vec![1; CLOCKS]);
    let mut answers = (vec![0; CLOCKS], vec![0; CLOCKS]);
    let mut others = answers.clone();
    let library = || {
        let mut store = vec![0; WORDS];
        let machine = raw::reset(&store).machine;
        timed(CLOCKS, || {
            let answer = raw::run(&machine, &load.program, &mut store, &line_bytes, &inputs, &mut answers.0, &mut answers.1);
            assert_eq!(answer.number, 0);
        })
    };
    let simulator = || {
        let mut store = vec![0; WORDS];
        let mut record = simulator::reset(&store).unwrap();
        timed(CLOCKS, || {
            let ran = simulator::run(&mut record, &load.program, &mut store, &line_bytes, &inputs, &mut others.0, &mut others.1);
            black_box(ran.unwrap());
        })
    };
    Best::of(turns, library, simulator).print(&format!("run, {}", load.name), "clock");
}

/// One clock call of the library, the record by value or lent.
type Clock = fn(&mut raw::Machine, &[u32], &mut [u32], u8);

fn by_value(machine: &mut raw::Machine, program: &[u32], store: &mut [u32], line_byte: u8) {
    *machine = raw::clock_value(machine, program, store, line_byte, 1).machine;
}

fn lent(machine: &mut raw::Machine, program: &[u32], store: &mut [u32], line_byte: u8) {
    black_box(raw::clock(machine, program, store, line_byte, 1));
}

fn clocks(turns: usize, load: &Load, name: &str, clock: Clock) {
    let library = || {
        let mut store = vec![0; WORDS];
        let mut machine = raw::reset(&store).machine;
        timed(CALLS, || {
            for _ in 0..CALLS {
                clock(&mut machine, &load.program, &mut store, load.line_byte);
            }
            assert_eq!(machine.clocks as usize, CALLS);
        })
    };
    let simulator = || {
        let mut store = vec![0; WORDS];
        let mut record = simulator::reset(&store).unwrap();
        timed(CALLS, || {
            for _ in 0..CALLS {
                black_box(simulator::clock(&mut record, &load.program, &mut store, load.line_byte, 1).unwrap());
            }
        })
    };
    Best::of(turns, library, simulator).print(&format!("{name}, {}", load.name), "call");
}

fn looks(turns: usize) {
    let (program, store) = (vec![0; 12], vec![7; WORDS]);
    let machine = raw::reset(&store).machine;
    let record = simulator::reset(&store).unwrap();
    let library = || {
        timed(CALLS, || {
            for address in 0..CALLS as u32 {
                black_box(raw::look(&machine, &program, &store, address).word);
            }
        })
    };
    let simulator = || {
        timed(CALLS, || {
            for address in 0..CALLS as u32 {
                black_box(simulator::look(&record, &program, &store, address).unwrap());
            }
        })
    };
    Best::of(turns, library, simulator).print("look", "call");
}

/// A run of 0 clocks: 4,096 words of which the first is above 3FFFFH, against 4,096 legal ones.
fn early_exit(turns: usize) {
    let mut store = vec![0; WORDS];
    let machine = raw::reset(&store).machine;
    let good = vec![0x3FFFF; 4096];
    let mut spoiled = good.clone();
    spoiled[0] = 0x40000;
    let mut best = [f64::MAX; 2];
    for _ in 0..turns {
        for (at, (program, number)) in [(&good, 0), (&spoiled, 3)].into_iter().enumerate() {
            let time = timed(CALLS, || {
                for _ in 0..CALLS {
                    let answer = raw::run(&machine, program, &mut store, &[], &[], &mut [], &mut []);
                    assert_eq!(black_box(answer.number), number);
                }
            });
            best[at] = best[at].min(time);
        }
    }
    let part = best[1] / best[0];
    println!("4,096 words: good {:.0} ns, the first spoiled {:.0} ns: {part:.3} of it", best[0], best[1]);
}

fn main() {
    let turns = std::env::args().nth(1).map_or(40, |turns| turns.parse().expect("a number of turns"));
    for load in loads() {
        runs(turns, &load);
    }
    for (name, clock) in [("clock", by_value as Clock), ("lent clock", lent as Clock)] {
        for load in loads() {
            clocks(turns, &load, name, clock);
        }
    }
    for load in lengths() {
        clocks(turns, &load, "lent clock", lent);
    }
    looks(turns);
    early_exit(turns);
    board::board(turns);
}
