// The library and the circuit on random images: device accesses in every clock, and the state wherever a word has ended.
// Paper: "What a programmer sees", answer bytes and words. Source: Part 1; how much it shows depends on the image's group.
// Within an instruction only device accesses are compared: the circuit's branches act one clock earlier.
use circuit::{Circuit, Image, Out, Pins, Setting, Switch, Switches};
use compare::groups::{image, switches, GROUPS};
use std::fmt::Write;
use trm::raw::{self, Machine};

#[derive(Default)]
struct Totals {
    images: u64,
    clocks: u64,
    states: u64,
    reads: u64,
    writes: u64,
}

/// PC, status, flags, H and both banks, all as u32.
type State = [u32; 20];

fn circuit_state(circuit: &Circuit) -> State {
    let scalars = [circuit.pc, circuit.status(), circuit.flags.bits(), circuit.h];
    joined(scalars, &circuit.registers)
}

fn library_state(machine: &Machine) -> State {
    let flags = machine.n << 3 | machine.z << 2 | machine.c << 1 | machine.v;
    let scalars = [machine.pc as u32, machine.status as u32, flags as u32, machine.h];
    joined(scalars, &machine.regs)
}

fn joined(scalars: [u32; 4], registers: &[u32; 16]) -> State {
    let mut state = [0; 20];
    state[..4].copy_from_slice(&scalars);
    state[4..].copy_from_slice(registers);
    state
}

/// Where two states differ, as text.
fn differing(circuit: &State, library: &State) -> String {
    let names = ["PC", "status", "flags", "H"];
    let mut text = String::new();
    for (at, (a, b)) in circuit.iter().zip(library).enumerate().filter(|(_, (a, b))| a != b) {
        let name = names.get(at).map_or_else(|| format!("register {}", at - 4), |name| name.to_string());
        // Writing to a string does not fail.
        let _ = write!(text, " {name} {a:X} in the circuit, {b:X} in the library;");
    }
    text
}

/// Runs an image on both sides.
fn run(image: &Image, switches: Switches, totals: &mut Totals) -> Result<(), String> {
    let mut store = image.store();
    let mut circuit = Circuit::new(switches, &image.program, &store);
    let mut machine = raw::reset(&store).machine;
    for run in &image.runs {
        for _ in 0..run.count {
            let out = circuit.clock(Pins::new(run.line_byte, run.input));
            let answer = raw::clock_value(&machine, &image.program, &mut store, run.line_byte, run.input);
            if answer.number != 0 {
                return Err(format!("after {} clocks: refused with {}", machine.clocks, answer.number));
            }
            machine = answer.machine;
            if out != (Out { byte: answer.byte, word: answer.word }) {
                let (byte, word) = (answer.byte, answer.word);
                return Err(format!("clock {}: {out:X?} in the circuit, {byte:X} {word:X}", machine.clocks));
            }
            totals.clocks += 1;
            totals.reads += u64::from(out.byte & 1);
            totals.writes += u64::from(out.byte >> 1 & 1);
            if machine.phase == 0 {
                let (theirs, ours) = (circuit_state(&circuit), library_state(&machine));
                if theirs != ours {
                    return Err(format!("clock {}:{}", machine.clocks, differing(&theirs, &ours)));
                }
                totals.states += u64::from(run.line_byte & 4 == 0);
            }
        }
    }
    if store != circuit.memory.words {
        return Err("the stores differ at the end".into());
    }
    totals.images += 1;
    Ok(())
}

/// Whether some image differs with device accesses as published.
fn control(at: usize, images: u64, seed: u64) -> bool {
    let turned = switches(at).with(Switch::Io1, Setting::Published);
    let mut totals = Totals::default();
    (0..images).any(|round| run(&image(at, seed.wrapping_add(round)), turned, &mut totals).is_err())
}

fn group(at: usize, images: u64, seed: u64) -> bool {
    let name = GROUPS[at].name;
    let mut totals = Totals::default();
    for round in 0..images {
        let seed = seed.wrapping_add(round);
        if let Err(what) = run(&image(at, seed), switches(at), &mut totals) {
            println!("FAILED: S2.5 states, {name}: seed {seed}, {what}");
            return false;
        }
    }
    if !control(at, images, seed) {
        println!("FAILED: S2.5 states, {name}: no image differs with IO1 on Published");
        return false;
    }
    let Totals { images: whole, clocks, states, reads, writes } = totals;
    println!(
        "S2.5 states, {name}: {whole} images, {clocks} clocks, {states} states, {reads} device reads, {writes} writes"
    );
    println!("    {}", GROUPS[at].weight);
    whole == images && whole > 0
}

/// Passed and failed groups.
pub fn compare(images: u64, seed: u64) -> (usize, usize) {
    let passed = (0..GROUPS.len()).filter(|&at| group(at, images, seed)).count();
    (passed, GROUPS.len() - passed)
}
