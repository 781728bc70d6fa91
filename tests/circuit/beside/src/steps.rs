// The multiplier and divider registers of library and circuit after each of the 32 steps, and the results.
// Paper: "After k multiplier steps", the divider's remainder and quotient. Source: "The Multiplier", "The Divider".
// After clock 33 the circuit keeps its registers, which are zero in document 01, so only results are compared there.
use circuit::words::{register, DIV, MUL};
use circuit::{Circuit, Pins, Setting, Switch, Switches};
use trm::raw::{self, Machine};

/// Random pairs, in addition to the edges.
const ROUNDS: u64 = 3000;

const EDGES: [u32; 18] = [
    0,
    1,
    2,
    3,
    5,
    7,
    0x0000_FFFF,
    0x0001_0000,
    0x3FFF_FFFF,
    0x4000_0000,
    0x5555_5555,
    0x7FFF_FFFE,
    0x7FFF_FFFF,
    0x8000_0000,
    0x8000_0001,
    0xAAAA_AAAA,
    0xFFFF_FFFE,
    0xFFFF_FFFF,
];

/// Operand pairs that are compared and counted together.
struct Group {
    name: &'static str,
    weight: &'static str,
    operation: u32,
    /// The switches that are set on Paper; all others stay on Published.
    set_aside: &'static [Switch],
    /// With this switch on Published some pair must differ; otherwise the comparison is blind.
    control: Switch,
    /// Which pairs (B, A) belong here.
    takes: fn(u32, u32) -> bool,
}

const TOP: u32 = 0x8000_0000;

const GROUPS: [Group; 4] = [
    Group {
        name: "S2.13 multiplier, all operands",
        weight: "evidence from the published text, nothing set aside but the first NOP",
        operation: MUL,
        set_aside: &[Switch::Fill],
        control: Switch::Fill,
        takes: |_, _| true,
    },
    Group {
        name: "S2.14 divider, A above 0 and B other than -2^31",
        weight: "evidence from the published text, nothing set aside but the first NOP",
        operation: DIV,
        set_aside: &[Switch::Fill],
        control: Switch::Fill,
        takes: |b, a| a as i32 > 0 && b != TOP,
    },
    Group {
        name: "S2.14 divider, A above 0 and B = -2^31",
        weight: "evidence with the listed slip DIVTOP set aside",
        operation: DIV,
        set_aside: &[Switch::Fill, Switch::DivTop],
        control: Switch::DivTop,
        takes: |b, a| a as i32 > 0 && b == TOP,
    },
    Group {
        name: "S2.14 divider, A at or below 0",
        weight: "no evidence: DIVNP gives document 01's rule",
        operation: DIV,
        set_aside: &[Switch::Fill, Switch::DivTop, Switch::DivNp],
        control: Switch::DivNp,
        takes: |_, a| a as i32 <= 0,
    },
];

struct Random(u64);

impl Random {
    fn next(&mut self) -> u64 {
        self.0 = self.0.wrapping_add(0x9E37_79B9_7F4A_7C15);
        let mut z = self.0;
        z = (z ^ z >> 30).wrapping_mul(0xBF58_476D_1CE4_E5B9);
        z = (z ^ z >> 27).wrapping_mul(0x94D0_49BB_1331_11EB);
        z ^ z >> 31
    }

    /// A word, often an edge, a power of two or next to one.
    fn word(&mut self) -> u32 {
        let (choice, word) = (self.next() % 6, (self.next() >> 16) as u32);
        match choice {
            0 => EDGES[(word % EDGES.len() as u32) as usize],
            1 => 1 << (word % 32),
            2 => (1u32 << (word % 32)).wrapping_sub(1),
            3 => (1u32 << (word % 32)).wrapping_neg(),
            _ => word >> (self.next() % 32),
        }
    }
}

/// Every pair of edges, then random ones.
fn pairs(seed: u64) -> Vec<(u32, u32)> {
    let mut random = Random(seed);
    let mut pairs: Vec<(u32, u32)> = EDGES.iter().flat_map(|&b| EDGES.map(|a| (b, a))).collect();
    pairs.extend((0..ROUNDS).map(|_| (random.word(), random.word())));
    pairs.extend((0..ROUNDS / 10).map(|_| (TOP, random.word())));
    pairs
}

/// The registers to compare after a step.
fn registers(circuit: &Circuit, machine: &Machine, operation: u32) -> [(&'static str, u64, u64); 2] {
    if operation == MUL {
        let product = circuit.multiplier.product();
        let high = |word: u64| word >> 32;
        return [("Hi", high(product), high(machine.product)), ("Hi and Lo", product, machine.product)];
    }
    let divider = &circuit.divider;
    [("R", divider.r.into(), machine.remainder), ("Q", divider.q.into(), machine.quotient)]
}

/// One operation on both sides: 32 steps, then the results. Returns the number of steps compared.
fn pair(group: &Group, switches: Switches, b: u32, a: u32) -> Result<u64, String> {
    let program = [register(group.operation, 0, 1)];
    let mut store = vec![0; 64];
    let mut circuit = Circuit::new(switches, &program, &store);
    let mut machine = raw::reset(&store).machine;
    (circuit.registers[0], circuit.registers[1]) = (b, a);
    (machine.regs[0], machine.regs[1]) = (b, a);
    let mut steps = 0;
    for step in 1..=33u64 {
        circuit.clock(Pins::default());
        let answer = raw::clock_value(&machine, &program, &mut store, 0, 0);
        if answer.number != 0 {
            return Err(format!("step {step}: refused with {}", answer.number));
        }
        machine = answer.machine;
        let finished = u64::from(step == 33);
        if answer.finished != finished || machine.count != (step * (1 - finished)) {
            return Err(format!("step {step}: count {} and {} finished", machine.count, answer.finished));
        }
        let compared = match step {
            33 => [
                ("R.d", circuit.registers[0].into(), machine.regs[0].into()),
                ("H", circuit.h.into(), machine.h.into()),
            ],
            _ => registers(&circuit, &machine, group.operation),
        };
        for (name, theirs, ours) in compared {
            if theirs != ours {
                return Err(format!("step {step}: {name} is {theirs:X} in the circuit and {ours:X} in the library"));
            }
        }
        steps += 1 - finished;
    }
    Ok(steps)
}

fn group(group: &Group, pairs: &[(u32, u32)]) -> bool {
    let aside = |all: Switches, &switch: &Switch| all.with(switch, Setting::Paper);
    let switches = group.set_aside.iter().fold(Switches::all(Setting::Published), aside);
    let pairs: Vec<_> = pairs.iter().filter(|&&(b, a)| (group.takes)(b, a)).collect();
    let turned = switches.with(group.control, Setting::Published);
    if pairs.iter().all(|&&(b, a)| pair(group, turned, b, a).is_ok()) {
        println!("FAILED: {}: no pair differs with {:?} on Published", group.name, group.control);
        return false;
    }
    let (mut operations, mut steps) = (0, 0);
    for &&(b, a) in &pairs {
        match pair(group, switches, b, a) {
            Ok(more) => (operations, steps) = (operations + 1, steps + more),
            Err(what) => {
                println!("FAILED: {}: B {b:08X}, A {a:08X}, {what}", group.name);
                return false;
            }
        }
    }
    println!("{}: {operations} operations, {steps} steps", group.name);
    println!("    {}", group.weight);
    operations > 0 && steps == 32 * operations
}

/// Passed and failed groups.
pub fn compare(seed: u64) -> (usize, usize) {
    let pairs = pairs(seed);
    let passed = GROUPS.iter().filter(|part| group(part, &pairs)).count();
    (passed, GROUPS.len() - passed)
}
