// Ids of docs/CLAIMS.md by what a label speaks of: a refusal's number, an operation, a word in flight.
// Paper: "Where calls are turned down", operations 0-15, the phases.
// A label carries them, so that a difference names the sentence that is not kept.

/// Rows 1 to 10 of the refusals, by their numbers.
const ROWS: [&str; 10] = ["S3.3", "S3.4", "S3.5", "S3.6", "S3.7", "S3.8", "S3.9", "S3.10", "S3.11", "S3.12"];

/// The row of a number that is not 0.
pub fn row(number: u32) -> &'static str {
    ROWS[(number.clamp(1, 10) - 1) as usize]
}

/// Of two numbers that differ: the row of the one refusal, or the order of the rows.
pub fn rows(left: u32, right: u32) -> &'static str {
    if left.min(right) == 0 {
        row(left.max(right))
    } else {
        "S3.1"
    }
}

/// Operations 0 to 15.
const OPERATIONS: [&str; 16] = [
    "S1.6",
    "S1.7",
    "S1.8",
    "S1.9",
    "S1.10",
    "S1.11",
    "S1.12",
    "S1.13",
    "S1.15",
    "S1.16 S1.17",
    "S1.14",
    "S1.20 S1.21",
    "S1.22",
    "S1.22",
    "S1.25",
    "S1.27",
];

/// Phases 0 to 5: an instruction begins, steps, a ten, a ten, a wait, the last clock.
const PHASES: [&str; 6] = ["S2.4", "S2.8", "S2.19", "S2.19", "S2.11", "S2.5"];

/// An operation 0 to 10, and its flags.
pub fn operation(number: u32) -> String {
    let carry = match number {
        2 => " A2.1",
        3 => " A2.2",
        _ => "",
    };
    format!("{} S1.18 S1.19{carry}", OPERATIONS[number as usize])
}

/// The word at PC and the phase that it is in; a call may be given any number as either.
pub fn in_flight(word: u32, phase: u64) -> String {
    let operation = OPERATIONS.get((word >> 14) as usize).unwrap_or(&"S3.5");
    format!("{operation} {}", PHASES.get(phase as usize).unwrap_or(&"S3.7"))
}
