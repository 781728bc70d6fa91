// Compares the library with the simulator, call by call, and counts what was compared.
// Paper: all of it but images and the listing program; request A1.
// Called: compare [--rounds N | --seconds N] [--seed S] [--part P]; see tests/rust/run.
mod board;
mod call;
mod check;
mod clauses;
mod damage;
mod demand;
mod edges;
mod fields;
mod library;
mod lists;
mod plain;
mod programs;
mod random;
mod records;
mod sentences;
mod side;
mod table;
mod tally;

use check::Check;
use random::Random;
use std::time::{Duration, Instant};

/// Rounds and the first seed, without options.
const ROUNDS: u64 = 3000;
const SEED: u64 = 1;

struct Options {
    rounds: Option<u64>,
    seconds: Option<u64>,
    seed: u64,
    /// Only this part, 1 to 10.
    part: Option<u64>,
}

impl Options {
    fn wants(&self, part: u64) -> bool {
        self.part.is_none_or(|only| only == part)
    }
}

fn options() -> Result<Options, String> {
    let mut options = Options { rounds: None, seconds: None, seed: SEED, part: None };
    let mut words = std::env::args().skip(1);
    while let Some(name) = words.next() {
        let value = words.next().and_then(|value| value.parse().ok());
        let value: u64 = value.ok_or_else(|| format!("{name} needs a number"))?;
        match name.as_str() {
            "--rounds" => options.rounds = Some(value),
            "--seconds" => options.seconds = Some(value),
            "--seed" => options.seed = value,
            "--part" => options.part = Some(value),
            _ => return Err(format!("unknown option {name}")),
        }
    }
    Ok(options)
}

/// One round: a list of calls, a record of each kind, in every eighth round a sweep of damages, a list of demand 3.
fn round(check: &mut Check, options: &Options, seed: u64) {
    check.seed = seed;
    if options.wants(1) {
        check.part = "part 1, S8.7 lists of calls".into();
        lists::list(check, &mut Random::new(seed));
    }
    if options.wants(2) {
        check.part = "part 2, S2.27 records made directly".into();
        records::records(check, &mut Random::new(!seed));
    }
    if options.wants(3) && seed.is_multiple_of(8) {
        check.part = "part 3, S3.7 damaged records".into();
        damage::sweep(check, &mut Random::new(seed.rotate_left(32)));
    }
    if options.wants(6) {
        check.part = "part 6, S2.46 the plain machine of demand 3".into();
        demand::demand(check, &mut Random::new(seed ^ 0x6666));
    }
    if options.wants(9) {
        check.part = "part 9, A1 random calls of the board".into();
        board::rounds::round(check, &mut Random::new(seed ^ 0x9999_0000), seed);
    }
}

fn rounds(check: &mut Check, options: &Options) -> u64 {
    let start = Instant::now();
    let limit = options.seconds.map(Duration::from_secs);
    let rounds = if limit.is_some() { u64::MAX } else { options.rounds.unwrap_or(ROUNDS) };
    let mut done = 0;
    while done < rounds && limit.is_none_or(|limit| start.elapsed() < limit) {
        round(check, options, options.seed.wrapping_add(done));
        done += 1;
    }
    done
}

fn main() {
    let options = options().unwrap_or_else(|what| {
        println!("{what}");
        println!("0 passed, 1 failed");
        std::process::exit(2);
    });
    let start = Instant::now();
    let mut check = Check { seed: options.seed, observing: true, ..Check::default() };
    if options.wants(4) {
        check.part = "part 4, S3.7 clauses of row 5".into();
        let clauses = clauses::clauses(&mut check);
        println!("S3.7 row 5: {clauses} clauses, each with an accepted record and a refused neighbour");
    }
    if options.wants(5) {
        check.part = "part 5, S3.1 edges of the refusal table".into();
        let edges = table::table(&mut check);
        println!("S3.1 refusal table: {edges} edges and orders of rows");
    }
    if options.wants(7) {
        check.part = "part 7, S1.5 arithmetic at the edges".into();
        let pairs = edges::edges(&mut check);
        println!("S1.5 arithmetic: {pairs} pairs of edge words");
    }
    board_once(&mut check, &options);
    let done = rounds(&mut check, &options);
    println!("{done} rounds from seed {}", options.seed);
    let whole = options.rounds.is_none() && options.part.is_none();
    let failed = counts(&mut check, whole);
    let seconds = start.elapsed().as_secs_f64();
    println!("{} calls and {} clocks compared in {seconds:.1} s", check.calls, check.clocks);
    check.passed += 4;
    println!("{} passed, {failed} failed", check.passed);
    if failed > 0 {
        std::process::exit(1);
    }
}

/// The parts of the board that are done once.
fn board_once(check: &mut Check, options: &Options) {
    if options.wants(8) {
        check.part = "part 8, A1 refusals and edges of the board".into();
        let edges = board::table::table(check);
        println!("A1 board refusals: {edges} edges and orders of rows");
        let meetings = board::meet::meetings(check);
        println!("A1 accesses around the edges of frames and of the tick: {meetings}");
    }
    if options.wants(10) {
        check.part = "part 10, A1 a line joined to itself".into();
        let handed = board::timing::timing(check);
        println!("A1 a line joined to itself: {handed} bytes handed over");
    }
}

/// What the calls have reached, with names.
fn reached(check: &Check) -> Vec<(String, u64)> {
    let mut counts = check.tally.counts();
    counts.extend(check.board.counts());
    counts
}

/// Prints the tally; a count of zero is a failure if all rounds were done.
fn counts(check: &mut Check, whole: bool) -> u64 {
    let mut failed = 0;
    for (name, count) in reached(check) {
        println!("{count:>12} {name}");
        if count > 0 {
            check.pass();
        } else if whole {
            println!("never met: {name}");
            failed += 1;
        }
    }
    failed
}
