// One call of the board on both sides, with everything about it compared; a run also clock by clock.
// Paper: A1, "A serial board above the core".
// The first difference is printed with its seed, and ends the program.
use super::call::{board_difference, difference, untouched, Call, Outcome, Run};
use super::declared::BoardClockAnswer;
use super::side::{Lent, Side};
use crate::call::place;
use crate::check::Check;

fn report(check: &Check, lent: &Lent, call: &Call, what: &str) -> ! {
    let (m, d) = (&lent.board.machine, &lent.board.devices);
    let word = lent.program.get(m.pc as usize).copied().unwrap_or(0x3BC00);
    let place = format!("clock count {}, word at PC {:X}H: {word:05X}H, phase {}", m.clocks, m.pc, m.phase);
    check.fail(&format!("call: A1 {}\n{place}, {d:?}\n{what}", call.describe()))
}

/// Executes the call on both sides and returns the common outcome.
pub fn call(check: &mut Check, lent: &Lent, call: &Call) -> Outcome {
    let ours = call.perform(Side::Simulator, lent);
    let theirs = call.perform(Side::Library, lent);
    check.calls += 1;
    if let Some(what) = difference(&ours, &theirs) {
        report(check, lent, call, &what);
    }
    if !ours.guarded || !theirs.guarded {
        report(check, lent, call, "A1 a word beside the lent ones was written");
    }
    if ours.number != 0 {
        if let Some(what) = untouched(call, lent, &theirs).or_else(|| untouched(call, lent, &ours)) {
            report(check, lent, call, &format!("A1 refused with {} and yet changed: {what}", ours.number));
        }
    }
    count(check, call, &ours);
    ours
}

fn count(check: &mut Check, call: &Call, outcome: &Outcome) {
    if outcome.number != 0 {
        check.board.refused[(outcome.number as usize).min(8)] += 1;
        return;
    }
    let (kind, joined, clocks) = match call {
        Call::Reset => (0, false, 0),
        Call::Clock { joined, .. } => (1, *joined, 1),
        Call::Run(run) => (2, run.joined, run.given.len() as u64),
    };
    check.board.accepted[kind][usize::from(joined)] += 1;
    check.clocks += clocks;
}

/// The call must return this number, written in the test.
pub fn expect(check: &mut Check, lent: &Lent, what: &Call, number: u32, why: &str) -> Outcome {
    for side in [Side::Simulator, Side::Library] {
        let outcome = what.perform(side, lent);
        if outcome.number != number {
            let text = format!("A1 {why}: {number} expected, {} from the {side:?}", outcome.number);
            report(check, lent, what, &text);
        }
    }
    call(check, lent, what)
}

/// What differs after one clock on both sides: the answers, and the stores of `ours` and `theirs`.
fn apart(a: &BoardClockAnswer, b: &BoardClockAnswer, ours: &Lent, theirs: &Lent) -> Option<String> {
    if a == b && a.number == 0 && ours.store == theirs.store {
        return None;
    }
    let of = |a: &BoardClockAnswer| (a.number, a.level, a.byte, a.word, a.finished);
    let answers = || format!("A1 number, level, byte, word, finished {:?} against {:?}", of(a), of(b));
    let record = board_difference(&a.board, &b.board);
    let store = || place("A1 store word", &ours.store, &theirs.store);
    Some(record.or_else(store).unwrap_or_else(answers))
}

/// The clocks of an accepted run one by one, on both sides, compared after each and with the run's outcome.
pub fn walk(check: &mut Check, lent: &Lent, run: &Run, outcome: &Outcome) {
    let (mut ours, mut theirs) = (lent.clone(), lent.clone());
    let (mut earlier, mut finished) = (None, 0);
    for (clock, (&given, &switches)) in run.given.iter().zip(&run.switches).enumerate() {
        let step = |side: Side, lent: &mut Lent| {
            side.clock(run.joined, &lent.board, &lent.program, &mut lent.store, given, switches)
        };
        let (a, b) = (step(Side::Simulator, &mut ours), step(Side::Library, &mut theirs));
        if let Some(what) = apart(&a, &b, &ours, &theirs) {
            let call = Call::Clock { joined: run.joined, given, switches };
            report(check, &ours, &call, &format!("A1 clock {clock} of a run: {what}"));
        }
        if (a.level, a.byte, a.word) != (outcome.levels[clock], outcome.bytes[clock], outcome.words[clock]) {
            report(check, lent, &Call::Run(run.clone()), &format!("A1 clock {clock} and its run differ"));
        }
        check.board.observe(earlier.as_ref(), &ours.board, given, &a);
        finished += a.finished;
        earlier = Some(ours.board);
        (ours.board, theirs.board) = (a.board, b.board);
    }
    let count = run.given.len() as u64;
    check.clocks += count;
    check.board.accepted[1][usize::from(run.joined)] += count;
    let same = ours.board == outcome.board && ours.store == outcome.store;
    if !same || (outcome.answers[3].1, outcome.answers[4].1) != (finished, count) {
        report(check, lent, &Call::Run(run.clone()), "A1 a run and its clocks one by one differ");
    }
}

/// A run on both sides; if it is accepted and `every` is set, also clock by clock.
pub fn run(check: &mut Check, lent: &Lent, run: Run, every: bool) -> Outcome {
    let whole = Call::Run(run);
    let outcome = call(check, lent, &whole);
    if let Call::Run(run) = &whole {
        if every && outcome.number == 0 {
            walk(check, lent, run, &outcome);
        }
    }
    outcome
}
