// Compares a listing program with the circuit on random images, and runs the programs of the switches.
// Paper: "Images and the listing program", misreadings. Source: Part 1.
// Called: compare --lister PATH [--rounds N] [--seed S]; N images in each group. See tests/circuit/run.
mod cases;
mod process;
mod score;

use cases::{cases, AGREED};
use circuit::{list, read, Setting, Switch, Switches, TABLE};
use compare::groups::{self, Group, AGAIN, GROUPS};
use score::{Noticed, Score, Totals};
use std::path::PathBuf;

/// Images in each group and the first seed, without options.
const ROUNDS: u64 = 120;
const SEED: u64 = 1;

struct Options {
    lister: PathBuf,
    rounds: u64,
    seed: u64,
}

fn options() -> Result<Options, String> {
    let mut options = Options { lister: "crates/trmlist/out/trmlist".into(), rounds: ROUNDS, seed: SEED };
    let mut words = std::env::args().skip(1);
    while let Some(name) = words.next() {
        let value = words.next().ok_or_else(|| format!("{name} needs a value"))?;
        let number = || value.parse().map_err(|_| format!("{name} needs a number"));
        match name.as_str() {
            "--lister" => options.lister = value.into(),
            "--rounds" => options.rounds = number()?,
            "--seed" => options.seed = number()?,
            _ => return Err(format!("unknown option {name}")),
        }
    }
    Ok(options)
}

/// Both settings of every case, and the programs on which nothing needs to be set aside.
fn switch_cases(score: &mut Score, noticed: &mut Noticed) {
    for case in cases() {
        let name = groups::label(case.switch);
        let expected = [(Setting::Published, &case.published), (Setting::Paper, &case.paper)];
        let results = expected
            .map(|(setting, expect)| cases::run(case.program, case.steps, cases::switches(case, setting), expect));
        if results.iter().all(Result::is_ok) {
            noticed.by_program(case.switch);
        }
        for (result, (setting, _)) in results.into_iter().zip(expected) {
            score.judge(&format!("{name}, {}, {setting:?}", case.what), result);
        }
    }
    let published = Switches::all(Setting::Published).with(Switch::Fill, Setting::Paper);
    for agreed in AGREED {
        score.judge(agreed.what, cases::run(agreed.program, agreed.steps, published, &agreed.expect));
    }
}

/// One image: the listing program against the circuit, and with `again` the circuit with each switch inverted.
fn held_against(options: &Options, at: usize, seed: u64, again: bool, noticed: &mut Noticed) -> Result<Totals, String> {
    let image = groups::image(at, seed);
    let bytes = image.bytes();
    if read(&bytes).as_ref() != Some(&image) {
        return Err(format!("seed {seed}: the image is not read back as it was made"));
    }
    let theirs = process::listed(&options.lister, &bytes)?;
    let switches = groups::switches(at);
    let ours = list(&image, switches);
    if let Some(difference) = process::difference(&theirs, &ours.text) {
        return Err(format!("seed {seed}: {difference}"));
    }
    if at == 0 && list(&image, groups::fewest()).text != theirs {
        return Err(format!("seed {seed}: differs with the fewest switches set aside"));
    }
    if again {
        for row in TABLE.iter().filter(|row| switches.paper(row.switch)) {
            let turned = list(&image, switches.with(row.switch, Setting::Published));
            noticed.by_group(row.switch, at, turned.text != theirs);
        }
    }
    Ok(Totals::of(&ours))
}

fn group(options: &Options, at: usize, score: &mut Score, noticed: &mut Noticed) {
    let Group { name, weight, .. } = GROUPS[at];
    let mut totals = Totals::default();
    let mut result = Ok(());
    for round in 0..options.rounds {
        match held_against(options, at, options.seed.wrapping_add(round), round < AGAIN, noticed) {
            Ok(more) => totals.add(&more),
            Err(what) => {
                result = Err(what);
                break;
            }
        }
    }
    println!("{name}: {totals}");
    println!("    {weight}");
    if at == 0 && result.is_ok() {
        let names: Vec<&str> = GROUPS[0].shows.iter().map(|&switch| groups::name(switch)).collect();
        println!("    and the same listings with only {} set aside", names.join(", "));
    }
    if result.is_ok() && totals.images < options.rounds.max(1) {
        result = Err("the comparison stopped early".into());
    }
    score.judge(&format!("images, {name}"), result);
}

fn main() {
    let options = options().unwrap_or_else(|what| {
        println!("{what}");
        println!("0 passed, 1 failed");
        std::process::exit(2);
    });
    let (mut score, mut noticed) = (Score::default(), Noticed::default());
    switch_cases(&mut score, &mut noticed);
    println!("S8.8 programs for the switches: {} results compared", score.passed + score.failed);
    for at in 0..GROUPS.len() {
        group(&options, at, &mut score, &mut noticed);
    }
    noticed.judge(&mut score, options.rounds >= AGAIN);
    println!("{} passed, {} failed", score.passed, score.failed);
    std::process::exit(i32::from(score.failed > 0));
}
