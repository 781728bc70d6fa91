// Compares the library with the circuit: multiplier and divider step by step, the state word by word, the interrupt rule.
// Paper: "Clock by clock". Source: Part 1.
// Called: beside [--images N] [--seed S]; N images in each group, see ../compare. See tests/circuit/run.
mod rule;
mod states;
mod steps;

/// Images in each group and the first seed, without options.
const IMAGES: u64 = 40;
const SEED: u64 = 1;

fn options() -> Result<(u64, u64), String> {
    let (mut images, mut seed) = (IMAGES, SEED);
    let mut words = std::env::args().skip(1);
    while let Some(name) = words.next() {
        let value = words.next().and_then(|value| value.parse().ok());
        let value = value.ok_or_else(|| format!("{name} needs a number"))?;
        match name.as_str() {
            "--images" => images = value,
            "--seed" => seed = value,
            _ => return Err(format!("unknown option {name}")),
        }
    }
    Ok((images, seed))
}

fn main() {
    let (images, seed) = options().unwrap_or_else(|what| {
        println!("{what}");
        println!("0 passed, 1 failed");
        std::process::exit(2);
    });
    let parts = [steps::compare(seed), states::compare(images, seed), rule::compare(images, seed)];
    let (passed, failed) = parts.iter().fold((0, 0), |sum, part| (sum.0 + part.0, sum.1 + part.1));
    println!("{passed} passed, {failed} failed");
    std::process::exit(i32::from(failed > 0));
}
