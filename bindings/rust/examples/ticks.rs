// Ticks: a program that counts the ticks, which are interrupt 0, in a word of its memory.
// Request A1: the tick rises whenever the clock count comes to a multiple of 116,600.
// Called: cargo run --offline --example ticks; it prints what examples/board/ticks.c prints.
mod words;
use trm::raw::DEVICE_MILLISECONDS;
use trm::Instruction::{ReturnFromInterrupt, SetStatus};
use trm::Operation::{Add, Not};
use trm::{Board, Given, Refusal};
use words::{branch, encoded, literal, load, store, ALWAYS};

/// Where the ticks are counted.
const COUNT: u8 = 32;
/// Clocks of a run, which has at most 65,536.
const CLOCKS: usize = 50_000;

fn main() -> Result<(), Refusal> {
    let program = encoded(&[
        SetStatus { status: 1 },          // 000 interrupt 0 enabled
        branch(ALWAYS, 1, 3),             // 001
        branch(ALWAYS, 2, 4),             // 002 where interrupt 0 goes
        branch(ALWAYS, 3, 3),             // 003 the program itself has nothing to do
        literal(Not, 1, 63),              // 004 the handler, in bank 1. R1: the address of device 0
        load(0, 7, COUNT),                // 005
        literal(Add, 0, 1),               // 006
        store(0, 7, COUNT),               // 007
        store(0, 1, DEVICE_MILLISECONDS), // 008 clears the tick
        ReturnFromInterrupt { s: 7 },     // 009
    ])?;
    let mut board = Board::new(program, vec![0; 64])?;
    for _ in 0..10 {
        board.run(&[Given::HIGH.byte(); CLOCKS], &[0; CLOCKS])?; // nothing is sent to the board: the line is high
        let (clocks, count) = (board.machine().counts().clocks, board.machine().look(COUNT.into())?);
        println!("{clocks} clocks: {count} ticks counted, {} have risen", board.milliseconds());
        assert_eq!(count, board.milliseconds());
    }
    Ok(())
}
