// Lamps: a program that lights lamps 0 to 7 by the eight switches, and lamp 9 always.
// Request A1: device 7 is eight switches in and ten lamps out.
// Called: cargo run --offline --example lamps; it prints what examples/board/lamps.c prints.
mod words;
use trm::raw::DEVICE_PANEL;
use trm::Operation::{Not, Or};
use trm::{Board, Given, Refusal};
use words::{branch, encoded, literal, load, store, ALWAYS};

/// Clocks of a run: two turns of the loop.
const CLOCKS: usize = 12;

fn main() -> Result<(), Refusal> {
    let program = encoded(&[
        literal(Not, 1, 63),       // 000 R1: the address of device 0
        load(0, 1, DEVICE_PANEL),  // 001 the switches
        literal(Or, 0, 512),       // 002 and lamp 9
        store(0, 1, DEVICE_PANEL), // 003 the lamps
        branch(ALWAYS, 4, 1),      // 004
    ])?;
    let mut board = Board::new(program, vec![0; 64])?;
    for switches in [0x00, 0x01, 0x81, 0xFF, 0x5A] {
        board.run(&[Given::HIGH.byte(); CLOCKS], &[switches; CLOCKS])?;
        println!("switches {switches:08b}, lamps {:010b}", board.lamps());
    }
    Ok(())
}
