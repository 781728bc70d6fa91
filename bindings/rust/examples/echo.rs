// Echo: the serial line is joined to itself, and a program sends a text and reads each byte back.
// Request A1: a line joined to itself; examples/board/README.md of the repository works out every clock that is printed.
// Called: cargo run --offline --example echo; it prints what examples/board/echo.c prints.
mod words;
use trm::raw::{DEVICE_PANEL, DEVICE_SERIAL, DEVICE_STATUS, SERIAL_FREE, SERIAL_RECEIVED};
use trm::Operation::{Add, And, Mov, Not};
use trm::{Access, Board, Given, Refusal};
use words::{branch, encoded, literal, load, store, ALWAYS, IF_ZERO};

/// Where the text begins, and how far behind it the bytes are kept that come back.
const TEXT: usize = 16;
const BACK: usize = 24;

fn main() -> Result<(), Refusal> {
    let text = "Hello, board";
    let program = encoded(&[
        literal(Not, 1, 63),              // 000 R1: the address of device 0
        literal(Mov, 2, TEXT as u32),     // 001 R2: the address of the next character
        load(0, 2, 0),                    // 002
        literal(And, 0, 255),             // 003 is it the end?
        branch(IF_ZERO, 4, 16),           // 004
        store(0, 1, DEVICE_SERIAL),       // 005 sends it
        load(3, 1, DEVICE_STATUS),        // 006 waits until it is back
        literal(And, 3, SERIAL_RECEIVED), // 007
        branch(IF_ZERO, 8, 6),            // 008
        load(3, 1, DEVICE_SERIAL),        // 009 reads it
        store(3, 2, BACK as u8),          // 00A keeps it
        load(3, 1, DEVICE_STATUS),        // 00B waits until the transmitter is free
        literal(And, 3, SERIAL_FREE),     // 00C
        branch(IF_ZERO, 13, 11),          // 00D
        literal(Add, 2, 1),               // 00E
        branch(ALWAYS, 15, 2),            // 00F
        literal(Mov, 0, 1),               // 010 the end: lights lamp 0
        store(0, 1, DEVICE_PANEL),        // 011
        branch(ALWAYS, 18, 18),           // 012
    ])?;
    let mut memory = vec![0; 64];
    for (word, byte) in memory[TEXT..].iter_mut().zip(text.bytes()) {
        *word = byte.into();
    }
    let mut board = Board::new(program, memory)?;
    println!("byte, accepted in clock, read back in clock");
    while board.lamps() == 0 {
        // A write is accepted if the transmitter was free, a byte handed over if the read found the received bit set.
        let (free, unread) = (board.transmitter_free(), board.received());
        let clocked = board.clock_joined(Given::LOW, 0)?;
        let clock = board.machine().counts().clocks;
        match clocked.access {
            Some(Access::Write { device: DEVICE_SERIAL, word }) if free => print!("'{}' {clock}", word as u8 as char),
            Some(Access::Read { device: DEVICE_SERIAL, .. }) if unread.is_some() => println!(" {clock}"),
            _ => (),
        }
    }
    let memory = board.machine().memory();
    let back: String = memory[TEXT + BACK..][..text.len()].iter().map(|&word| word as u8 as char).collect();
    println!("sent: {text}\nread: {back}");
    println!("lamp 0 is lit in clock {}", board.machine().counts().clocks);
    Ok(())
}
