// The tick, milliseconds, switches and lamps, the status, and devices not named, clock by clock.
// Request A1: "The tick and reads of 4 to 6 show what stood when the clock began"; "Devices run in held clocks too".
// Clock n takes the count from n - 1 to n. Where one clock is of interest, the record is set just before it.
mod desk;
use desk::{board, branch, idle, literal, load, read, status, write, NOP, STAY};
use trm::Instruction::{Load, ReturnFromInterrupt, Store};
use trm::{raw, Access, Board, Given, Operation};

const TICK: u64 = 116_600;

/// A word read by the LD of a device, which reads in its second clock, the record being set before the first.
fn reply(device: u8, set: impl FnOnce(&mut raw::Board)) -> u32 {
    match load(&mut board(&[read(0, device)], set)).access {
        Some(Access::Read { device: from, word }) if from == device => word,
        other => panic!("device {device}: {other:?}"),
    }
}

/// From reset, with every instruction one clock: the tick stands after clock 116,600, and clock 116,601 takes the interrupt.
#[test]
fn a1_4_the_tick_rises_in_clock_116600_and_is_seen_from_116601() {
    let mut board = board(&[status(1), NOP], |_| ());
    idle(&mut board, 116_599);
    assert_eq!((board.tick(), board.machine().counts().clocks), (false, TICK - 1));
    assert!(board.clock(Given::HIGH, 0).unwrap().finished);
    assert_eq!((board.tick(), board.machine().status().mode, board.milliseconds()), (true, 0, 1));
    assert!(!board.clock(Given::HIGH, 0).unwrap().finished);
    assert_eq!((board.tick(), board.machine().status().mode, board.machine().pc()), (true, 1, 2));
}

/// An interrupt handler that counts in memory and clears the tick, over three ticks.
#[test]
fn a1_4_a_handler_counts_the_ticks() {
    let program = [
        status(1),
        branch(14, 1, 3),
        branch(14, 2, 4),
        STAY, // 3: the program itself
        Load { d: 0, s: 7, offset: 32 },
        literal(Operation::Add, 0, 1),
        Store { d: 0, s: 7, offset: 32 },
        write(0, 6),
        ReturnFromInterrupt { s: 7 },
    ];
    let mut board = board(&program, |_| ());
    for count in 0..3 {
        idle(&mut board, if count == 0 { 116_600 } else { 116_550 });
        assert_eq!((board.machine().look(32), board.tick()), (Ok(count), true));
        idle(&mut board, 50);
        assert_eq!((board.machine().look(32), board.tick()), (Ok(count + 1), false));
    }
}

#[test]
fn a1_4_a_rise_wins_over_a_clearing_write() {
    let after = |clocks, tick| {
        let mut board = board(&[write(0, 6)], |record| (record.machine.clocks, record.devices.tick) = (clocks, tick));
        let clocked = board.clock(Given::HIGH, 0).unwrap();
        assert_eq!(clocked.access, Some(Access::Write { device: 6, word: 0 }));
        board.tick()
    };
    for tick in [0, 1] {
        assert!(!after(0, tick) && !after(TICK - 2, tick) && !after(TICK, tick) && !after(3 * TICK + 7, tick));
        assert!(after(TICK - 1, tick) && after(2 * TICK - 1, tick) && after(36_835 * TICK - 1, tick));
    }
}

/// The tick is a bit of its own: it stands until it is cleared, and a count that is a multiple does not set it.
#[test]
fn a1_4_the_tick_stays_until_it_is_cleared() {
    let mut high = board(&[read(0, 6), STAY], |record| record.devices.tick = 1);
    let mut low = board(&[STAY], |record| record.machine.clocks = 2 * TICK);
    idle(&mut high, 1000);
    idle(&mut low, 1000);
    assert_eq!((high.tick(), low.tick()), (true, false));
}

#[test]
fn a1_5_milliseconds_of_the_count_when_the_clock_began() {
    let at = |clocks| reply(6, |record| record.machine.clocks = clocks);
    assert_eq!((at(0), at(TICK - 3), at(TICK - 2)), (0, 0, 0)); // the last is read in clock 116,600
    assert_eq!((at(TICK - 1), at(TICK), at(2 * TICK - 2), at(2 * TICK - 1)), (1, 1, 1, 2));
    assert_eq!((at(0xFFFF_FFFD), 0xFFFF_FFFE_u64 / TICK), (36_835, 36_835));
}

#[test]
fn a1_3_status_bits() {
    let at =
        |left, ready| reply(5, |record| record.devices.serial = raw::Serial { left, ready, ..raw::Serial::default() });
    // The read is in the second clock, when `left` is one less.
    assert_eq!((at(0, 0), at(0, 1), at(1, 0), at(1, 1)), (2, 3, 2, 3));
    assert_eq!((at(2, 0), at(2, 1), at(10_120, 0), at(10_120, 1)), (0, 1, 0, 1));
    let free = board(&[NOP], |record| record.devices.serial.ready = 1);
    assert_eq!((free.status(), board(&[NOP], |record| record.devices.serial.left = 1).status()), (3, 0));
}

/// Reading the status leaves the bit; reading the data clears it, and the byte can be read again.
#[test]
fn a1_8_reading_device_4_clears_the_received_bit() {
    let program = [read(0, 5), read(0, 4), read(0, 4), read(0, 5)];
    let set = |record: &mut raw::Board| (record.devices.serial.byte, record.devices.serial.ready) = (0x5A, 1);
    let mut board = board(&program, set);
    let mut words = vec![];
    for _ in 0..4 {
        words.push((load(&mut board).access, board.received(), board.last_byte()));
    }
    let read = |device, word| Some(Access::Read { device, word });
    let cleared = [(read(4, 0x5A), None, 0x5A), (read(4, 0x5A), None, 0x5A), (read(5, 2), None, 0x5A)];
    assert_eq!(words[0], (read(5, 3), Some(0x5A), 0x5A));
    assert_eq!(words[1..], cleared);
}

/// Device 7 is not among those that show what stood: it reads the switches of its own clock.
#[test]
fn a1_3_switches_in_and_lamps_out() {
    for switches in 0..=255 {
        let mut board = board(&[read(0, 7), write(0, 7)], |record| record.devices.lamps = 1023);
        board.clock(Given::HIGH, !switches).unwrap();
        let read = board.clock(Given::HIGH, switches).unwrap();
        assert_eq!(read.access, Some(Access::Read { device: 7, word: switches.into() }));
        assert_eq!(board.lamps(), 1023);
        board.clock(Given::HIGH, !switches).unwrap();
        assert_eq!(board.lamps(), switches.into());
    }
    for (word, lamps) in [(0x3FF, 0x3FF), (0x400, 0), (0xFFFF_FFFF, 0x3FF), (0xABCD_EF12, 0x312), (0x200, 0x200)] {
        let mut board = board(&[write(0, 7)], |record| record.machine.regs[0] = word);
        board.clock(Given::HIGH, 0).unwrap();
        assert_eq!(board.lamps(), lamps, "{word:X}H");
    }
}

/// A board with every field other than zero.
fn busy_board(program: &[trm::Instruction]) -> Board {
    let serial = raw::Serial { left: 700, sent: 0xA5, passed: 300, bits: 0x3C, byte: 0x5A, ready: 1 };
    board(program, |record| {
        (record.machine.clocks, record.machine.regs[0]) = (3 * TICK, 0x3F2);
        record.devices = raw::Devices { serial, tick: 1, lamps: 0x155 };
    })
}

#[test]
fn a1_8_devices_not_named_read_zero() {
    let mut quiet = busy_board(&[NOP]);
    idle(&mut quiet, 2);
    for device in (0..64).filter(|device| !(4..8).contains(device)) {
        let mut board = busy_board(&[read(0, device)]);
        board.clock(Given::HIGH, 255).unwrap();
        let clocked = board.clock(Given::HIGH, 255).unwrap();
        assert_eq!(clocked.access, Some(Access::Read { device, word: 0 }));
        assert_eq!(board.record().devices, quiet.record().devices, "device {device}");
    }
}

/// A write to a device that takes none is answered like any other and changes nothing.
#[test]
fn a1_3_other_writes_do_nothing() {
    let mut quiet = busy_board(&[NOP]);
    idle(&mut quiet, 1);
    for device in (0..64).filter(|device| ![4, 6, 7].contains(device)) {
        let mut board = busy_board(&[write(0, device)]);
        let clocked = board.clock(Given::HIGH, 0).unwrap();
        assert_eq!(clocked.access, Some(Access::Write { device, word: 0x3F2 }));
        assert_eq!(board.record().devices, quiet.record().devices, "device {device}");
    }
}

/// Held clocks count for the tick, send and receive; the machine does nothing in them.
#[test]
fn a1_9_devices_run_in_held_clocks() {
    let mut free = board(&[STAY], |record| record.devices.serial.left = 5000);
    let (mut held, clocks) = (free.clone(), 60_000);
    for _ in 0..2 {
        let lines: Vec<u8> = (0..clocks).map(|clock| u8::from(clock / 700 % 3 > 0)).collect();
        let stalled: Vec<u8> = lines.iter().map(|line| line | Given::STALL.byte()).collect();
        let (one, other) = (free.run(&lines, &vec![0; clocks]).unwrap(), held.run(&stalled, &vec![0; clocks]).unwrap());
        assert_eq!((one.levels, other.totals.finished), (other.levels, 0));
    }
    let (counts, devices) = (held.machine().counts(), held.record().devices);
    assert_eq!((counts.clocks, counts.held, held.machine().pc()), (120_000, 120_000, 0));
    assert_eq!((free.record().devices, devices.tick), (devices, 1));
    assert_ne!(devices.serial.byte, 0);
    assert_eq!(board(&[read(0, 7)], |_| ()).clock(Given::STALL, 9).unwrap().access, None);
    let mut rising = board(&[NOP], |record| record.machine.clocks = TICK - 1);
    rising.clock(Given::STALL, 0).unwrap();
    assert!(rising.tick());
}

/// Interrupt 1 is the given bit, and goes to address 3; the tick goes before it.
#[test]
fn a1_2_interrupt_1_is_given() {
    for (tick, place) in [(0, 3), (1, 2)] {
        let mut board = board(&[status(3), NOP, NOP, NOP], |record| record.devices.tick = tick);
        board.clock(Given::HIGH, 0).unwrap();
        board.clock(Given::HIGH | Given::INTERRUPT_1, 0).unwrap();
        assert_eq!((board.machine().pc(), board.machine().status().mode), (place, 1));
    }
}
