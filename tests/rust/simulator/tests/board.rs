// The serial board, sentence by sentence, at the paper's own timing.
// Paper: A1, "A serial board above the core".
// R6 of both banks holds the address of device 0; devices are set directly where only one clock of them is of interest.
mod common;
use common::*;
use simulator::board::{self, Answer, Board, Devices};

/// A board with a program and a store.
struct Desk {
    board: Board,
    program: Vec<u32>,
    store: Vec<u32>,
}

const LOOP: u32 = 14 << 14 | 14 << 10 | 0x3FF;
const LINE: u8 = 1;
const STALL: u8 = 4;

fn read(d: u32, device: u32) -> u32 {
    ld(d, 6, device)
}

fn write(d: u32, device: u32) -> u32 {
    st(d, 6, device)
}

impl Desk {
    fn new(program: &[u32]) -> Desk {
        let store = vec![0; 64];
        let mut board = board::reset(&store).unwrap();
        board.machine.registers[6] = 0xFFC0;
        board.machine.registers[14] = 0xFFC0;
        Desk { board, program: program.to_vec(), store }
    }

    fn at(mut self, clocks: u64) -> Desk {
        self.board.machine.state.clocks = clocks;
        self
    }

    fn with(mut self, set: impl FnOnce(&mut Devices)) -> Desk {
        set(&mut self.board.devices);
        self
    }

    fn tick(&mut self, given: u8, switches: u8) -> Answer {
        board::clock(&mut self.board, &self.program, &mut self.store, given, switches).unwrap()
    }

    fn joined(&mut self, given: u8) -> Answer {
        board::clock_joined(&mut self.board, &self.program, &mut self.store, given, 0).unwrap()
    }

    /// Clocks with the line high.
    fn idle(&mut self, clocks: u64) {
        for _ in 0..clocks {
            self.tick(LINE, 0);
        }
    }

    /// The word read by an LD that begins now, with the line high.
    fn load(&mut self) -> u32 {
        self.tick(LINE, 0);
        self.tick(LINE, 0).word
    }

    fn devices(&self) -> Devices {
        self.board.devices
    }
}

/// The level of a frame's bit: start, data from the lowest, stop.
fn bit(byte: u8, index: u64) -> u8 {
    match index {
        0 => 0,
        9 => 1,
        _ => byte >> (index - 1) & 1,
    }
}

/// Sends a byte on the line, clocks `from` to `to` of its frame.
fn send(desk: &mut Desk, byte: u8, from: u64, to: u64) {
    for clock in from..=to {
        desk.tick(bit(byte, (clock - 1) / 1012), 0);
    }
}

#[test]
fn a1_reset_makes_everything_zero() {
    let store = vec![3; 128];
    let board = board::reset(&store).unwrap();
    assert_eq!(board.machine, simulator::reset(&store).unwrap());
    assert_eq!(board.devices, Devices::default());
    assert_eq!(board::reset(&store[..100]), Err(4));
}

#[test]
fn a1_a_write_is_followed_by_its_frame() {
    let mut desk = Desk::new(&[write(0, 4), LOOP]);
    desk.board.machine.registers[0] = 0x1A5;
    let accepted = desk.tick(LINE, 0);
    assert_eq!((accepted.level, accepted.byte, accepted.word), (1, 4 << 2 | 2, 0x1A5));
    assert_eq!((desk.devices().serial.left, desk.devices().serial.sent), (10_120, 0xA5));
    for clock in 1..=10_120 {
        assert_eq!(desk.devices().serial.left, 10_121 - clock);
        assert_eq!(desk.tick(LINE, 0).level, bit(0xA5, (clock - 1) / 1012), "clock {clock}");
    }
    assert_eq!(desk.devices().serial.left, 0);
    assert_eq!(desk.tick(LINE, 0).level, 1);
}

#[test]
fn a1_busy_in_the_10120_clocks_after_the_write_and_in_no_others() {
    // The read is in the second clock of an LD, which begins with `left` one lower.
    for (left, status) in [(0, 2), (1, 2), (2, 0), (10_120, 0)] {
        let mut desk = Desk::new(&[read(1, 5)]).with(|devices| devices.serial.left = left);
        assert_eq!(desk.load(), status, "{left}");
    }
    for after in [10_119, 10_120, 10_121] {
        let program = [write(0, 4), LOOP];
        let mut desk = Desk::new(&program);
        desk.tick(LINE, 0);
        desk.idle(after - 1);
        desk.board.machine.state = simulator::State { size: 64, ..Default::default() };
        desk.board.machine.registers[0] = 9;
        desk.tick(LINE, 0);
        let serial = desk.devices().serial;
        let expected = if after > 10_120 { (10_120, 9) } else { (10_120 - after, 0) };
        assert_eq!((serial.left, serial.sent), expected, "{after}");
    }
}

#[test]
fn a1_a_write_while_busy_is_dropped() {
    let mut desk = Desk::new(&[write(0, 4), literal(MOV, 0, 7), write(0, 4), LOOP]);
    desk.board.machine.registers[0] = 0x55;
    desk.idle(3);
    assert_eq!((desk.devices().serial.sent, desk.devices().serial.left), (0x55, 10_118));
}

#[test]
fn a1_a_frame_is_received_in_the_clock_that_samples_its_stop_bit() {
    let mut desk = Desk::new(&[LOOP]);
    desk.idle(17);
    send(&mut desk, 0xC5, 1, 9613);
    assert_eq!((desk.devices().serial.passed, desk.devices().serial.ready), (9613, 0));
    send(&mut desk, 0xC5, 9614, 9614);
    let serial = desk.devices().serial;
    assert_eq!((serial.byte, serial.ready, serial.passed), (0xC5, 1, 0));
    send(&mut desk, 0xC5, 9615, 10_120);
    assert_eq!(desk.devices().serial, serial);
}

#[test]
fn a1_each_bit_is_sampled_in_its_506th_clock() {
    for byte in [0x00, 0xFF, 0x4B, 0x80, 0x01] {
        let mut desk = Desk::new(&[LOOP]);
        for clock in 1..=9614u64 {
            // The opposite of the bit in every other clock; start and stop samples wrong too.
            let index = (clock - 1) / 1012;
            let right = clock % 1012 == 506 && (1..=8).contains(&index);
            let level = if clock == 1 { 0 } else { bit(byte, index) ^ u8::from(!right) };
            desk.tick(level, 0);
        }
        assert_eq!((desk.devices().serial.byte, desk.devices().serial.ready), (byte.into(), 1));
    }
}

#[test]
fn a1_the_shift_register_changes_with_data_samples_only() {
    let mut desk = Desk::new(&[LOOP]).with(|devices| devices.serial.bits = 0xFF);
    for clock in 1..=9700u64 {
        desk.tick(u8::from(clock > 9614), 0);
        let samples = (0..=8).filter(|i| *i > 0 && 1012 * i + 506 <= clock).count();
        assert_eq!(desk.devices().serial.bits, 0xFF >> samples, "{clock}");
    }
}

#[test]
fn a1_the_next_low_clock_after_a_stop_sample_is_a_frames_first() {
    let mut desk = Desk::new(&[LOOP]);
    send(&mut desk, 0x31, 1, 9614);
    send(&mut desk, 0x32, 1, 9614);
    assert_eq!(desk.devices().serial.byte, 0x32);
    desk.tick(LINE, 0);
    assert_eq!(desk.devices().serial.passed, 0);
    desk.tick(0, 0);
    assert_eq!(desk.devices().serial.passed, 1);
}

#[test]
fn a1_a_line_held_low_gives_zeros() {
    let mut desk = Desk::new(&[LOOP]);
    for frame in 1..=3u64 {
        desk.board.devices.serial = board::Serial { byte: 5, ..Default::default() };
        for clock in 1..=9614 {
            assert_eq!(desk.devices().serial.ready, 0, "frame {frame}, clock {clock}");
            desk.tick(0, 0);
        }
        assert_eq!((desk.devices().serial.byte, desk.devices().serial.ready), (0, 1));
    }
}

#[test]
fn a1_reading_device_4_clears_the_received_bit_and_keeps_the_byte() {
    let mut desk = Desk::new(&[read(1, 4), read(2, 5)]).with(|devices| {
        devices.serial.byte = 0x77;
        devices.serial.ready = 1;
    });
    desk.tick(LINE, 0);
    assert_eq!(desk.devices().serial.ready, 1);
    let answer = desk.tick(LINE, 0);
    assert_eq!((answer.byte, answer.word, answer.finished), (4 << 2 | 1, 0x77, 1));
    assert_eq!((desk.devices().serial.byte, desk.devices().serial.ready), (0x77, 0));
    assert_eq!(desk.board.machine.registers[1], 0x77);
    assert_eq!(desk.load(), 2);
}

#[test]
fn a1_reading_device_5_clears_nothing() {
    let mut desk = Desk::new(&[read(1, 5), read(1, 5)]).with(|devices| devices.serial.ready = 1);
    assert_eq!((desk.load(), desk.load()), (3, 3));
}

#[test]
fn a1_a_read_in_the_clock_of_the_stop_sample_comes_first() {
    for ready in [0, 1] {
        let mut desk = Desk::new(&[read(1, 4), read(1, 5)]).with(|devices| {
            devices.serial.passed = 9612;
            devices.serial.bits = 0x99;
            devices.serial.byte = 0x11;
            devices.serial.ready = ready;
        });
        assert_eq!(desk.load(), 0x11);
        assert_eq!((desk.devices().serial.byte, desk.devices().serial.ready), (0x99, 1));
    }
    // Status in the clock of the stop sample shows the old bit, in the next one the new bit.
    for (passed, status) in [(9612, 2), (9611, 2), (9613, 3)] {
        let mut desk = Desk::new(&[read(1, 5)]).with(|devices| devices.serial.passed = passed);
        assert_eq!(desk.load(), status, "{passed}");
    }
}

#[test]
fn a1_a_later_byte_replaces_an_unread_one() {
    let mut desk = Desk::new(&[LOOP]);
    send(&mut desk, 1, 1, 10_120);
    send(&mut desk, 2, 1, 10_120);
    assert_eq!((desk.devices().serial.byte, desk.devices().serial.ready), (2, 1));
}

#[test]
fn a1_the_tick_rises_at_multiples_and_is_seen_from_the_next_clock() {
    let mut desk = Desk::new(&[status(1), LOOP]);
    desk.idle(116_599);
    assert_eq!(desk.devices().tick, 0);
    // A clock without an instruction in flight, so that an interrupt could be taken in it.
    desk.board.machine.state.phase = 0;
    desk.program[1] = 0x3BC00;
    desk.idle(1);
    assert_eq!((desk.board.machine.state.clocks, desk.devices().tick), (116_600, 1));
    assert_eq!(desk.board.machine.state.status, 1);
    desk.idle(1);
    assert_eq!((desk.board.machine.state.status, desk.board.machine.state.pc), (5, 2));
    assert_eq!(desk.devices().tick, 1);
    for multiple in [0, 1, 2, 36_834] {
        let mut desk = Desk::new(&[LOOP]).at(multiple * 116_600);
        desk.idle(1);
        assert_eq!(desk.devices().tick, 0);
        let mut desk = Desk::new(&[LOOP]).at((multiple + 1).min(36_834) * 116_600 - 1);
        desk.idle(1);
        assert_eq!(desk.devices().tick, 1);
    }
}

#[test]
fn a1_a_write_to_device_6_clears_the_tick_unless_it_rises() {
    for (clocks, tick) in [(500, 0), (116_598, 0), (116_599, 1), (116_600, 0)] {
        let mut desk = Desk::new(&[write(0, 6)]).at(clocks).with(|devices| devices.tick = 1);
        desk.tick(LINE, 0);
        assert_eq!(desk.devices().tick, tick, "{clocks}");
    }
}

#[test]
fn a1_device_6_reads_the_milliseconds_when_the_clock_began() {
    for (clocks, time) in [(0, 0), (116_598, 0), (116_599, 1), (233_198, 1), (233_199, 2), (0xFFFF_FFFD, 36_835)] {
        // The read is in the second clock.
        let mut desk = Desk::new(&[read(1, 6)]).at(clocks);
        assert_eq!(desk.load(), time, "{clocks}");
    }
}

#[test]
fn a1_device_7_is_eight_switches_and_ten_lamps() {
    let mut desk = Desk::new(&[read(1, 7), write(2, 7)]);
    desk.board.machine.registers[2] = 0xFFFF_F7A6;
    desk.tick(LINE, 0x0F);
    assert_eq!(desk.tick(LINE, 0xB4).word, 0xB4);
    assert_eq!(desk.board.machine.registers[1], 0xB4);
    assert_eq!(desk.tick(LINE, 0).word, 0xFFFF_F7A6);
    assert_eq!(desk.devices().lamps, 0x3A6);
}

#[test]
fn a1_devices_not_named_read_zero_and_take_nothing() {
    for device in (0..4).chain(8..64) {
        let mut desk = Desk::new(&[read(1, device), write(6, device)]).with(|devices| {
            devices.serial.ready = 1;
            devices.serial.byte = 0x3C;
            devices.lamps = 5;
            devices.tick = 1;
        });
        let before = desk.devices();
        desk.board.machine.registers[1] = 1;
        desk.tick(LINE, 0xFF);
        let answer = desk.tick(LINE, 0xFF);
        assert_eq!((answer.byte, answer.word), ((device << 2 | 1) as u8, 0));
        let answer = desk.tick(LINE, 0xFF);
        assert_eq!((answer.byte, answer.word), ((device << 2 | 2) as u8, 0xFFC0));
        assert_eq!(desk.devices(), before);
    }
    let mut desk = Desk::new(&[write(6, 5)]);
    desk.tick(LINE, 0);
    assert_eq!(desk.devices(), Devices::default());
}

#[test]
fn a1_devices_run_in_held_clocks() {
    let mut desk = Desk::new(&[read(1, 4)]).at(116_599).with(|devices| {
        devices.serial.left = 10_120;
        devices.serial.ready = 1;
    });
    desk.tick(STALL, 0);
    let devices = desk.devices();
    assert_eq!((devices.serial.left, devices.serial.passed, devices.tick), (10_119, 1, 1));
    desk.tick(0, 0);
    assert_eq!(desk.tick(STALL, 0), Answer::default());
    assert_eq!(desk.devices().serial.ready, 1);
    assert_eq!(desk.tick(0, 0).byte, 4 << 2 | 1);
    assert_eq!(desk.devices().serial.ready, 0);
    let mut held = Desk::new(&[LOOP]);
    for clock in 1..=9614 {
        held.tick(STALL | bit(0x6E, (clock - 1) / 1012), 0);
    }
    assert_eq!((held.devices().serial.byte, held.devices().serial.ready), (0x6E, 1));
}

#[test]
fn a1_interrupt_1_and_the_tick_are_the_machines_lines() {
    for (tick, given, pc) in [(0, 2, 3), (1, 0, 2), (1, 2, 2), (0, 1, 0), (1, 6, 0)] {
        let mut desk = Desk::new(&[LOOP]).with(|devices| devices.tick = tick);
        desk.board.machine.state.status = 3;
        desk.tick(given, 0);
        assert_eq!(desk.board.machine.state.pc, pc, "{tick} {given}");
    }
}

#[test]
fn a1_a_joined_line_is_the_level_of_the_same_clock() {
    let mut desk = Desk::new(&[write(0, 4), LOOP]);
    desk.board.machine.registers[0] = 0x5A;
    assert_eq!(desk.joined(0).level, 1);
    assert_eq!(desk.devices().serial.passed, 0);
    assert_eq!(desk.joined(LINE).level, 0);
    assert_eq!(desk.devices().serial.passed, 1);
    for _ in 2..=9613 {
        desk.joined(LINE);
    }
    assert_eq!(desk.devices().serial.ready, 0);
    desk.joined(0);
    assert_eq!((desk.devices().serial.byte, desk.devices().serial.ready), (0x5A, 1));
}

/// Sends R1 when the transmitter is free and the last byte was read; then counts R1 up by 29.
fn echo() -> Vec<u32> {
    vec![
        literal(MOV, 1, 1),
        write(1, 4),
        read(2, 5),
        literal(4, 2, 1),
        branch(0, -3),
        read(3, 4),
        read(2, 5),
        literal(4, 2, 2),
        branch(0, -3),
        literal(ADD, 1, 29),
        branch(ALWAYS, -10),
    ]
}

#[test]
fn a1_a_joined_line_hands_over_every_byte_once_and_in_order() {
    let mut desk = Desk::new(&echo());
    let count = 65_536;
    let (given, switches) = (vec![0; count], vec![0; count]);
    let (mut levels, mut bytes, mut words) = (vec![9; count], vec![9; count], vec![9; count]);
    let (mut sent, mut handed) = (Vec::new(), Vec::new());
    for _ in 0..3 {
        let Desk { board, program, store } = &mut desk;
        let ran =
            board::run_joined(board, program, store, &given, &switches, &mut levels, &mut bytes, &mut words).unwrap();
        assert_eq!(ran.used, count as u64);
        for (&byte, &word) in bytes.iter().zip(&words) {
            match byte {
                0x12 => sent.push(word & 255),
                0x11 => handed.push(word),
                _ => (),
            }
        }
    }
    assert_eq!(sent.len(), 20);
    assert_eq!(handed, sent[..19]);
}

#[test]
fn a1_a_run_is_its_clocks() {
    let mut random = Random(8);
    for joined in [false, true] {
        let program = echo();
        let mut desk = Desk::new(&program).at(116_600 - 900);
        desk.board.devices.serial = board::Serial { left: 1500, sent: 0xB3, passed: 9000, ..Default::default() };
        let mut other = Desk { board: desk.board.clone(), program, store: desk.store.clone() };
        let given: Vec<u8> = (0..2000).map(|_| random.next() as u8 & 7).collect();
        let switches: Vec<u8> = (0..2000).map(|_| random.next() as u8).collect();
        let (mut levels, mut bytes, mut words) = (vec![9; 2000], vec![9; 2000], vec![9; 2000]);
        let Desk { board, program, store } = &mut desk;
        let call = if joined { board::run_joined } else { board::run };
        let ran = call(board, program, store, &given, &switches, &mut levels, &mut bytes, &mut words).unwrap();
        let mut finished = 0;
        for clock in 0..2000 {
            let call = if joined { board::clock_joined } else { board::clock };
            let answer =
                call(&mut other.board, &other.program, &mut other.store, given[clock], switches[clock]).unwrap();
            assert_eq!((answer.level, answer.byte, answer.word), (levels[clock], bytes[clock], words[clock]));
            finished += answer.finished;
        }
        assert_eq!((ran.used, ran.finished), (2000, finished));
        assert_eq!((&desk.board, &desk.store), (&other.board, &other.store));
    }
}

/// The field of the devices by number, and its highest value.
fn field(devices: &mut Devices, number: usize) -> (&mut u64, u64) {
    let serial = &mut devices.serial;
    match number {
        0 => (&mut serial.left, 10_120),
        1 => (&mut serial.sent, 255),
        2 => (&mut serial.passed, 9613),
        3 => (&mut serial.bits, 255),
        4 => (&mut serial.byte, 255),
        5 => (&mut serial.ready, 1),
        6 => (&mut devices.tick, 1),
        _ => (&mut devices.lamps, 1023),
    }
}

#[test]
fn a1_a_field_outside_its_range_is_refused_with_5() {
    for number in 0..8 {
        for over in [0, 1, 2, 1 << 32, u64::MAX - 20_000] {
            let mut desk = Desk::new(&[LOOP]);
            let (value, highest) = field(&mut desk.board.devices, number);
            *value = highest + over;
            let before = desk.board.clone();
            let number = board::clock(&mut desk.board, &desk.program, &mut desk.store, 1, 0).err();
            assert_eq!(number, if over == 0 { None } else { Some(5) });
            assert!(over == 0 || desk.board == before);
        }
    }
}

/// All calls with this board and `given` are refused with the number, or with a lower row's; nothing is written.
fn refused(board: &Board, program: &[u32], size: usize, given: u8, number: u32) {
    let (mut changed, mut store) = (board.clone(), vec![3; size]);
    let lent = &mut changed;
    assert_eq!(board::clock(lent, program, &mut store, given, 0), Err(number));
    assert_eq!(board::clock_joined(lent, program, &mut store, given, 0), Err(number));
    for call in [board::run, board::run_joined] {
        let (mut levels, mut bytes, mut words) = ([9; 2], [9; 2], [9; 2]);
        let mut lengths = |switches: usize, l: usize, b: usize, w: usize, row: u32| {
            let (levels, bytes, words) = (&mut levels[..l], &mut bytes[..b], &mut words[..w]);
            let answer = call(lent, program, &mut store, &[0, given], &[0; 3][..switches], levels, bytes, words);
            assert_eq!(answer, Err(row));
        };
        lengths(2, 2, 2, 2, number);
        lengths(3, 2, 2, 2, number.min(6));
        lengths(2, 1, 2, 2, number.min(7));
        lengths(2, 2, 1, 2, number.min(7));
        lengths(2, 2, 2, 1, number.min(7));
        assert_eq!((levels, bytes, words), ([9; 2], [9; 2], [9; 2]));
    }
    assert_eq!((&changed, store), (board, vec![3; size]));
}

#[test]
fn a1_rows_are_checked_in_order() {
    let good = Desk::new(&[LOOP]).at(0xFFFF_FFFF).board;
    let mut devices = good.clone();
    devices.devices.lamps = 1024;
    let mut record = devices.clone();
    record.machine.state.pc = 4096;
    refused(&record, &[0x40000], 32, 8, 3);
    refused(&record, &[0], 32, 8, 4);
    refused(&record, &[0], 64, 8, 5);
    refused(&devices, &[0], 64, 8, 5);
    refused(&good, &[0], 64, 8, 6);
    refused(&good, &[0], 64, 7, 8);
}
