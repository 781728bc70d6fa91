// The serial line at the paper's own timing: frames sent and received, a busy transmitter, a line joined to itself.
// Request A1: "A frame is a low start bit, eight data bits lowest first and a high stop bit, 1,012 clocks each, sampled in the 506th".
// The programs poll the status; what they accept and are handed is compared with the bytes in their memory.
mod desk;
use desk::{bit, board, branch, bytes, clocks, idle, literal, load, read, words, write, Log, STAY};
use trm::Instruction::{Load, Store};
use trm::{raw, Access, Board, Given, Instruction, Operation};

const BIT: u64 = 1012;
/// The clock of a frame that samples its stop bit.
const STOP: u64 = 9 * BIT + 506;

#[test]
fn a1_6_an_accepted_byte_is_followed_by_its_frame() {
    for word in [0xA5, 0x100, 0xFFFF_FFFF, 0x1234_5601] {
        let mut board = board(&[write(0, 4), STAY], |record| record.machine.regs[0] = word);
        assert!(board.clock(Given::HIGH, 0).unwrap().level); // the write's own clock is not of the frame
        let mut levels = board.run(&[1; 10_120], &[0; 10_120]).unwrap().levels.into_iter();
        for place in 0..10 {
            for _ in 0..BIT {
                assert_eq!(levels.next(), Some(u8::from(bit(word as u8, place))), "{word:X}H, bit {place}");
            }
        }
        assert!(board.clock(Given::HIGH, 0).unwrap().level && board.transmitter_free());
    }
}

/// A line that is right only in the clocks that are sampled, with a start and a stop bit that are wrong even there. The shift register
/// takes the data samples and no others.
#[test]
fn a1_6_each_bit_is_sampled_in_its_506th_clock() {
    for byte in [0x00, 0xFF, 0x4B, 0x80, 0x01] {
        let mut board = board(&[STAY], |_| ());
        idle(&mut board, 17);
        let mut bits = 0;
        for clock in 1..=STOP {
            let (place, inside) = ((clock - 1) / BIT, (clock - 1) % BIT + 1);
            let sampled = inside == 506 && (1..9).contains(&place);
            let high = clock != 1 && bit(byte, place) == sampled;
            assert_eq!(board.received(), None);
            board.clock(Given::line(high), 0).unwrap();
            bits = if sampled { bits / 2 + 128 * u64::from(high) } else { bits };
            assert_eq!(board.record().devices.serial.bits, bits, "clock {clock}");
        }
        assert_eq!((board.received(), board.record().devices.serial.passed), (Some(byte), 0));
    }
}

/// A level, not an edge: the clock after a stop sample may be a frame's first, and a line held low gives a byte 0 every 9,614 clocks.
#[test]
fn a1_7_after_a_stop_sample_the_next_low_clock_is_a_first() {
    let mut low = board(&[STAY], |_| ());
    for n in 1..=3 {
        for clock in 1..STOP {
            low.clock(Given::LOW, 0).unwrap();
            assert_eq!(low.record().devices.serial.passed, clock);
        }
        assert_eq!((low.machine().counts().clocks, low.received()), (n * STOP - 1, (n > 1).then_some(0)));
        low.clock(Given::LOW, 0).unwrap();
        assert_eq!((low.record().devices.serial.passed, low.received()), (0, Some(0)));
    }
    // The rest of a stop bit is not waited for, nor does a high line begin a frame.
    let mut high = board(&[STAY], |record| record.devices.serial.passed = STOP - 1);
    idle(&mut high, 1000);
    assert_eq!(high.record().devices.serial.passed, 0);
    high.clock(Given::LOW, 0).unwrap();
    high.clock(Given::HIGH, 0).unwrap();
    assert_eq!(high.record().devices.serial.passed, 2);
}

/// The read of an LD in the clock of the stop sample, in the clock before it, and in the clock after it.
#[test]
fn a1_10_a_byte_is_received_after_any_read_in_that_clock() {
    for (before_stop, word, received) in [(2, 0x11, Some(0x22)), (3, 0x11, None), (1, 0x22, None)] {
        let serial =
            raw::Serial { passed: STOP - before_stop, bits: 0x22, byte: 0x11, ready: 1, ..raw::Serial::default() };
        let mut board = board(&[read(0, 4), STAY], |record| record.devices.serial = serial);
        assert_eq!(load(&mut board).access, Some(Access::Read { device: 4, word }), "{before_stop} before the stop");
        assert_eq!(board.received(), received, "{before_stop} before the stop");
        idle(&mut board, 1);
        assert_eq!(board.received().is_some(), before_stop > 1);
    }
}

/// Status and writes around the end of a frame: the write is in clock 1, so clocks 2 to 10,121 are busy.
#[test]
fn a1_12_busy_in_the_10120_clocks_after_the_write() {
    for after in [1, 2, 5000, 10_119, 10_120, 10_121, 10_122] {
        let begun = || board(&[write(0, 4), STAY], |record| record.machine.regs[0] = 0x55);
        let (mut asked, mut written) = (begun(), begun());
        for (board, lead, program) in [(&mut asked, 2, [read(0, 5)]), (&mut written, 1, [write(0, 4)])] {
            idle(board, 1 + (after - lead).max(0) as usize);
            let (mut record, _, store) = board.clone().into_parts();
            let clocks = record.machine.clocks;
            record.machine = raw::board_reset(&store).board.machine;
            (record.machine.regs[0], record.machine.regs[1], record.machine.clocks) = (0x33, desk::DEVICES, clocks);
            *board = Board::from_parts(record, words(&program), store).unwrap();
        }
        let busy = after <= 10_120;
        if after > 1 {
            let status = load(&mut asked).access;
            assert_eq!(status, Some(Access::Read { device: 5, word: if busy { 0 } else { 2 } }), "{after} after");
            assert_eq!(asked.machine().counts().clocks, 1 + after as u64);
        }
        written.clock(Given::HIGH, 0).unwrap();
        assert_eq!(written.machine().counts().clocks, 1 + after as u64);
        assert_eq!(
            written.sending(),
            if busy { (after < 10_120).then_some(0x55) } else { Some(0x33) },
            "{after} after"
        );
    }
}

/// Sends the words from address 16 on, and reads each back before it sends the next.
fn echo() -> Vec<Instruction> {
    vec![
        literal(Operation::Not, 1, 63),
        literal(Operation::Mov, 2, 16),
        Load { d: 0, s: 2, offset: 0 }, // 2: the next word
        write(0, 4),
        read(3, 5), // 4: a byte received?
        literal(Operation::And, 3, 1),
        branch(0, 6, 4),
        read(4, 4),
        Store { d: 4, s: 2, offset: 64 },
        read(3, 5), // 9: the transmitter free?
        literal(Operation::And, 3, 2),
        branch(0, 11, 9),
        literal(Operation::Add, 2, 1),
        branch(14, 13, 2),
    ]
}

/// A board with these bytes in memory from address 16 on, each with other bits above it.
fn with_text(program: &[Instruction], text: &[u8]) -> Board {
    let mut store = vec![0; 256];
    for (word, &byte) in store[16..].iter_mut().zip(text) {
        *word = 0xDEAD_BE00 | u32::from(byte);
    }
    Board::new(words(program), store).unwrap()
}

const TEXT: &[u8; 13] = b"Weaverlamp, 1";

/// A dozen bytes, the last still on the line at the end; then the same with every seventh clock held.
#[test]
fn a1_11_a_joined_line_hands_over_every_byte() {
    let free = |_| Given::LOW;
    let seventh = |clock| if clock % 7 == 3 { Given::STALL } else { Given::LOW };
    for given in [free as fn(u64) -> Given, seventh] {
        let mut board = with_text(&echo(), TEXT);
        let log = Log::joined(&mut board, 13, 5000, given);
        assert_eq!((bytes(&log.accepted), bytes(&log.handed)), (TEXT.to_vec(), TEXT[..12].to_vec()));
        assert_eq!(
            (bytes(&log.received), board.received(), board.sending()),
            (TEXT[..12].to_vec(), None, Some(TEXT[12]))
        );
        assert!(log.dropped.is_empty() && log.replaced.is_empty());
        let stops: Vec<u64> = clocks(&log.accepted)[..12].iter().map(|clock| clock + STOP).collect();
        assert_eq!(clocks(&log.received), stops);
        assert!(log.accepted.windows(2).all(|pair| pair[1].0 - pair[0].0 > 10_120));
        let kept: Vec<u32> = TEXT[..12].iter().map(|&byte| byte.into()).collect();
        assert_eq!(board.machine().memory()[80..92], kept);
    }
}

/// Sends pairs of words and reads after the second: the second replaces the first.
#[test]
fn a1_11_a_later_byte_replaces_an_unread_one() {
    let program = [
        literal(Operation::Not, 1, 63),
        literal(Operation::Mov, 2, 16),
        Load { d: 0, s: 2, offset: 0 }, // 2: a pair
        write(0, 4),
        read(3, 5),
        literal(Operation::And, 3, 2),
        branch(0, 6, 4),
        Load { d: 0, s: 2, offset: 1 },
        write(0, 4),
        read(3, 5),
        literal(Operation::And, 3, 2),
        branch(0, 11, 9),
        read(4, 4),
        literal(Operation::Add, 2, 2),
        branch(14, 14, 2),
    ];
    let mut board = with_text(&program, TEXT);
    let log = Log::joined(&mut board, 6, 9700, |_| Given::LOW);
    assert_eq!((bytes(&log.accepted), bytes(&log.received)), (TEXT[..6].to_vec(), TEXT[..6].to_vec()));
    assert_eq!((bytes(&log.handed), bytes(&log.replaced)), (vec![TEXT[1], TEXT[3]], vec![TEXT[0], TEXT[2], TEXT[4]]));
    assert_eq!((board.received(), board.sending()), (Some(TEXT[5]), Some(TEXT[5])));
    // unread, and the rest of its stop bit
}

/// Writes without asking: those in the 10,120 clocks after an accepted one are dropped, and what is accepted is handed over.
#[test]
fn a1_11_a_write_while_busy_is_dropped() {
    let program = [
        literal(Operation::Not, 1, 63),
        literal(Operation::Add, 0, 1), // 1: the next word, 8 clocks a turn
        write(0, 4),
        read(4, 4),
        read(5, 5),
        branch(14, 5, 1),
    ];
    let mut board = with_text(&program, &[]);
    let log = Log::joined(&mut board, 4, 20, |_| Given::LOW);
    // The writes are in clocks 3, 11, 19 and so on: after 3 the first that is free is 3 + 10,128, 1,266 turns later.
    assert_eq!(clocks(&log.accepted), [3, 10_131, 20_259, 30_387]);
    assert_eq!(bytes(&log.accepted), [1, 1267, 2533, 3799].map(|word: u32| word as u8));
    assert_eq!((bytes(&log.handed), log.dropped.len()), (bytes(&log.accepted)[..3].to_vec(), 3 * 1265 + 2));
}
