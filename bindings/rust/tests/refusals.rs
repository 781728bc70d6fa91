// Each refusal by its number, and that a refused call leaves machine and buffers unchanged.
// Paper: "Where calls are turned down".
// Every limit is tried on both sides, and the order of the rows where one call can break two.
use std::error::Error;
use trm::image::{self, Image};
use trm::{decode, watch, Counts, ImageFault, Instruction, LineByte, Machine, Refusal};

/// Branch never: one clock each, and the machine stays ready.
const NOP: u32 = 0x3BC00;

fn machine() -> Machine {
    Machine::new(vec![NOP], vec![5; 64]).unwrap()
}

/// A machine after this many clocks.
fn after(clocks: u64) -> Machine {
    let (mut record, program, store) = machine().into_parts();
    record.clocks = clocks;
    Machine::from_parts(record, program, store).unwrap()
}

#[test]
fn numbers_names_and_sentences() {
    for (number, refusal) in (1..).zip(Refusal::ALL) {
        assert_eq!((refusal.number(), Refusal::from_number(number)), (number, Some(refusal)));
        assert!(refusal.to_string().starts_with(&format!("refused with {number}: ")));
    }
    for number in [0, 11, u32::MAX] {
        assert_eq!(Refusal::from_number(number), None);
    }
    assert_eq!(Refusal::Clocks.to_string(), "refused with 8: the clock count would pass 4,294,967,295");
    let fault = ImageFault { refusal: Refusal::LineBytes, at: 18 };
    assert_eq!(fault.to_string(), "refused 6 18");
    assert_eq!(fault.source().unwrap().to_string(), Refusal::LineBytes.to_string());
}

#[test]
fn s3_3_refusals_1_and_2_of_images() {
    let refused = |image: &[u8]| image::check(image, 2048).unwrap_err();
    assert_eq!(refused(&[0; 65537]), ImageFault { refusal: Refusal::Image, at: 0 });
    assert_eq!(refused(&[]), ImageFault { refusal: Refusal::Kind, at: 0 });
    assert_eq!(Image::read(&[], 2048), Err(ImageFault { refusal: Refusal::Kind, at: 0 }));
}

#[test]
fn s3_5_refusal_3_of_programs_and_words() {
    let refused = |program: Vec<u32>| Machine::new(program, vec![0; 64]).err();
    assert_eq!(refused(vec![]), Some(Refusal::Program));
    assert_eq!(refused(vec![NOP; 4097]), Some(Refusal::Program));
    assert_eq!(refused(vec![NOP, 0x40000]), Some(Refusal::Program));
    assert_eq!(refused(vec![0x3FFFF; 4096]), None);
    assert_eq!(decode(0x40000), Err(Refusal::Program));
}

#[test]
fn s3_6_refusal_4_of_stores() {
    let refused = |words| Machine::new(vec![NOP], vec![0; words]).err();
    for words in [0, 1, 32, 63, 65, 96, 32767, 65536] {
        assert_eq!(refused(words), Some(Refusal::Store), "{words} words");
    }
    assert_eq!((refused(64), refused(32768)), (None, None));
    let (record, program, _) = machine().into_parts();
    assert_eq!(Machine::from_parts(record, program, vec![0; 128]).err(), Some(Refusal::Store));
}

#[test]
fn s3_7_refusal_5_of_records() {
    let refused = |spoil: fn(&mut trm::raw::Machine)| {
        let (mut record, program, store) = machine().into_parts();
        spoil(&mut record);
        Machine::from_parts(record, program, store).err()
    };
    assert_eq!(refused(|record| record.pc = 4096), Some(Refusal::Record));
    assert_eq!(refused(|record| record.status = 16), Some(Refusal::Record));
    assert_eq!(refused(|record| record.phase = 5), Some(Refusal::Record)); // the word at PC takes one clock
    assert_eq!(refused(|record| record.held = 1), Some(Refusal::Record)); // above the clock count
    assert_eq!(refused(|record| record.dirty[3] = 1), Some(Refusal::Record)); // of an empty line
    assert_eq!(refused(|record| record.pc = 4095), None);
}

#[test]
fn s3_1_the_rows_go_down() {
    let (mut record, program, store) = machine().into_parts();
    record.pc = 4096;
    assert_eq!(Machine::new(vec![], vec![0; 63]).err(), Some(Refusal::Program));
    assert_eq!(Machine::from_parts(record, vec![], vec![0; 63]).err(), Some(Refusal::Program));
    assert_eq!(Machine::from_parts(record, program.clone(), vec![0; 63]).err(), Some(Refusal::Store));
    assert_eq!(Machine::from_parts(record, program, store).err(), Some(Refusal::Record));
}

#[test]
fn s3_8_refusal_6_of_lines() {
    let mut machine = machine();
    let before = machine.clone();
    assert_eq!(machine.run(&[0, 8], &[0, 0]), Err(Refusal::LineBytes));
    assert_eq!(machine.run(&[0, 255], &[0, 0]), Err(Refusal::LineBytes));
    assert_eq!(machine.run(&[0], &[]), Err(Refusal::LineBytes));
    assert_eq!(machine.run(&[0; 65537], &[0; 65537]), Err(Refusal::LineBytes));
    assert_eq!(machine, before);
    assert_eq!(LineByte::try_from(8), Err(Refusal::LineBytes));
    assert_eq!(machine.run(&[0; 65536], &[0; 65536]).unwrap().totals.used, 65536);
}

#[test]
fn s3_9_refusal_7_of_buffers() {
    let mut machine = machine();
    let before = machine.clone();
    let (mut bytes, mut words) = ([9; 3], [9; 3]);
    for (long, wide) in [(1, 2), (3, 2), (2, 1), (2, 3)] {
        let refused = machine.run_into(&[0; 2], &[0; 2], &mut bytes[..long], &mut words[..wide]);
        assert_eq!(refused, Err(Refusal::Buffers), "{long} bytes, {wide} words");
    }
    assert_eq!((machine == before, bytes, words), (true, [9; 3], [9; 3]));
    machine.run_into(&[0; 2], &[0; 2], &mut bytes[..2], &mut words[..2]).unwrap();
    assert_eq!((bytes, words), ([0, 0, 9], [0, 0, 9]));
}

#[test]
fn s3_10_refusal_8_of_clocks() {
    let mut machine = after(0xFFFF_FFFE);
    let before = machine.clone();
    assert_eq!(machine.run(&[0; 2], &[0; 2]), Err(Refusal::Clocks));
    assert_eq!(machine, before);
    machine.clock(LineByte::STALL, 0).unwrap();
    let last = machine.clone();
    assert_eq!(machine.clock(LineByte::NONE, 0), Err(Refusal::Clocks));
    assert_eq!(machine.clock(LineByte::STALL, 0), Err(Refusal::Clocks));
    assert_eq!(machine.run(&[], &[]).unwrap().totals.used, 0);
    assert_eq!(machine, last);
    assert_eq!(machine.counts(), Counts { clocks: 0xFFFF_FFFF, held: 1, refills: 0, writebacks: 0 });
}

#[test]
fn s3_11_refusal_9_of_addresses() {
    let machine = machine();
    for address in [0xFFC0, 0xFFFF, 0x10000, u32::MAX] {
        assert_eq!(machine.look(address), Err(Refusal::Address), "{address:X}H");
    }
    assert_eq!(machine.look(0xFFBF), Ok(5));
    assert_eq!((watch(&[], 64), watch(&[], 63)), (Err(Refusal::Address), Ok(None)));
}

#[test]
fn s3_12_refusal_10_of_instructions() {
    let refused = |instruction: Instruction| instruction.encode().err();
    assert_eq!(refused(Instruction::Jump { s: 8 }), Some(Refusal::Instruction));
    assert_eq!(refused(Instruction::SetStatus { status: 16 }), Some(Refusal::Instruction));
    assert_eq!(refused(Instruction::Branch { condition: 14, offset: 1024 }), Some(Refusal::Instruction));
    assert_eq!(refused(Instruction::Call { offset: 4095 }), None);
}

#[test]
fn s3_1_row_6_before_7_before_8() {
    let mut machine = after(0xFFFF_FFFF);
    let before = machine.clone();
    assert_eq!(machine.run_into(&[8], &[0], &mut [], &mut []), Err(Refusal::LineBytes));
    assert_eq!(machine.run_into(&[7], &[0], &mut [], &mut []), Err(Refusal::Buffers));
    assert_eq!(machine.run_into(&[7], &[0], &mut [0], &mut [0]), Err(Refusal::Clocks));
    assert_eq!(machine, before);
}
