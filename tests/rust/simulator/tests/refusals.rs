// The refusal table: rows, their order, and that a refused call changes nothing.
// Paper: "Where calls are turned down".
// A short list; the long one, also against the library, is in ../../compare.
mod common;
use common::*;
use simulator::{clock, copy, look, run, shows_write, watch};

#[test]
fn s3_1_order_of_the_rows() {
    let mut bench = Bench::new(&[0], 64);
    let mut small = vec![0; 128];
    bench.record.state.clocks = 0xFFFF_FFFF;
    let mut broken = bench.record.clone();
    broken.state.pc = 4096;
    let (good, bad) = (vec![0], vec![0x40000]);
    assert_eq!(clock(&mut broken, &bad, &mut small, 8, 0), Err(3));
    assert_eq!(clock(&mut broken, &good, &mut small, 8, 0), Err(4));
    assert_eq!(clock(&mut broken, &good, &mut bench.store, 8, 0), Err(5));
    assert_eq!(clock(&mut bench.record, &good, &mut bench.store, 8, 0), Err(6));
    assert_eq!(clock(&mut bench.record, &good, &mut bench.store, 7, 0), Err(8));
    let mut words = [5; 2];
    let refused = run(&mut bench.record, &good, &mut bench.store, &[8], &[0], &mut [3], &mut words);
    assert_eq!(refused, Err(6));
    let refused = run(&mut bench.record, &good, &mut bench.store, &[7], &[0], &mut [3], &mut words);
    assert_eq!(refused, Err(7));
    let refused = run(&mut bench.record, &good, &mut bench.store, &[7], &[0], &mut [3], &mut words[..1]);
    assert_eq!(refused, Err(8));
    let none = run(&mut bench.record, &good, &mut bench.store, &[], &[], &mut [], &mut []);
    assert_eq!(none.unwrap().used, 0);
    assert_eq!(words, [5; 2]);
}

#[test]
fn s2_35_looks_copies_and_the_watch() {
    let mut bench = Bench::new(&[status(8), st(1, 7, 3), 0], 64);
    bench.record.registers[1] = 77;
    bench.finish();
    bench.finish();
    assert_eq!(bench.store[3], 0x5000_0003);
    let look_at = |address| look(&bench.record, &bench.program, &bench.store, address);
    assert_eq!((look_at(3), look_at(67), look_at(4)), (Ok(77), Ok(77), Ok(0x5000_0004)));
    assert_eq!((look_at(0xFFBF), look_at(0xFFC0), look_at(0x10000)), (Ok(0x5000_003F), Err(9), Err(9)));
    let mut buffer = vec![1; 64];
    copy(&bench.record, &bench.program, &bench.store, &mut buffer).unwrap();
    assert!((0..64).all(|address| look_at(address as u32) == Ok(buffer[address])));
    assert_eq!(copy(&bench.record, &bench.program, &bench.store, &mut buffer[..63]), Err(7));
    assert_eq!(watch(&[0, 1, 0x16], 5), Ok(Some(2)));
    assert_eq!(watch(&[0, 1, 0x16], 0), Ok(None));
    assert_eq!(watch(&[], 64), Err(9));
    assert!(shows_write(63, 0xFE) && !shows_write(63, 0xFD) && !shows_write(62, 0xFE));
}

/// Every record reached in a run is accepted, and every phase is reached.
#[test]
fn s2_45_records_met_are_accepted() {
    let mut random = Random(3);
    let mut phases = [0; 6];
    for _ in 0..300 {
        let program: Vec<u32> = (0..64).map(|_| random.next() as u32 & 0x3FFFF).collect();
        let mut bench = Bench::new(&program, 1024);
        for register in bench.record.registers.iter_mut() {
            *register = random.word();
        }
        for _ in 0..400 {
            let line_byte = random.next() as u8 & 7 & random.next() as u8;
            bench.tick(line_byte, random.next() as u32);
            phases[bench.record.state.phase as usize] += 1;
        }
    }
    assert!(phases.iter().all(|&met| met > 0), "{phases:?}");
}
