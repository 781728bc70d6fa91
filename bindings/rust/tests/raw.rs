// The C interface as linked: size and version, empty slices, null pointers, and what encode refuses.
// Paper: "Where calls are turned down"; row 10, "a field outside its width".
// By trm.h a pointer with the length 0 may be null.
use std::ptr::{null, null_mut};
use trm::raw::{self, Instruction};

#[test]
fn the_library_has_the_record_of_this_package() {
    assert_eq!(raw::record_size(), std::mem::size_of::<raw::Machine>());
    assert_eq!(raw::board_size(), std::mem::size_of::<raw::Board>());
    assert_eq!(raw::record_version(), raw::RECORD_VERSION);
}

#[test]
fn s3_1_empty_slices_are_judged_by_their_length() {
    let mut store = vec![7; 64];
    let mut machine = raw::reset(&store).machine;
    let before = machine;
    assert_eq!(raw::reset(&[]).number, 4);
    assert_eq!(raw::clock(&mut machine, &[], &mut store, 0, 0).number, 3);
    assert_eq!(raw::clock(&mut machine, &[0], &mut [], 0, 0).number, 4);
    assert_eq!(machine, before);
    assert_eq!(raw::clock_value(&machine, &[], &mut store, 0, 0).number, 3);
    assert_eq!(raw::clock_value(&machine, &[0], &mut [], 0, 0).number, 4);
    let none = raw::run(&machine, &[0], &mut store, &[], &[], &mut [], &mut []);
    assert_eq!((none.number, none.used, none.finished, none.machine), (0, 0, 0, before));
    assert_eq!(raw::run(&machine, &[0], &mut store, &[0], &[0], &mut [], &mut []).number, 7);
    assert_eq!(raw::look(&machine, &[], &store, 0).number, 3);
    assert_eq!(raw::copy(&machine, &[0], &store, &mut []), 7);
    assert_eq!((raw::watch(&[], 5).number, raw::watch(&[], 5).found), (0, 0));
    assert_eq!((raw::image_check(&[], 2048).number, raw::image_check(&[], 2048).at), (2, 0));
    assert_eq!(raw::image_payload(&[], 0), raw::PartAnswer { number: 2, start: 0, length: 0 });
    assert_eq!(store, [7; 64]);
}

#[test]
fn s3_1_null_pointers_of_length_0_are_not_looked_at() {
    let (program, mut store) = ([0], [7; 64]);
    let (p, s) = (program.as_ptr(), store.as_mut_ptr());
    unsafe {
        let mut machine = raw::trm_reset(s, 64).machine;
        let before = machine;
        assert_eq!(raw::trm_reset(null(), 0).number, 4);
        assert_eq!(raw::trm_clock(&mut machine, null(), 0, s, 64, 0, 0).number, 3);
        assert_eq!(raw::trm_clock(&mut machine, p, 1, null_mut(), 0, 0, 0).number, 4);
        assert_eq!(machine, before);
        assert_eq!(raw::trm_clock_value(machine, null(), 0, s, 64, 0, 0).number, 3);
        assert_eq!(raw::trm_clock_value(machine, p, 1, null_mut(), 0, 0, 0).number, 4);
        let none = raw::trm_run(machine, p, 1, s, 64, null(), 0, null(), 0, null_mut(), 0, null_mut(), 0);
        assert_eq!((none.number, none.used, none.machine), (0, 0, before));
        assert_eq!(raw::trm_look(machine, null(), 0, s, 64, 0).number, 3);
        assert_eq!(raw::trm_look(machine, p, 1, null(), 0, 0).number, 4);
        assert_eq!(raw::trm_copy(machine, p, 1, s, 64, null_mut(), 0), 7);
        assert_eq!(raw::trm_watch(null(), 0, 5).found, 0);
        assert_eq!(raw::trm_image_check(null(), 0, 2048).number, 2);
        assert_eq!(raw::trm_image_payload(null(), 0, 3).number, 2);
    }
    assert_eq!(store, [7; 64]);
}

/// The fields of each form, in the order operation, condition, d, s, value, each with its greatest value; 0 for one that it does not have.
const WIDTHS: [(u32, [u32; 5]); 11] = [
    (raw::FORM_REGISTER, [10, 0, 7, 7, 0]),
    (raw::FORM_LITERAL, [10, 0, 7, 0, 1023]),
    (raw::FORM_MOVE_H, [0, 0, 7, 0, 0]),
    (raw::FORM_STATUS, [0, 0, 0, 0, 15]),
    (raw::FORM_JUMP, [0, 0, 0, 7, 0]),
    (raw::FORM_LINK, [0, 0, 7, 7, 0]),
    (raw::FORM_RTI, [0, 0, 0, 7, 0]),
    (raw::FORM_LOAD, [0, 0, 7, 7, 255]),
    (raw::FORM_STORE, [0, 0, 7, 7, 255]),
    (raw::FORM_BRANCH, [0, 15, 0, 0, 1023]),
    (raw::FORM_CALL, [0, 0, 0, 0, 4095]),
];

fn instruction(form: u32, [operation, condition, d, s, value]: [u32; 5]) -> Instruction {
    Instruction { form, operation, condition, d, s, value }
}

#[test]
fn s3_12_encode_refuses_every_field_outside_its_width() {
    for (form, greatest) in WIDTHS {
        let answer = raw::encode(instruction(form, greatest));
        assert_eq!(answer.number, 0, "form {form}");
        assert_eq!(raw::decode(answer.word).instruction, instruction(form, greatest));
        for field in 0..5 {
            for value in [greatest[field] + 1, u32::MAX] {
                let mut fields = greatest;
                fields[field] = value;
                let refused = raw::encode(instruction(form, fields));
                assert_eq!((refused.number, refused.word), (10, 0), "form {form}, field {field}, value {value}");
            }
        }
    }
    for form in [11, u32::MAX] {
        assert_eq!(raw::encode(instruction(form, [0; 5])).number, 10);
    }
}

#[test]
fn s3_5_decode_refuses_words_of_more_than_18_bits() {
    for word in [0x40000, 0x7FFFF, 0x8000_0000, u32::MAX] {
        let answer = raw::decode(word);
        assert_eq!((answer.number, answer.instruction), (3, Instruction::default()));
    }
    assert_eq!(raw::decode(0x3FFFF).number, 0);
}
