// Images: the paper's example read and run, one with data, and faults with the offset of their record.
// Paper: "Images and the listing program".
// A record is a length of four bytes, a kind of two, and the payload, all little-endian.
use trm::image::{check, payload, Image, Run};
use trm::{raw, ImageFault, LineByte, Refusal};

/// `0C000000 0100 05000000 03000200 FFBB0300`: MOV R0, 5; MUL R0, 3; B .
const PROGRAM: [u8; 18] = [0x0C, 0, 0, 0, 1, 0, 5, 0, 0, 0, 3, 0, 2, 0, 0xFF, 0xBB, 3, 0];
/// `09000000 0300 28000000 00 00000000`: 40 clocks.
const FORTY: [u8; 15] = [9, 0, 0, 0, 3, 0, 0x28, 0, 0, 0, 0, 0, 0, 0, 0];

fn record(kind: u16, payload: &[u8]) -> Vec<u8> {
    let length = (payload.len() as u32).to_le_bytes();
    [&length[..], &kind.to_le_bytes(), payload].concat()
}

fn run_of(count: u32, line_byte: u8, input: u32) -> Vec<u8> {
    record(3, &[&count.to_le_bytes()[..], &[line_byte], &input.to_le_bytes()].concat())
}

#[test]
fn s4_10_the_example() {
    let bytes = [&PROGRAM[..], &FORTY].concat();
    assert_eq!(check(&bytes, 2048), Ok(()));
    let image = Image::read(&bytes, 2048).unwrap();
    assert_eq!(image.program(), [0x00005, 0x20003, 0x3BBFF]);
    assert!(image.data().is_empty());
    assert_eq!(image.runs(), [Run { count: 40, line_byte: LineByte::NONE, input: 0 }]);
    let mut machine = image.machine();
    assert_eq!((machine.program(), machine.store()), (image.program(), &[0; 2048][..]));
    let (line_bytes, inputs) = image.runs()[0].feed();
    assert_eq!((&line_bytes[..], &inputs[..]), (&[0; 40][..], &[0; 40][..]));
    assert_eq!(machine.run(&line_bytes, &inputs).unwrap().totals.finished, 5);
    assert_eq!(machine.counts().to_string(), "40 held 0 refills 0 writebacks 0");
}

#[test]
fn s4_3_data_and_runs() {
    let data = record(2, &[1, 2, 3, 4, 0xFF, 0xFF, 0xFF, 0xFF]);
    let bytes = [&PROGRAM[..], &data, &run_of(65536, 7, 0x8765_4321), &run_of(1, 2, 5)].concat();
    let image = Image::read(&bytes, 64).unwrap();
    assert_eq!(image.data(), [0x0403_0201, 0xFFFF_FFFF]);
    let all = LineByte::INTERRUPT_0 | LineByte::INTERRUPT_1 | LineByte::STALL;
    let runs = [
        Run { count: 65536, line_byte: all, input: 0x8765_4321 },
        Run { count: 1, line_byte: LineByte::INTERRUPT_1, input: 5 },
    ];
    assert_eq!(image.runs(), runs);
    let machine = image.machine();
    assert_eq!(machine.store().len(), 64);
    assert_eq!(machine.memory()[..3], [0x0403_0201, 0xFFFF_FFFF, 0]);
}

/// The payloads of the example.
#[test]
fn s4_6_payloads_are_parts_of_the_image() {
    let bytes = [&PROGRAM[..], &FORTY].concat();
    assert_eq!((payload(&bytes, 0), payload(&bytes, 18)), (Ok(&PROGRAM[6..]), Ok(&FORTY[6..])));
    assert_eq!(payload(&bytes, 18).unwrap().as_ptr(), bytes[24..].as_ptr());
    assert_eq!(raw::image_payload(&bytes, 18), raw::PartAnswer { number: 0, start: 24, length: 9 });
    assert_eq!(payload(&[0; 6], 0), Ok(&[][..]));
}

/// The payload of a record cut short, at offsets where no record begins, and of an image too long.
#[test]
fn s3_3_payloads_refused() {
    let bytes = [&PROGRAM[..], &FORTY].concat();
    for end in 19..33 {
        assert_eq!((payload(&bytes[..end], 0), payload(&bytes[..end], 18)), (Ok(&PROGRAM[6..]), Err(Refusal::Image)));
    }
    for at in (1..18).chain(19..40).chain([usize::MAX]) {
        assert_eq!(payload(&bytes, at), Err(Refusal::Kind), "{at}");
    }
    assert_eq!((payload(&bytes[..18], 18), payload(&bytes[..17], 0)), (Err(Refusal::Kind), Err(Refusal::Image)));
    assert_eq!((payload(&[0; 65536], 6), payload(&[0; 65537], 6)), (Ok(&[][..]), Err(Refusal::Image)));
    assert_eq!(raw::image_payload(&bytes[..32], 18), raw::PartAnswer { number: 1, start: 0, length: 0 });
}

/// Data may fill the store, and a program alone is an image.
#[test]
fn s4_3_images_at_their_edges() {
    let full = [&PROGRAM[..], &record(2, &[9; 256])].concat();
    assert_eq!(Image::read(&full, 64).unwrap().machine().store(), [0x0909_0909; 64]);
    let over = [&PROGRAM[..], &record(2, &[9; 260])].concat();
    assert_eq!(check(&over, 64), Err(ImageFault { refusal: Refusal::Image, at: 18 }));
    let image = Image::read(&PROGRAM, 32768).unwrap();
    assert_eq!((image.data(), image.runs(), image.machine().store().len()), (&[][..], &[][..], 32768));
}

#[test]
fn s4_9_faults_name_the_record() {
    let refused = |more: &[u8]| check(&[&PROGRAM[..], more].concat(), 2048).unwrap_err();
    let at_18 = |refusal| ImageFault { refusal, at: 18 };
    assert_eq!(refused(&FORTY[..14]), at_18(Refusal::Image)); // cut short
    assert_eq!(refused(&run_of(0, 0, 0)), at_18(Refusal::Image));
    assert_eq!(refused(&run_of(65537, 0, 0)), at_18(Refusal::Image));
    assert_eq!(refused(&record(3, &[1; 8])), at_18(Refusal::Image));
    assert_eq!(refused(&record(4, &[])), at_18(Refusal::Kind));
    assert_eq!(refused(&PROGRAM), at_18(Refusal::Kind)); // kind 1 again
    assert_eq!(refused(&run_of(1, 8, 0)), at_18(Refusal::LineBytes));
    let late = [&FORTY[..], &record(2, &[])].concat();
    assert_eq!(refused(&late), ImageFault { refusal: Refusal::Kind, at: 33 });
    assert_eq!(Image::read(&late, 2048), Err(ImageFault { refusal: Refusal::Kind, at: 0 }));
    // kind 1 missing
}

#[test]
fn s3_6_faults_of_program_and_store() {
    let word = record(1, &[0, 0, 4, 0]);
    assert_eq!(check(&word, 2048), Err(ImageFault { refusal: Refusal::Program, at: 0 }));
    for words in [0, 63, 100, 65536] {
        let fault = ImageFault { refusal: Refusal::Store, at: 0 };
        assert_eq!((check(&PROGRAM, words), Image::read(&PROGRAM, words)), (Err(fault), Err(fault)), "{words} words");
    }
    // checked before row 6 and every later record, after rows 1, 2 and 3 of the first
    let store = Err(ImageFault { refusal: Refusal::Store, at: 0 });
    for more in [&run_of(1, 8, 0)[..], &FORTY[..14], &PROGRAM, &record(2, &[9; 260])] {
        assert_eq!(check(&[&PROGRAM[..], more].concat(), 63), store);
    }
    let first = |refusal| Err(ImageFault { refusal, at: 0 });
    assert_eq!(check(&PROGRAM[..17], 63), first(Refusal::Image));
    assert_eq!(check(&FORTY, 63), first(Refusal::Kind));
    assert_eq!(check(&word, 63), first(Refusal::Program));
}
