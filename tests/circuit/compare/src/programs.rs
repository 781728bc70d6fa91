// Random programs: an opening that sets up both banks, interrupt entries at 2 and 3, and a body of random words.
// Paper: "What a programmer sees". Registers 5 and 6 are device bases in both banks; other bases are local memory.
// Values show in a listing through branches on flags and jumps through registers; full programs have 4,096 words.
use crate::random::Random;
use circuit::words::*;

const XOR: u32 = 7;

/// What a group's programs may contain.
#[derive(Clone, Copy)]
pub struct Kind {
    pub interrupts: bool,
    pub memory: bool,
}

struct Maker<'a> {
    random: &'a mut Random,
    kind: Kind,
    words: Vec<u32>,
    length: u32,
}

/// The opening jumps from 0 to this word.
const START: u32 = 6;

pub fn program(random: &mut Random, kind: Kind) -> Vec<u32> {
    let length = if random.percent(90) { 4096 } else { random.between(60, 400) };
    let mut maker = Maker { random, kind, words: Vec::new(), length };
    maker.opening();
    while maker.words.len() < length as usize {
        maker.piece();
    }
    maker.words.truncate(length as usize);
    maker.words
}

impl Maker<'_> {
    /// Words 0-5, then the bases of both banks and some values from a device.
    fn opening(&mut self) {
        let entries = [branch(ALWAYS, START as i32 - 1), NEVER];
        self.words.extend(entries);
        for _ in 0..2 {
            let first = if self.random.percent(30) { rti(7) } else { self.short() };
            self.words.push(first);
        }
        self.words.extend([rti(7), NEVER]);
        // Interrupts are enabled only when both banks have their bases.
        for status in [4, self.status() & 11] {
            self.bases();
            self.words.push(ldpsr(status));
        }
    }

    /// R5 = FFFFFFC0H, R6 = FFFFFF00H, each by one word, so that a jump into the opening is harmless; then device 9.
    fn bases(&mut self) {
        self.words.extend([literal(NOT, 5, 63), literal(NOT, 6, 255)]);
        for d in [0, 1, 2, 3, 4, 7] {
            self.words.push(load(d, 5, 9));
        }
    }

    fn status(&mut self) -> u32 {
        let status = self.random.bits(4);
        match self.kind {
            Kind { interrupts: true, .. } if self.random.percent(60) => status & 8 | self.random.between(1, 3),
            Kind { memory: true, .. } if self.random.percent(60) => status | 8,
            _ => status,
        }
    }

    /// A register that may be written: 5 and 6 stay device bases.
    fn target(&mut self) -> u32 {
        self.random.pick(&[0, 1, 2, 3, 4, 7])
    }

    /// Unused bits set, in some words.
    fn noise(&mut self, mask: u32) -> u32 {
        if self.random.percent(20) {
            self.random.bits(18) & mask
        } else {
            0
        }
    }

    /// An operation 0-7 or 10, one clock long.
    fn short(&mut self) -> u32 {
        let operation = self.random.pick(&[0, 1, 2, 2, 3, 3, 4, 5, 6, 7, 10, 10]);
        self.operation(operation)
    }

    fn operation(&mut self, operation: u32) -> u32 {
        let d = self.target();
        if self.random.percent(40) {
            let value = if self.random.percent(50) { self.random.bits(10) } else { self.random.bits(5) };
            return literal(operation, d, value);
        }
        let unused = self.noise(if operation == MOV { 0x3F0 } else { 0x3F8 });
        register(operation, d, self.random.bits(3)) | unused
    }

    fn device(&mut self) -> (u32, u32) {
        if self.random.percent(50) {
            (5, self.random.bits(6))
        } else {
            (6, 0xC0 + self.random.bits(6))
        }
    }

    /// Base and offset of an access; always a device in programs without local memory.
    fn place(&mut self) -> (u32, u32) {
        match self.random.below(4) {
            _ if !self.kind.memory => self.device(),
            0 => self.device(),
            1 => (self.random.bits(3), self.random.bits(8)),
            _ => (7, self.random.bits(8)),
        }
    }

    fn access(&mut self) -> u32 {
        let (s, offset) = self.place();
        if self.random.percent(55) {
            load(self.target(), s, offset)
        } else {
            store(self.random.bits(3), s, offset)
        }
    }

    /// A branch forward.
    fn branch(&mut self) -> u32 {
        branch(self.random.bits(4), self.random.between(0, 6) as i32)
    }

    /// A branch backward on a bit of an input word, so that the loop ends when the input changes.
    fn back(&mut self) {
        let (d, (base, offset)) = (self.target(), self.device());
        let condition = self.random.between(CS, CS + 3);
        self.words.push(load(d, base, offset));
        self.words.extend([literal(ROR, d, self.random.bits(5)), branch(condition, -3)]);
    }

    /// A jump through a register whose value is combined with an input word, so that it shows and no loop is endless.
    fn jump(&mut self) {
        let (d, s) = (self.target(), self.target());
        let t = if s == 0 { 1 } else { 0 };
        if self.length < 4096 {
            let value = self.random.below(self.length);
            self.words.push(literal(MOV, s, value));
        } else {
            let (base, offset) = self.device();
            let join = self.random.pick(&[ADD, SUB, XOR]);
            self.words.extend([load(t, base, offset), register(join, s, t)]);
            if self.random.percent(60) {
                self.words.push(literal(ROR, s, self.random.bits(5)));
            }
        }
        let unused = self.noise(0xF8);
        // Usually the register changes too, so that a word that jumps to itself does so once.
        let word = match self.random.below(10) {
            0 => jump_link(d, s),
            1 => rti(s) | self.noise(0x3A00),
            2 => jump(s) | self.noise(0x3800),
            _ => jump_link(s, s),
        };
        self.words.push(word | unused);
    }

    /// An edge value, an operation on it, and a branch on its flags.
    fn edge(&mut self) {
        let (d, s) = (self.target(), self.target());
        let (value, count) = (self.random.pick(&[0, 1, 1, 1, 2, 3, 1023]), self.random.pick(&[0, 1, 1, 2, 5, 31]));
        self.words.extend([literal(self.random.pick(&[MOV, NOT]), d, value), literal(ROR, d, count)]);
        let operation = self.random.pick(&[NOT, ADD, SUB, MUL, DIV, DIV, ROR]);
        let word = match self.random.below(3) {
            0 => register(operation, d, d),
            1 => register(operation, d, s),
            _ => literal(operation, d, self.random.pick(&[0, 1, 2, 3, 7, 31])),
        };
        let after = self.branch();
        self.words.extend([word, after]);
        if operation == DIV || operation == MUL {
            self.words.push(high(s));
        }
    }

    /// Zero by a sum that wraps and by NOT, and -2^31 divided: three of the listed slips.
    fn slip(&mut self) {
        let d = self.target();
        match self.random.below(3) {
            0 => self.words.extend([literal(NOT, d, 0), register(NOT, d, d)]),
            1 => self.words.extend([literal(MOV, d, 1), literal(ROR, d, 1), register(ADD, d, d)]),
            _ => {
                let divisor = self.random.between(1, 9);
                self.words.extend([literal(MOV, d, 1), literal(ROR, d, 1), literal(DIV, d, divisor)]);
            }
        }
        let condition = self.random.pick(&[EQ, EQ + 1, MI, MI + 1]);
        self.words.push(branch(condition, self.random.between(1, 3) as i32));
    }

    /// Local memory where a shorter address, or a store to a device, would be seen: from 7C0H and from 0FC0H.
    fn shadow(&mut self) {
        let (s, d, offset) = (self.random.below(5), self.target(), self.random.bits(6));
        let high_part = self.random.pick(&[31, 63]);
        let count = self.random.bits(5);
        self.words.extend([literal(MOV, s, high_part), literal(ROR, s, 26), store(self.random.bits(3), 5, offset)]);
        self.words.extend([load(d, s, offset), literal(ROR, d, count), branch(CS, 1)]);
    }

    fn call(&mut self) -> u32 {
        let offset = if self.random.percent(50) { self.random.bits(5) } else { self.random.bits(12) };
        call(if self.length < 4096 { offset & 31 } else { offset }) | self.noise(0x3000)
    }

    /// Some words of the body.
    fn piece(&mut self) {
        let word = match self.random.below(100) {
            0..=38 => self.short(),
            39..=41 => self.operation(MUL),
            42..=44 => self.operation(DIV),
            45..=48 => high(self.target()) | self.noise(0x3F7),
            49..=62 => self.access(),
            63..=77 => self.branch(),
            78 => self.call(),
            79..=87 => return self.jump(),
            88..=90 => return self.edge(),
            91..=92 => return self.slip(),
            93 => return self.back(),
            94..=95 => ldpsr(self.status()) | self.noise(0x3BF0),
            96..=97 if self.kind.memory => return self.shadow(),
            _ => NEVER,
        };
        self.words.push(word);
    }
}
