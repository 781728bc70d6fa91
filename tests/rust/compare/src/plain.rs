// The plain machine of demand 3: what a programmer sees, a flat memory, a history, clocks left and counts.
// Paper: "The plain machine of demand 3", "Judged from history", the clock table, the instruction set; A2 for C of ADD and SUB.
// It has no cache, no phases and no steps; it is short, uses wide integers, and shares no code with either side.
use crate::tally::holds;

/// An access with the cache on, or an emptying.
#[derive(Clone, Copy)]
enum Event {
    Access { block: usize, stored: bool },
    Emptying,
}

pub struct Plain {
    pub pc: usize,
    pub registers: [u32; 16],
    pub h: u32,
    pub flags: [bool; 4],
    pub status: u32,
    pub memory: Vec<u32>,
    history: Vec<Event>,
    left: u64,
    charge: u64,
    pub clocks: u64,
    pub held: u64,
    pub refills: u64,
    pub writebacks: u64,
    pub finished: u64,
}

/// What one clock answers: byte and word.
pub type Moved = (u8, u32);

enum Place {
    Device(u32),
    Memory(usize),
}

impl Plain {
    /// The state after an accepted reset.
    pub fn new(store: &[u32]) -> Plain {
        Plain {
            pc: 0,
            registers: [0; 16],
            h: 0,
            flags: [false; 4],
            status: 0,
            memory: store.to_vec(),
            history: Vec::new(),
            left: 0,
            charge: 0,
            clocks: 0,
            held: 0,
            refills: 0,
            writebacks: 0,
            finished: 0,
        }
    }

    pub fn clock(&mut self, program: &[u32], line_byte: u8, input: u32) -> Moved {
        self.clocks += 1;
        if line_byte & 4 != 0 {
            self.held += 1;
            return (0, 0);
        }
        let word = program.get(self.pc).copied().unwrap_or(0x3BC00);
        if self.left == 0 {
            let enabled = u32::from(line_byte) & self.status & 3;
            if self.status & 4 == 0 && enabled != 0 {
                self.interrupt(enabled);
                return (0, 0);
            }
            self.charge = self.charge_of(word);
            self.left = self.charge;
        }
        self.left -= 1;
        self.count_tens(word);
        if self.left > 0 {
            return (0, 0);
        }
        self.finished += 1;
        self.execute(word, input)
    }

    fn interrupt(&mut self, enabled: u32) {
        let [n, z, c, v] = self.flags.map(u32::from);
        self.registers[15] = n << 31 | z << 30 | c << 29 | v << 28 | self.pc as u32;
        self.status |= 4;
        self.pc = if enabled & 1 == 1 { 2 } else { 3 };
    }

    /// The index of a register of the current bank.
    fn at(&self, number: u32) -> usize {
        (number % 8 + if self.status & 4 != 0 { 8 } else { 0 }) as usize
    }

    fn a(&self, word: u32) -> u32 {
        match (word >> 14 == 0, word & 0x400 != 0, word & 8 != 0) {
            (true, true, true) => self.h,
            (_, true, _) => self.registers[self.at(word)],
            _ => word % 1024,
        }
    }

    fn place(&self, word: u32) -> Place {
        let base = if word % 8 == 7 { 0 } else { u64::from(self.registers[self.at(word)]) };
        match (base + u64::from(word >> 3 & 255)) % 65536 {
            device @ 0xFFC0.. => Place::Device(device as u32 - 0xFFC0),
            address => Place::Memory(address as usize % self.memory.len()),
        }
    }

    /// The block that a cache line holds and whether it is dirty, from the history.
    fn held_by(&self, line: usize) -> Option<(usize, bool)> {
        let since = self.history.iter().rev().take_while(|event| matches!(event, Event::Access { .. }));
        let mut of_line = since.filter_map(|event| match event {
            Event::Access { block, stored } if block % 16 == line => Some((*block, *stored)),
            _ => None,
        });
        let (block, mut dirty) = of_line.next()?;
        for (earlier, stored) in of_line {
            if earlier != block {
                break;
            }
            dirty |= stored;
        }
        Some((block, dirty))
    }

    fn dirty_lines(&self) -> u64 {
        (0..16).filter(|&line| self.held_by(line).is_some_and(|(_, dirty)| dirty)).count() as u64
    }

    /// Whether the cache is on and the word turns it off.
    fn empties(&self, word: u32) -> bool {
        word >> 14 == 11 && word & 0x400 == 0 && self.status & 8 != 0 && word & 8 == 0
    }

    fn branches(&self, word: u32) -> bool {
        let [n, z, c, v] = self.flags;
        holds(word >> 10 & 15, n, z, c, v)
    }

    fn charge_of(&self, word: u32) -> u64 {
        let load = word >> 14 == 12;
        match word >> 14 {
            8 | 9 => 33,
            11 if word & 0x400 != 0 => 2,
            11 if self.empties(word) => 1 + 10 * self.dirty_lines(),
            12 | 13 => match self.place(word) {
                Place::Device(_) => 1 + u64::from(load),
                Place::Memory(_) if self.status & 8 == 0 => 5 + u64::from(load),
                Place::Memory(address) => match self.held_by(address / 8 % 16) {
                    Some((block, _)) if block == address / 8 => 1 + u64::from(load),
                    Some((_, true)) => 22,
                    _ => 12,
                },
            },
            14 if self.branches(word) => 2,
            15 => 2,
            _ => 1,
        }
    }

    /// Counts a refill or write-back when its burst (the paper's ten) is over.
    fn count_tens(&mut self, word: u32) {
        let spent = self.charge - self.left;
        if self.empties(word) {
            self.writebacks += u64::from(spent.is_multiple_of(10) && spent < self.charge);
        } else if matches!(word >> 14, 12 | 13) && self.charge >= 12 {
            self.refills += u64::from(self.left == 1);
            self.writebacks += u64::from(self.charge == 22 && spent == 11);
        }
    }

    fn execute(&mut self, word: u32, input: u32) -> Moved {
        let (next, d) = ((self.pc + 1) % 4096, self.at(word >> 11));
        match word >> 14 {
            0..=10 => self.compute(word),
            11 if word & 0x400 == 0 => {
                if self.empties(word) {
                    self.history.push(Event::Emptying);
                }
                self.status = word % 16;
            }
            11 => return self.jump(word, next, d),
            12 | 13 => {
                let moved = self.access(word, input, d);
                self.pc = next;
                return moved;
            }
            14 if self.branches(word) => {
                let offset = (word % 1024) as usize;
                self.pc = (next + offset + if offset >= 512 { 4096 - 1024 } else { 0 }) % 4096;
                return (0, 0);
            }
            15 => {
                self.registers[self.at(7)] = next as u32;
                self.pc = (next + (word % 4096) as usize) % 4096;
                return (0, 0);
            }
            _ => (),
        }
        self.pc = next;
        (0, 0)
    }

    fn jump(&mut self, word: u32, next: usize, d: usize) -> Moved {
        let target = self.registers[self.at(word)];
        match word >> 8 & 3 {
            0 => (),
            2 => self.registers[d] = next as u32,
            _ => {
                self.flags = [31, 30, 29, 28].map(|bit| target >> bit & 1 == 1);
                self.status &= 11;
            }
        }
        self.pc = target as usize % 4096;
        (0, 0)
    }

    fn access(&mut self, word: u32, input: u32, d: usize) -> Moved {
        let load = word >> 14 == 12;
        match self.place(word) {
            Place::Device(device) => {
                if load {
                    self.registers[d] = input;
                }
                ((device * 4 + if load { 1 } else { 2 }) as u8, self.registers[d])
            }
            Place::Memory(address) => {
                if self.status & 8 != 0 {
                    self.history.push(Event::Access { block: address / 8, stored: !load });
                }
                if load {
                    self.registers[d] = self.memory[address];
                } else {
                    self.memory[address] = self.registers[d];
                }
                (0, 0)
            }
        }
    }

    fn compute(&mut self, word: u32) {
        let d = self.at(word >> 11);
        let (b, a) = (self.registers[d], self.a(word));
        let (sb, sa) = (i128::from(b as i32), i128::from(a as i32));
        let result = match word >> 14 {
            0 => a,
            1 => u32::MAX - a,
            2 => {
                self.flags[2] = u128::from(b) + u128::from(a) > u128::from(u32::MAX);
                self.exact(sb + sa)
            }
            3 => {
                self.flags[2] = u128::from(b) + (1 << 32) - u128::from(a) > u128::from(u32::MAX);
                self.exact(sb - sa)
            }
            4 => b & a,
            5 => b & (u32::MAX - a),
            6 => b | a,
            7 => b ^ a,
            8 => {
                self.h = ((sb * sa) >> 32) as u32;
                (sb * sa) as u32
            }
            9 if sa > 0 => {
                self.h = sb.rem_euclid(sa) as u32;
                sb.div_euclid(sa) as u32
            }
            9 => {
                self.h = b;
                0
            }
            _ => {
                let twice = u64::from(b) << 32 | u64::from(b);
                let rotated = (twice >> (a % 32)) as u32;
                self.flags[2] = rotated % 2 == 1;
                rotated
            }
        };
        self.flags[0] = result >= 1 << 31;
        self.flags[1] = result == 0;
        self.registers[d] = result;
    }

    /// The low word of an exact signed sum or difference; V is that it does not fit.
    fn exact(&mut self, value: i128) -> u32 {
        self.flags[3] = i32::try_from(value).is_err();
        value as u32
    }
}
