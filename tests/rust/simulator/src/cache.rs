// The cache: 16 lines of 8 words, and one clock of a write-back or a refill.
// Paper: "Clock by clock", the paragraph on the cache.
// Full and dirty are 0 or 1; an empty line is clean with block 0 and keeps its old words.

#[derive(Clone, Copy, PartialEq, Eq, Debug, Default)]
pub struct Line {
    pub full: u8,
    pub dirty: u8,
    pub block: u16,
}

#[derive(Clone, PartialEq, Eq, Debug)]
pub struct Cache {
    pub lines: [Line; 16],
    /// Eight words per line.
    pub words: [u32; 128],
}

impl Default for Cache {
    fn default() -> Self {
        Cache { lines: [Line::default(); 16], words: [0; 128] }
    }
}

/// Line of a memory address.
#[inline(always)]
pub fn line_of(address: usize) -> usize {
    address >> 3 & 15
}

impl Line {
    /// Whether the line holds the block of `address`.
    #[inline(always)]
    pub fn holds(&self, address: usize) -> bool {
        self.full == 1 && usize::from(self.block) == address >> 3
    }
}

impl Cache {
    #[inline(always)]
    pub fn hit(&self, address: usize) -> bool {
        self.lines[line_of(address)].holds(address)
    }

    /// The cached word of an address whose block is in its line.
    #[inline(always)]
    pub fn read(&self, address: usize) -> u32 {
        self.words[address & 127]
    }

    #[inline(always)]
    pub fn write(&mut self, address: usize, word: u32) {
        self.words[address & 127] = word;
        self.lines[line_of(address)].dirty = 1;
    }

    /// A word of data memory as a look sees it.
    pub fn seen(&self, store: &[u32], address: usize) -> u32 {
        if self.hit(address) {
            self.read(address)
        } else {
            store[address]
        }
    }

    pub fn lowest_dirty(&self) -> Option<usize> {
        self.lines.iter().position(|line| line.dirty != 0)
    }

    pub fn empty_all(&mut self) {
        self.lines = [Line::default(); 16];
    }

    /// One clock of a write-back with `count` clocks done: two waits, then word `count - 2` of the line.
    #[inline(always)]
    pub fn write_back_clock(&self, store: &mut [u32], line: usize, count: u64) {
        if count >= 2 {
            let word = (count as usize - 2) & 7;
            store[usize::from(self.lines[line & 15].block) * 8 + word] = self.words[(line & 15) * 8 + word];
        }
    }

    /// One clock of a refill for `address` with `count` clocks done.
    #[inline(always)]
    pub fn refill_clock(&mut self, store: &[u32], address: usize, count: u64) {
        if count >= 2 {
            let from = (address & !7) + ((count as usize - 2) & 7);
            self.words[from & 127] = store[from];
        }
    }

    /// After the refill: full and clean.
    #[inline(always)]
    pub fn fill(&mut self, address: usize) {
        self.lines[line_of(address)] = Line { full: 1, dirty: 0, block: (address >> 3) as u16 };
    }
}
