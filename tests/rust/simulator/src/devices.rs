// The devices of the serial board: transmitter, receiver, tick and lamps, one clock at a time.
// Paper: A1, "A serial board above the core": devices 4 to 7, the frame, the tick.
// Replies and the level sent are functions of the devices before the clock; `clock` then brings them to its end.

/// Clocks of one bit, and of a frame: a start bit, eight data bits, a stop bit.
const BIT: u64 = 1012;
const FRAME: u64 = 10 * BIT;
/// A bit is sampled in its 506th clock.
const MIDDLE: u64 = 506;
/// The clock of the receiver's frame that samples its stop bit.
const STOP: u64 = 9 * BIT + MIDDLE;
/// Clocks of a millisecond.
const MILLISECOND: u64 = 116_600;

// The devices by number.
const DATA: u8 = 4;
const STATUS: u8 = 5;
const TIME: u8 = 6;
const PANEL: u8 = 7;

/// What a clock of the core does to a device.
#[derive(Clone, Copy, PartialEq, Eq, Debug)]
pub enum Access {
    None,
    Read(u8),
    Write(u8, u32),
}

#[derive(Clone, Copy, PartialEq, Eq, Debug, Default)]
pub struct Serial {
    /// Clocks of the frame being sent that are still to come; 0: the transmitter is free.
    pub left: u64,
    /// The byte last accepted.
    pub sent: u64,
    /// Clocks of the frame being received that are over; 0: no frame has begun.
    pub passed: u64,
    /// The last eight data samples, the newest highest.
    pub bits: u64,
    /// The byte last received.
    pub byte: u64,
    /// The received bit.
    pub ready: u64,
}

/// All of the board's record but the machine's.
#[derive(Clone, Copy, PartialEq, Eq, Debug, Default)]
pub struct Devices {
    pub serial: Serial,
    /// Interrupt 0.
    pub tick: u64,
    pub lamps: u64,
}

impl Access {
    /// From the answer byte and word of a clock.
    #[inline(always)]
    pub fn of(byte: u8, word: u32) -> Access {
        match byte & 3 {
            0 => Access::None,
            1 => Access::Read(byte >> 2),
            _ => Access::Write(byte >> 2, word),
        }
    }
}

impl Serial {
    fn accepted(&self) -> bool {
        self.left <= FRAME
            && self.sent <= 255
            && self.passed < STOP
            && self.bits <= 255
            && self.byte <= 255
            && self.ready <= 1
    }

    /// The level sent: the start bit is 0, the stop bit and a free transmitter are 1.
    #[inline(always)]
    fn level(&self) -> u8 {
        let frame = 0x600 | self.sent << 1;
        (frame >> ((FRAME - self.left) / BIT) & 1) as u8
    }

    /// Device 5: bit 0 byte received, bit 1 transmitter free.
    #[inline(always)]
    fn status(&self) -> u64 {
        u64::from(self.left == 0) << 1 | self.ready
    }

    #[inline(always)]
    fn transmit(&mut self, access: Access) {
        match access {
            _ if self.left > 0 => self.left -= 1,
            Access::Write(DATA, word) => (self.left, self.sent) = (FRAME, u64::from(word & 255)),
            _ => (),
        }
    }

    /// The read of this clock comes before the byte that is received in it.
    #[inline(always)]
    fn receive(&mut self, access: Access, line: u8) {
        if access == Access::Read(DATA) {
            self.ready = 0;
        }
        if self.passed > 0 {
            self.passed += 1;
            self.sample(line);
        } else if line == 0 {
            self.passed = 1;
        }
    }

    /// Samples the line in the clock of the frame that `passed` now counts; the start bit's sample is not used.
    #[inline(always)]
    fn sample(&mut self, line: u8) {
        if self.passed % BIT != MIDDLE {
            return;
        }
        if self.passed == STOP {
            (self.passed, self.byte, self.ready) = (0, self.bits, 1);
        } else if self.passed > BIT {
            self.bits = self.bits >> 1 | u64::from(line) << 7;
        }
    }
}

impl Devices {
    /// Whether every field is in its range.
    pub fn accepted(&self) -> bool {
        self.serial.accepted() && self.tick <= 1 && self.lamps <= 1023
    }

    #[inline(always)]
    pub fn level(&self) -> u8 {
        self.serial.level()
    }

    /// The word that a read of the device gives; `clocks` is the clock count when the clock begins.
    #[inline(always)]
    pub fn reply(&self, device: u8, clocks: u64, switches: u8) -> u32 {
        let word = match device {
            DATA => self.serial.byte,
            STATUS => self.serial.status(),
            TIME => clocks / MILLISECOND,
            PANEL => u64::from(switches),
            _ => 0,
        };
        word as u32
    }

    /// One clock, held or not; `clocks` is the clock count when it ends.
    #[inline(always)]
    pub fn clock(&mut self, access: Access, line: u8, clocks: u64) {
        self.serial.transmit(access);
        self.serial.receive(access, line);
        match access {
            Access::Write(TIME, _) => self.tick = 0,
            Access::Write(PANEL, word) => self.lamps = u64::from(word & 1023),
            _ => (),
        }
        if clocks.is_multiple_of(MILLISECOND) {
            self.tick = 1;
        }
    }
}
