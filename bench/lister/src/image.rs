// The image: its records checked one by one in the table's order, then split into program, data words and runs.
// Paper: "Images and the listing program", "Where calls are turned down" rows 1, 2, 3 and 6.
// Only program and data words are copied; the runs are read from the image one by one.
pub const LONGEST: usize = 65536;
pub const STORE: usize = 2048;
const HEADER: usize = 6;
const PROGRAM: u16 = 1;
const DATA: u16 = 2;
const RUN: u16 = 3;

/// The refusal number and the offset of the refused record.
#[derive(Debug, PartialEq, Eq)]
pub struct Refusal {
    pub number: u32,
    pub offset: usize,
}

#[derive(Clone, Copy, Debug, PartialEq, Eq)]
pub struct Run {
    pub count: usize,
    pub line_byte: u8,
    pub input: u32,
}

#[derive(Debug, PartialEq, Eq)]
pub struct Image {
    pub program: Vec<u32>,
    pub data: Vec<u32>,
    pub runs: Vec<Run>,
}

fn word(bytes: &[u8]) -> u32 {
    u32::from_le_bytes(bytes[..4].try_into().expect("four bytes"))
}

fn words(payload: &[u8]) -> Vec<u32> {
    payload.chunks_exact(4).map(word).collect()
}

/// The record at the start of the bytes: its kind and payload, if it is whole.
fn head(bytes: &[u8]) -> Option<(u16, &[u8])> {
    let (header, rest) = bytes.split_at_checked(HEADER)?;
    let kind = u16::from_le_bytes([header[4], header[5]]);
    Some((kind, rest.get(..word(header) as usize)?))
}

fn run(payload: &[u8]) -> Run {
    Run { count: word(payload) as usize, line_byte: payload[4], input: word(&payload[5..]) }
}

/// Row 1: length and count.
fn sized(kind: u16, payload: &[u8]) -> bool {
    let length = payload.len();
    match kind {
        PROGRAM => length % 4 == 0 && (4..=16384).contains(&length),
        DATA => length % 4 == 0 && length <= 4 * STORE,
        RUN => length == 9 && (1..=LONGEST).contains(&run(payload).count),
        _ => true,
    }
}

/// Row 2: `before` is the kind of the record before, 0 for none.
fn placed(kind: u16, before: u16) -> bool {
    match kind {
        PROGRAM => before == 0,
        DATA => before == PROGRAM,
        RUN => before != 0,
        _ => false,
    }
}

impl Image {
    pub fn read(bytes: &[u8]) -> Result<Image, Refusal> {
        let mut image = Image { program: Vec::new(), data: Vec::new(), runs: Vec::new() };
        let (mut offset, mut before) = (0, 0);
        if bytes.len() > LONGEST {
            return Err(Refusal { number: 1, offset });
        }
        if bytes.is_empty() {
            return Err(Refusal { number: 2, offset });
        }
        while offset < bytes.len() {
            before = image.take(&bytes[offset..], before).map_err(|number| Refusal { number, offset })?;
            offset += HEADER + word(&bytes[offset..]) as usize;
        }
        Ok(image)
    }

    /// Reads the record at the start of the bytes; returns its kind, or its refusal number.
    fn take(&mut self, bytes: &[u8], before: u16) -> Result<u16, u32> {
        let (kind, payload) = head(bytes).ok_or(1u32)?;
        if !sized(kind, payload) {
            return Err(1);
        }
        if !placed(kind, before) {
            return Err(2);
        }
        match kind {
            PROGRAM => {
                self.program = words(payload);
                if self.program.iter().any(|&word| word > 0x3FFFF) {
                    return Err(3);
                }
            }
            DATA => self.data = words(payload),
            _ => {
                if payload[4] > 7 {
                    return Err(6);
                }
                self.runs.push(run(payload));
            }
        }
        Ok(kind)
    }
}
