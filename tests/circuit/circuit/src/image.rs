// Reads an image: the program, the first data words, and the clocks to run.
// Paper: "Images and the listing program".
// It returns `None` for any fault; the refusal number does not matter here.

/// `count` clocks with one line byte and one input word.
#[derive(Clone, Copy, PartialEq, Eq, Debug)]
pub struct Run {
    pub count: u32,
    pub line_byte: u8,
    pub input: u32,
}

#[derive(Clone, PartialEq, Eq, Debug, Default)]
pub struct Image {
    pub program: Vec<u32>,
    pub data: Vec<u32>,
    pub runs: Vec<Run>,
}

/// Words of the store that an image runs with.
pub const STORE: usize = 2048;

fn word(bytes: &[u8]) -> u32 {
    u32::from_le_bytes([bytes[0], bytes[1], bytes[2], bytes[3]])
}

fn words(bytes: &[u8]) -> Vec<u32> {
    bytes.chunks_exact(4).map(word).collect()
}

/// The image in these bytes, if it is legal.
pub fn read(bytes: &[u8]) -> Option<Image> {
    let mut image = Image::default();
    let mut rest = bytes;
    let mut last = 0;
    while !rest.is_empty() {
        let head = rest.get(..6)?;
        let length = word(head) as usize;
        let kind = u16::from_le_bytes([head[4], head[5]]);
        let payload = rest.get(6..)?.get(..length)?;
        match (last, kind) {
            (0, 1) if length.is_multiple_of(4) && (4..=16_384).contains(&length) => image.program = words(payload),
            (1, 2) if length.is_multiple_of(4) && length <= STORE * 4 => image.data = words(payload),
            (1..=3, 3) if length == 9 => {
                image.runs.push(Run { count: word(payload), line_byte: payload[4], input: word(&payload[5..]) })
            }
            _ => return None,
        }
        last = kind;
        rest = &rest[6 + length..];
    }
    let good = last != 0
        && bytes.len() <= 65_536
        && image.program.iter().all(|&word| word < 1 << 18)
        && image.runs.iter().all(|run| (1..=65_536).contains(&run.count) && run.line_byte < 8);
    good.then_some(image)
}

impl Image {
    pub fn bytes(&self) -> Vec<u8> {
        let mut bytes = Vec::new();
        let flat = |words: &[u32]| words.iter().flat_map(|word| word.to_le_bytes()).collect::<Vec<u8>>();
        record(&mut bytes, 1, &flat(&self.program));
        if !self.data.is_empty() {
            record(&mut bytes, 2, &flat(&self.data));
        }
        for run in &self.runs {
            let mut payload = run.count.to_le_bytes().to_vec();
            payload.push(run.line_byte);
            payload.extend(run.input.to_le_bytes());
            record(&mut bytes, 3, &payload);
        }
        bytes
    }

    /// The store before the run.
    pub fn store(&self) -> Vec<u32> {
        let mut store = self.data.clone();
        store.resize(STORE, 0);
        store
    }
}

fn record(bytes: &mut Vec<u8>, kind: u16, payload: &[u8]) {
    bytes.extend((payload.len() as u32).to_le_bytes());
    bytes.extend(kind.to_le_bytes());
    bytes.extend(payload);
}
