// The fields of a record by name: to find the first that differs, and to damage them one by one.
// Paper: "The record holds", and "What a programmer sees".
// Values are read and set as 64-bit numbers; setting cuts to the field's bytes.
use crate::library::Machine;

#[derive(Clone, Copy, PartialEq, Eq, Debug)]
pub enum Field {
    H,
    Status,
    Pc,
    N,
    Z,
    C,
    V,
    Phase,
    Count,
    Product,
    Remainder,
    Quotient,
    Size,
    Clocks,
    Held,
    Refills,
    Writebacks,
    Register(usize),
    Full(usize),
    Dirty(usize),
    Block(usize),
    Word(usize),
}

pub const SCALARS: [Field; 17] = [
    Field::H,
    Field::Status,
    Field::Pc,
    Field::N,
    Field::Z,
    Field::C,
    Field::V,
    Field::Phase,
    Field::Count,
    Field::Product,
    Field::Remainder,
    Field::Quotient,
    Field::Size,
    Field::Clocks,
    Field::Held,
    Field::Refills,
    Field::Writebacks,
];

/// Every field of the record.
pub fn all() -> Vec<Field> {
    let sixteen = |make: fn(usize) -> Field| (0..16).map(make);
    let lines = sixteen(Field::Full).chain(sixteen(Field::Dirty)).chain(sixteen(Field::Block));
    let scalars = SCALARS.into_iter().chain(sixteen(Field::Register));
    scalars.chain(lines).chain((0..128).map(Field::Word)).collect()
}

impl Field {
    pub fn get(self, m: &Machine) -> u64 {
        match self {
            Field::H => m.h.into(),
            Field::Size => m.size.into(),
            Field::Register(i) => m.regs[i].into(),
            Field::Full(i) => m.full[i].into(),
            Field::Dirty(i) => m.dirty[i].into(),
            Field::Block(i) => m.block[i].into(),
            Field::Word(i) => m.words[i].into(),
            wide => *wide.wide(&mut m.clone()).unwrap(),
        }
    }

    pub fn set(self, m: &mut Machine, value: u64) {
        match self {
            Field::H => m.h = value as u32,
            Field::Size => m.size = value as u32,
            Field::Register(i) => m.regs[i] = value as u32,
            Field::Full(i) => m.full[i] = value as u8,
            Field::Dirty(i) => m.dirty[i] = value as u8,
            Field::Block(i) => m.block[i] = value as u16,
            Field::Word(i) => m.words[i] = value as u32,
            wide => *wide.wide(m).unwrap() = value,
        }
    }

    /// The sentence that says what the field holds after a call.
    fn sentence(self) -> &'static str {
        match self {
            Field::H | Field::Status | Field::Pc | Field::Register(_) => "S2.5",
            Field::N | Field::Z => "S1.18",
            Field::C | Field::V => "S1.19",
            Field::Phase | Field::Count => "S2.25",
            Field::Product => "S2.13",
            Field::Remainder | Field::Quotient => "S2.14",
            Field::Size => "S3.6",
            Field::Clocks | Field::Held => "S2.2",
            Field::Refills | Field::Writebacks => "S2.29",
            Field::Full(_) | Field::Dirty(_) | Field::Block(_) => "S2.20",
            Field::Word(_) => "S2.19",
        }
    }

    /// The 64-bit fields.
    fn wide(self, m: &mut Machine) -> Option<&mut u64> {
        Some(match self {
            Field::Status => &mut m.status,
            Field::Pc => &mut m.pc,
            Field::N => &mut m.n,
            Field::Z => &mut m.z,
            Field::C => &mut m.c,
            Field::V => &mut m.v,
            Field::Phase => &mut m.phase,
            Field::Count => &mut m.count,
            Field::Product => &mut m.product,
            Field::Remainder => &mut m.remainder,
            Field::Quotient => &mut m.quotient,
            Field::Clocks => &mut m.clocks,
            Field::Held => &mut m.held,
            Field::Refills => &mut m.refills,
            Field::Writebacks => &mut m.writebacks,
            _ => return None,
        })
    }
}

/// The first field in which two records differ.
pub fn difference(left: &Machine, right: &Machine) -> Option<String> {
    let field = all().into_iter().find(|field| field.get(left) != field.get(right))?;
    let (label, old, new) = (field.sentence(), field.get(left), field.get(right));
    Some(format!("{label} record {field:?}: {old:X}H against {new:X}H"))
}
