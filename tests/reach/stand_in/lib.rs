// The counters: each place reached for the first time is added to the file that REACH_FILE names.
// Paper: nothing; this is about which code the tests run.
// Also what translated code needs: a slice from C's pointer and length, and in modules of their names what the crates use of the kit's std.
pub mod fs;
pub mod io;
pub mod prelude;
pub mod rt;
pub use std::str;

use std::fs::{File, OpenOptions};
use std::io::Write;
use std::sync::atomic::{AtomicBool, Ordering};
use std::sync::OnceLock;

const MOST: usize = 1 << 16;
static MET: [AtomicBool; MOST] = [const { AtomicBool::new(false) }; MOST];
static LOG: OnceLock<File> = OnceLock::new();

fn opened() -> File {
    let path = std::env::var("REACH_FILE").expect("REACH_FILE names no file");
    OpenOptions::new().append(true).create(true).open(path).expect("REACH_FILE cannot be opened")
}

#[cold]
fn first_time(place: usize) {
    if !MET[place].swap(true, Ordering::Relaxed) {
        let line = format!("{place}\n");
        LOG.get_or_init(opened).write_all(line.as_bytes()).expect("REACH_FILE cannot be written");
    }
}

#[inline]
pub fn hit(place: usize) {
    if !MET[place].load(Ordering::Relaxed) {
        first_time(place);
    }
}

/// A condition, and the place for each of its outcomes.
#[inline]
pub fn either(condition: bool, yes: usize, no: usize) -> bool {
    hit(if condition { yes } else { no });
    condition
}

/// A value that may be absent, or an error.
pub trait Tried {
    fn has_value(&self) -> bool;
}

impl<T> Tried for Option<T> {
    fn has_value(&self) -> bool {
        self.is_some()
    }
}

impl<T, E> Tried for Result<T, E> {
    fn has_value(&self) -> bool {
        self.is_ok()
    }
}

/// Such a value, and the place for each of its cases.
#[inline]
pub fn tried<T: Tried>(value: T, yes: usize, no: usize) -> T {
    either(value.has_value(), yes, no);
    value
}

/// The same with no place for an error.
#[inline]
pub fn passed<T: Tried>(value: T, yes: usize) -> T {
    if value.has_value() {
        hit(yes);
    }
    value
}

/// An iterator, and the places for a turn and for its end.
pub struct Each<I> {
    inner: I,
    turn: usize,
    end: usize,
}

pub fn each<I: IntoIterator>(list: I, turn: usize, end: usize) -> Each<I::IntoIter> {
    Each { inner: list.into_iter(), turn, end }
}

impl<I: Iterator> Iterator for Each<I> {
    type Item = I::Item;

    #[inline]
    fn next(&mut self) -> Option<I::Item> {
        tried(self.inner.next(), self.turn, self.end)
    }
}

impl<I: DoubleEndedIterator> DoubleEndedIterator for Each<I> {
    fn next_back(&mut self) -> Option<I::Item> {
        tried(self.inner.next_back(), self.turn, self.end)
    }
}

impl<I: ExactSizeIterator> ExactSizeIterator for Each<I> {
    fn len(&self) -> usize {
        self.inner.len()
    }
}

/// The methods that give one of two values, and the place for each of the two.
pub trait Picking: Ord + Sized {
    fn reach_min(self, this: usize, that: usize, other: Self) -> Self {
        either(self <= other, this, that);
        self.min(other)
    }

    fn reach_max(self, this: usize, that: usize, other: Self) -> Self {
        either(self >= other, this, that);
        self.max(other)
    }
}

impl<T: Ord> Picking for T {}

pub trait Subtracting: Sized {
    fn reach_saturating_sub(self, difference: usize, zero: usize, other: Self) -> Self;
}

macro_rules! subtracting {
    ($($number:ty)*) => { $(impl Subtracting for $number {
        fn reach_saturating_sub(self, difference: usize, zero: usize, other: $number) -> $number {
            either(self >= other, difference, zero);
            self.saturating_sub(other)
        }
    })* };
}

subtracting!(u8 u16 u32 u64 usize);

pub trait Signed {
    fn reach_unsigned_abs(self, number: usize, negation: usize) -> u32;
}

impl Signed for i32 {
    fn reach_unsigned_abs(self, number: usize, negation: usize) -> u32 {
        either(self >= 0, number, negation);
        self.unsigned_abs()
    }
}

pub fn lent<'a, T>(at: *const T, many: usize) -> &'a [T] {
    if many == 0 {
        return &[];
    }
    unsafe { std::slice::from_raw_parts(at, many) }
}

pub fn lent_mut<'a, T>(at: *mut T, many: usize) -> &'a mut [T] {
    if many == 0 {
        return &mut [];
    }
    unsafe { std::slice::from_raw_parts_mut(at, many) }
}

pub mod num {
    pub fn wrapping_add_u32(a: u32, b: u32) -> u32 {
        a.wrapping_add(b)
    }

    pub fn wrapping_sub_u32(a: u32, b: u32) -> u32 {
        a.wrapping_sub(b)
    }

    pub fn wrapping_add_u64(a: u64, b: u64) -> u64 {
        a.wrapping_add(b)
    }

    pub fn wrapping_sub_u64(a: u64, b: u64) -> u64 {
        a.wrapping_sub(b)
    }
}
