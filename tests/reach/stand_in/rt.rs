// A stand-in for the kit's std::rt: the handle of a program, with what the programs of crates/ use of it.
// Paper: nothing.
// Output is written at once, with no buffer, as the kit's.
use crate::io::Device;
use std::fmt::Arguments;
use std::io::{Result, Write};
use std::os::unix::ffi::OsStringExt;

pub struct HostRuntime;

pub fn host() -> HostRuntime {
    HostRuntime
}

impl HostRuntime {
    pub fn stdin(&self) -> Device {
        Device::new(0)
    }

    pub fn stdout(&self) -> Device {
        Device::new(1)
    }
}

pub trait Print {
    fn write_all(&self, bytes: &[u8]) -> Result<()> {
        Device::new(1).write_all(bytes)
    }

    fn print(&self, text: Arguments, end: &str) -> Result<()> {
        self.write_all(format!("{text}{end}").as_bytes())
    }
}

pub trait Eprint {
    fn eprint(&self, text: Arguments, end: &str) -> Result<()> {
        Device::new(2).write_all(format!("{text}{end}").as_bytes())
    }
}

// Arguments: the length of one, or none where it is missing or longer than the buffer.
pub trait Env {
    fn arg(&self, i: usize, buffer: &mut [u8]) -> Option<usize> {
        let bytes = std::env::args_os().nth(i)?.into_vec();
        buffer.get_mut(..bytes.len())?.copy_from_slice(&bytes);
        Some(bytes.len())
    }
}

pub trait Files {}

impl Print for HostRuntime {}
impl Eprint for HostRuntime {}
impl Env for HostRuntime {}
impl Files for HostRuntime {}
impl<T: Print> Print for &T {}
impl<T: Eprint> Eprint for &T {}

#[macro_export]
macro_rules! print {
    ($rt:expr; $($text:tt)*) => { $crate::rt::Print::print(&$rt, format_args!($($text)*), "") };
}

#[macro_export]
macro_rules! println {
    ($rt:expr; $($text:tt)*) => { $crate::rt::Print::print(&$rt, format_args!($($text)*), "\n") };
}

#[macro_export]
macro_rules! eprint {
    ($rt:expr; $($text:tt)*) => { $crate::rt::Eprint::eprint(&$rt, format_args!($($text)*), "") };
}

#[macro_export]
macro_rules! eprintln {
    ($rt:expr; $($text:tt)*) => { $crate::rt::Eprint::eprint(&$rt, format_args!($($text)*), "\n") };
}
