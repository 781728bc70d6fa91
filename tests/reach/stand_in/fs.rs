// A stand-in for the kit's std::fs: what the programs of crates/ use of it.
// Paper: nothing.
use crate::rt::Files;
use std::fs::File;
use std::io::Result;

pub fn open(_: &impl Files, path: &str) -> Result<File> {
    File::open(path)
}
