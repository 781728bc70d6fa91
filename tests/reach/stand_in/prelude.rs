// What every file of the crates has in scope: the program's handle and its traits, by which it prints, and methods with counters.
// Paper: nothing.
pub use crate::rt::{Eprint, HostRuntime, Print};
pub use crate::{Picking, Signed, Subtracting};
