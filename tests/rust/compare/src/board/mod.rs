// The comparison of the serial board: parts 8, 9 and 10.
// Paper: A1, "A serial board above the core".
// The C interface is in declared.rs.
mod call;
mod declared;
pub mod events;
mod make;
pub mod meet;
pub mod rounds;
mod side;
pub mod table;
pub mod timing;
mod walk;
