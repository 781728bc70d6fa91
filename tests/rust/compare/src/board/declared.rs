// The C interface of the serial board, from `raw` of the package bindings/rust.
// Paper: A1, "A serial board above the core".
pub use trm::raw::{
    trm_board_clock, trm_board_clock_joined, trm_board_reset, trm_board_run, trm_board_run_joined, Board,
    BoardClockAnswer, BoardResetAnswer, BoardRunAnswer, Devices, Serial,
};
