// The receiver of a run's events: instructions finished and interrupts taken.
// Paper: "Images and the listing program": a row for each of them.
// The calls use `()`, which ignores them; bench/lister prints them.

/// `at` is the instruction's address or the saved PC; `left` is the number of clocks of the feed still to come.
pub trait Events {
    #[inline(always)]
    fn finished(&mut self, _at: usize, _left: usize) {}

    #[inline(always)]
    fn interrupted(&mut self, _at: usize, _interrupt_line: u32, _left: usize) {}
}

impl Events for () {}
