
// Appended for the comparison: how many costs were read.

thread_local! {
    static READS: std::cell::Cell<usize> = const { std::cell::Cell::new(0) };
}

/// The costs, one of which is read now.
fn read<T>(cost: &T) -> &T {
    READS.set(READS.get() + 1);
    cost
}

/// How many costs were read since this was last asked.
pub(crate) fn reads() -> usize {
    READS.take()
}
