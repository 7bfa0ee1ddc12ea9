
// Appended for the comparison: what the test of `match_or_lapjv` says of a pattern.

thread_local! {
    static TAKEN: std::cell::Cell<bool> = const { std::cell::Cell::new(false) };
}

/// Keeps what the test said.
fn kept(shortcut: bool) -> bool {
    TAKEN.set(shortcut);
    shortcut
}

/// Whether `match_or_lapjv` takes the shortcut where these overlaps are above the threshold and the others below it.
pub(crate) fn takes_shortcut(rows: usize, columns: usize, is_above: impl Fn(usize, usize) -> bool) -> bool {
    let mut overlaps = DMatrix::zeros(rows, columns);
    for i in 0..rows {
        for j in 0..columns {
            overlaps[(i, j)] = if is_above(i, j) { 0.75 } else { 0.25 };
        }
    }
    match_or_lapjv(&overlaps, &overlaps, 0.5).expect("the sizes agree");
    TAKEN.get()
}
