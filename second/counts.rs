// How rare each grade is, from request 5 of document 02 alone: every plan of a size is made, doubles left aside, and counted by its figure.
use crate::generate::every_plan;
use crate::reference::{connectivity, Plan};
use std::ops::RangeInclusive;

/// "four, five or six numbered boxes".
pub const SIZES: RangeInclusive<usize> = 4..=6;

/// "Four boxes give 26, 28, 9 and 1. Five give 296, 490, 212 and 26."
pub const SAID: [(usize, [usize; 4]); 2] = [(4, [26, 28, 9, 1]), (5, [296, 490, 212, 26])];

/// "Each count is the number of plans with that loss figure". Hands on each plan with its figure.
pub fn counted(n: usize, mut see: impl FnMut(Plan, u8)) -> [usize; 4] {
    let mut counts = [0; 4];
    for plan in every_plan(n) {
        let figure = connectivity(&plan);
        counts[figure as usize] += 1;
        see(plan, figure);
    }
    counts
}

/// Each size with its counts, "sizes ascending".
pub fn table() -> Vec<(usize, [usize; 4])> {
    SIZES.map(|n| (n, counted(n, |_, _| ()))).collect()
}

/// "a line for each size, with the size and the counts for grades 0 to 3, single blanks between".
pub fn lines(table: &[(usize, [usize; 4])]) -> String {
    table.iter().map(|(n, [none, one, two, three])| format!("{n} {none} {one} {two} {three}\n")).collect()
}
