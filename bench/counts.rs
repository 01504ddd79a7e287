// What counting the plans of a size takes, in the new library alone.
use crate::timing::*;

#[cfg(counts)]
extern "C" {
    fn fikzarn_count(size: u64, grade: u64) -> u64;
}

/// Timings of each size; every call counts all plans of the size anew.
#[cfg(counts)]
const TIMINGS: usize = 25;

#[cfg(counts)]
pub fn counts() {
    println!();
    println!("boxes plans | count us, for a plan us");
    for (size, plans) in [(4, 64), (5, 1024), (6, 32768)] {
        let asked = |grade| unsafe { fikzarn_count(size, grade) };
        demand((0..4).map(asked).sum::<u64>() == plans, "the counts add up to all plans");
        let due = asked(3);
        let times: Vec<f64> = (0..TIMINGS).map(|_| microseconds(1, || demand(asked(3) == due, "the count is the same"))).collect();
        println!("{size:>5} {plans:>5} | {:>8.1} {:>15.3}", median(&times), median(&times) / plans as f64);
    }
}

#[cfg(not(counts))]
pub fn counts() {}
