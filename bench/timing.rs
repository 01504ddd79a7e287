// The clock, medians of timings, and the end of a bench whose answers are wrong.
use std::process::exit;

extern "C" {
    fn bench_clock() -> u64;
}

pub fn demand(right: bool, what: &str) {
    if !right {
        eprintln!("not so: {what}");
        exit(1);
    }
}

/// Microseconds of one call, over `times` calls.
pub fn microseconds(times: u32, mut call: impl FnMut()) -> f64 {
    let start = unsafe { bench_clock() };
    (0..times).for_each(|_| call());
    let end = unsafe { bench_clock() };
    (end - start) as f64 / 1000.0 / times as f64
}

/// Each of the timings over its neighbour.
pub fn over(above: &[f64], below: &[f64]) -> Vec<f64> {
    above.iter().zip(below).map(|(a, b)| a / b).collect()
}

pub fn median(list: &[f64]) -> f64 {
    part(list, 2)
}

/// The value that `quarters` quarters of the list stand below; 2 is the median.
pub fn part(list: &[f64], quarters: usize) -> f64 {
    let mut list = list.to_vec();
    list.sort_by(f64::total_cmp);
    list[(list.len() - 1) * quarters / 4]
}
