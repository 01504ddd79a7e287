// The table: a row for the graphs of one family and size, and how a family's times grow.
use crate::cases::*;
use crate::reference::*;
use crate::timing::*;

/// Timings of each function in a row, over all its cases.
const TIMINGS: usize = 800;
/// Calls in one timing, so that the clock's own steps don't show.
const SEARCHES: u32 = 500;
const CALLS: u32 = 10;

/// Two libraries, and so times of both and their ratio.
const TWO: bool = LIBRARIES.len() == 2;

pub fn head() {
    let columns = if TWO { "| bytes   old us   new us new/old  searches    half" } else { "| bytes       us  searches    half" };
    let wide = columns.len();
    println!("{:>49} {:<wide$} {}", "search", "| check", "| certify");
    println!("{:<20}vertices edges grade {:>8} {columns} {columns}", "graph", "us");
}

/// One library's timings of one function, and each over the search beside it.
#[derive(Default)]
struct Times {
    each: Vec<f64>,
    ratios: Vec<f64>,
}

impl Times {
    fn add(&mut self, time: f64, search: f64) {
        self.each.push(time);
        self.ratios.push(time / search);
    }
}

/// The columns of one function, with the timings of each library.
fn told(lengths: impl Iterator<Item = usize>, times: &[Times]) -> String {
    let bytes = median(&lengths.map(|length| length as f64).collect::<Vec<_>>());
    let us: String = times.iter().map(|library| format!(" {:>8.2}", median(&library.each))).collect();
    let ratio = if TWO { format!(" {:>7.3}", median(&over(&times[1].each, &times[0].each))) } else { String::new() };
    let new = &times[times.len() - 1].ratios;
    let half = format!("{:.0}-{:.0}", part(new, 1), part(new, 3));
    format!("| {bytes:>5.0}{us}{ratio} {:>9.1} {half:>7}", median(new))
}

/// A row: its cases and all their timings, those of each library in a list.
struct Row {
    cases: Vec<Case>,
    searches: Vec<f64>,
    checks: Vec<Times>,
    certifies: Vec<Times>,
}

impl Row {
    fn new(cases: Vec<Case>) -> Row {
        let times = || LIBRARIES.iter().map(|_| Times::default()).collect();
        Row { cases, searches: Vec::new(), checks: times(), certifies: times() }
    }

    /// All are timed in turns, so that they meet the same load; a ratio is of neighbouring timings.
    fn time(&mut self) {
        for case in &self.cases {
            let search = case.time_search(SEARCHES);
            self.searches.push(search);
            for (library, times) in LIBRARIES.iter().zip(&mut self.checks) {
                times.add(case.time_check(library, CALLS), search);
            }
            for (library, times) in LIBRARIES.iter().zip(&mut self.certifies) {
                times.add(case.time_certify(library, CALLS), search);
            }
        }
    }

    fn print(&self, name: &str) {
        let Case { n, m, grade, .. } = self.cases[0];
        let check = told(self.cases.iter().map(|case| case.certificate.len()), &self.checks);
        let certify = told(self.cases.iter().map(|case| case.made(NEW)), &self.certifies);
        println!("{name:<20} {n:>7} {m:>5} {grade:>5} {:>8.2} {check} {certify}", median(&self.searches));
    }
}

/// The rows of a family, one for each size. The sizes too are timed in turns, for the growth. Hands back the cases of the last size.
pub fn rows(name: &str, sizes: impl Iterator<Item = Vec<Case>>) -> Vec<Case> {
    let mut rows: Vec<Row> = sizes.map(Row::new).collect();
    for _ in 0..TIMINGS / rows[0].cases.len() {
        rows.iter_mut().for_each(Row::time);
    }
    rows.iter().for_each(|row| row.print(name));
    if rows.len() > 1 {
        println!("{:<20} growth in searches from {} vertices: {}", "", rows[0].cases[0].n, growths(&rows));
    }
    rows.pop().map_or(Vec::new(), |row| row.cases)
}

/// The table of one plan, with its connectivity and a certificate from the second implementation.
pub fn one(name: &str, plan: &Plan) {
    let certificate = encode_certificate(&certify_with(plan, &mut Random::new(1)));
    let case = Case::new(plan, connectivity_by_low_points(plan), certificate);
    head();
    let cases = rows(name, [vec![case]].into_iter());
    lengths(&[(name, cases)]);
}

/// Certify lent more than it needs, lent just the length, and the length without a buffer; of the new library, where it answers that.
#[cfg(lengths)]
pub fn lengths(families: &[(&str, Vec<Case>)]) {
    println!();
    println!("{:<20}vertices edges grade | bytes certify us | exact us /certify | length us /certify", "graph");
    for (name, cases) in families {
        let mut times = [const { Vec::new() }; 3];
        for case in (0..TIMINGS / cases.len()).flat_map(|_| cases) {
            times[0].push(case.time_certify(NEW, CALLS));
            times[1].push(case.time_exact(CALLS));
            times[2].push(case.time_length(CALLS));
        }
        let Case { n, m, grade, .. } = cases[0];
        let bytes = median(&cases.iter().map(|case| case.made(NEW) as f64).collect::<Vec<_>>());
        let [certify, exact, length] = &times;
        let beside = |list: &[f64]| format!("{:>9.2} {:>8.3}", median(list), median(&over(list, certify)));
        print!("{name:<20} {n:>7} {m:>5} {grade:>5} | {bytes:>5.0} {:>10.2} ", median(certify));
        println!("|{} | {}", beside(exact), beside(length));
    }
}

#[cfg(not(lengths))]
pub fn lengths(_: &[(&str, Vec<Case>)]) {}

/// How far each library's times in searches rise above those in the first row: the largest over the first.
fn growths(rows: &[Row]) -> String {
    let growth = |times: &dyn Fn(&Row) -> &Times| {
        let medians: Vec<f64> = rows.iter().map(|row| median(&times(row).ratios)).collect();
        medians.iter().copied().fold(0.0, f64::max) / medians[0]
    };
    let each = LIBRARIES.iter().enumerate().map(|(i, library)| {
        let (check, certify) = (growth(&|row| &row.checks[i]), growth(&|row| &row.certifies[i]));
        format!("check {check:.2}, certify {certify:.2}{}", if TWO { format!(" ({})", library.name) } else { String::new() })
    });
    each.collect::<Vec<_>>().join("; ")
}
