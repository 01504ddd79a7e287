// Times the library against one breadth-first search in C over the same graph, in one process. bench/README.md says how.
#![allow(dead_code)]
mod cases;
mod climb;
mod counts;
mod families;
#[path = "../second/generate.rs"]
mod generate;
mod hostile;
mod mend;
#[path = "../second/mend.rs"]
mod mending;
#[path = "../second/reference.rs"]
mod reference;
mod table;
mod timing;

use cases::Case;
use families::*;
use reference::*;
use std::env::args;

const SEED: u64 = 20261115;
/// Graphs of each family and size.
const GRAPHS: usize = 16;

fn main() {
    let words: Vec<String> = args().skip(1).collect();
    match words.first().map(String::as_str) {
        None => every_family(),
        Some("mend") if words.len() == 1 => mend::rows(),
        Some("climb") => climb::climb(number(words.get(1), SEED), number(words.get(2), climb::STEPS)),
        Some("plan") if words.len() == 2 => one_plan(&words[1]),
        _ => timing::demand(false, "the arguments are none, mend, climb [SEED] [STEPS], or plan FILE"),
    }
}

fn number(word: Option<&String>, otherwise: u64) -> u64 {
    word.map_or(otherwise, |word| word.parse().unwrap_or_else(|_| panic!("{word} is no number")))
}

fn every_family() {
    let random = &mut Random::new(SEED);
    table::head();
    let mut largest = Vec::new();
    for family in FAMILIES {
        largest.push(rows(family.name, family.sizes, |n| {
            let plan = family.drawn(n, random);
            let certificate = encode_certificate(&certify_with(&plan, random));
            Case::new(&plan, family.grade, certificate)
        }));
    }
    rows("hostile certificate", &SIZES, |n| hostile::case(n, 4 * n, random));
    rows("hostile, few edges", &SIZES, |n| hostile::case(n, hostile::least_edges(n), random));
    table::lengths(&largest);
    counts::counts();
    mend::rows();
}

/// The family's name and its cases of the last size.
fn rows<'a>(name: &'a str, sizes: &[usize], mut case: impl FnMut(usize) -> Case) -> (&'a str, Vec<Case>) {
    (name, table::rows(name, sizes.iter().map(|&n| (0..GRAPHS).map(|_| case(n)).collect())))
}

/// The row of one plan record.
fn one_plan(file: &str) {
    let record = std::fs::read(file).unwrap_or_else(|error| panic!("{file}: {error}"));
    let plan = read_plan(&record).unwrap_or_else(|fault| panic!("{file} is refused: {fault:?}"));
    table::one("the plan", &plan);
}
