// Times walks through vertex sets, those of an older landing beside those of this tree, in one process. bench/README.md says how.
#[allow(dead_code)]
#[path = "../second/reference.rs"]
mod reference;
#[allow(dead_code)]
mod timing;

use reference::Random;
use std::array::from_fn;
use timing::*;

const SEED: u64 = 20261116;
/// Timings of each function on each case.
const TIMINGS: usize = 500;
/// Microseconds of one timing, so that the clock's own steps don't show; and calls on each set before it.
const TIMING: f64 = 100.0;
const FIRST: u32 = 20;
/// Sets of each size and place.
const SETS: usize = 16;
const SIZES: [usize; 5] = [1, 2, 16, 64, 128];
const BELOW: [u64; 3] = [16, 64, 128];
/// The words of a set, as the walks have them, and the vertices that can be members.
const WORDS: usize = 2;
const CAPACITY: usize = 64 * WORDS;

type Set = [u64; WORDS];

extern "C" {
    fn old_walks_nowhere(low: u64, high: u64) -> u64;
    fn old_walks_by_next(low: u64, high: u64) -> u64;
    fn old_walks_by_vertex(low: u64, high: u64) -> u64;
    fn old_walks_by_bits(low: u64, high: u64) -> u64;
    fn old_walks_next_from(low: u64, high: u64, v: u64) -> u64;
    fn old_walks_below(n: u64) -> u64;
    fn walks_nowhere(low: u64, high: u64) -> u64;
    fn walks_by_walk(low: u64, high: u64) -> u64;
    fn walks_by_next(low: u64, high: u64) -> u64;
    fn walks_next_from(low: u64, high: u64, v: u64) -> u64;
    fn walks_below(n: u64) -> u64;
}

/// The ways of walking stand in this order: three that were, the walk, and the first once more as it is now.
const WALK: usize = 3;
const AGAIN: usize = 4;

/// Sets of one size, their members placed in one way, each with a vertex to look for a member from; and all timings.
struct Case {
    members: usize,
    place: &'static str,
    sets: [(Set, u64); SETS],
    walks: Turns<5>,
    next: Turns<2>,
}

impl Case {
    /// Member k of set i is what `member` says; one that is there already is said again.
    fn new(members: usize, place: &'static str, random: &mut Random, member: impl Fn(&mut Random, usize, usize) -> usize) -> Case {
        let sets = from_fn(|i| {
            let mut set = [0; WORDS];
            while count(&set) < members {
                let v = member(random, i, count(&set));
                set[v / 64] |= 1 << (v % 64);
            }
            (set, random.below(CAPACITY) as u64)
        });
        Case { members, place, sets, walks: Turns::default(), next: Turns::default() }
    }

    /// Every function by a call of its own, and not by a pointer: a processor takes longer where one call goes to many places.
    fn turn(&mut self) {
        let walks = [
            self.time(|set, _| unsafe { old_walks_by_next(set[0], set[1]) }, met),
            self.time(|set, _| unsafe { old_walks_by_vertex(set[0], set[1]) }, met),
            self.time(|set, _| unsafe { old_walks_by_bits(set[0], set[1]) }, met),
            self.time(|set, _| unsafe { walks_by_walk(set[0], set[1]) }, met),
            self.time(|set, _| unsafe { walks_by_next(set[0], set[1]) }, met),
        ];
        let next = [
            self.time(|set, v| unsafe { old_walks_next_from(set[0], set[1], v) }, next),
            self.time(|set, v| unsafe { walks_next_from(set[0], set[1], v) }, next),
        ];
        add(&mut self.walks, walks);
        add(&mut self.next, next);
    }

    fn time_nowhere(&self) -> [f64; 2] {
        let due = |set: &Set, _| mixed(set.iter().copied());
        [
            self.time(|set, _| unsafe { old_walks_nowhere(set[0], set[1]) }, due),
            self.time(|set, _| unsafe { walks_nowhere(set[0], set[1]) }, due),
        ]
    }

    fn time_below(&self, n: u64) -> [f64; 2] {
        let words = (0..WORDS as u64).map(|i| (0..64).filter(|k| 64 * i + k < n).map(|k| 1 << k).sum());
        let due = mixed(words);
        [self.time(|_, _| unsafe { old_walks_below(n) }, |_, _| due), self.time(|_, _| unsafe { walks_below(n) }, |_, _| due)]
    }

    /// Nanoseconds of one call, over calls on each set in turn; the answers must sum up to those that `due` says. The first calls
    /// only tell how many make a timing: by then the processor has seen them.
    fn time(&self, call: impl Fn(&Set, u64) -> u64, due: impl Fn(&Set, u64) -> u64) -> f64 {
        let mut sum: u64 = 0;
        let mut round = |times| microseconds(times, || sum = sum.wrapping_add(self.sum(&call)));
        let rounds = (TIMING / round(FIRST)).max(1.0) as u32;
        let time = round(rounds);
        demand(sum == self.sum(due).wrapping_mul((FIRST + rounds) as u64), "every call answers what the set's bits say");
        time * 1000.0 / SETS as f64
    }

    fn sum(&self, answer: impl Fn(&Set, u64) -> u64) -> u64 {
        self.sets.iter().fold(0, |sum, (set, v)| sum.wrapping_add(answer(set, *v)))
    }
}

/// The timings of some functions, turn by turn.
type Turns<const N: usize> = [Vec<f64>; N];

fn add<const N: usize>(turns: &mut Turns<N>, times: [f64; N]) {
    turns.iter_mut().zip(times).for_each(|(turns, time)| turns.push(time));
}

fn count(set: &Set) -> usize {
    set.iter().map(|word| word.count_ones() as usize).sum()
}

/// What a walk must answer, and what a call for the next member.
fn met(set: &Set, _: u64) -> u64 {
    mixed(members_from(set, 0))
}

fn next(set: &Set, v: u64) -> u64 {
    members_from(set, v).next().unwrap_or(CAPACITY as u64)
}

/// The members that are not below v, ascending, found bit by bit.
fn members_from(set: &Set, v: u64) -> impl Iterator<Item = u64> + '_ {
    (v..CAPACITY as u64).filter(|v| set[(v / 64) as usize] >> (v % 64) & 1 == 1)
}

fn mixed(parts: impl Iterator<Item = u64>) -> u64 {
    parts.fold(0, |sum: u64, part| sum ^ (sum << 7) ^ part)
}

/// Sets of each size: members at equal distances over all words; at equal distances in the last word; at random.
fn cases() -> Vec<Case> {
    let random = &mut Random::new(SEED);
    let mut cases = Vec::new();
    for members in SIZES {
        let apart = |room: usize| move |_: &mut Random, i: usize, k: usize| CAPACITY - room + (k * room + i * room / SETS) / members;
        if members == CAPACITY {
            cases.push(Case::new(members, "all", random, apart(CAPACITY)));
            continue;
        }
        cases.push(Case::new(members, "spread", random, apart(CAPACITY)));
        if members <= 64 {
            cases.push(Case::new(members, "last word", random, apart(64)));
        }
        cases.push(Case::new(members, "random", random, |random, _, _| random.below(CAPACITY)));
    }
    cases
}

fn main() {
    let mut cases = cases();
    let mut nowhere = Turns::default();
    let mut below = BELOW.map(|_| Turns::default());
    for _ in 0..TIMINGS {
        cases.iter_mut().for_each(Case::turn);
        add(&mut nowhere, cases[0].time_nowhere());
        below.iter_mut().zip(BELOW).for_each(|(turns, n)| add(turns, cases[0].time_below(n)));
    }
    print_walks(&cases);
    print_members(&cases);
    println!();
    println!("| one call | before ns | now ns | now/before |\n|---|--:|--:|--:|");
    print_call("no walk", &nowhere);
    cases.iter().for_each(|case| print_call(&format!("next_from, size {}, {}", case.members, case.place), &case.next));
    below.iter().zip(BELOW).for_each(|(turns, n)| print_call(&format!("below({n})"), turns));
}

fn print_walks(cases: &[Case]) {
    println!();
    println!("| members | where | by next ns | by vertex ns | by bits ns | walk ns | walk/by next | walk/by vertex | walk/by bits | by next, now ns | now/before |");
    println!("|--:|---|--:|--:|--:|--:|--:|--:|--:|--:|--:|");
    for Case { members, place, walks, .. } in cases {
        let [next, vertex, bits, walk, again] = &walks.each_ref().map(|times| median(times));
        let beside = |i: usize, j: usize| median(&over(&walks[i], &walks[j]));
        print!("| {members} | {place} | {next:.1} | {vertex:.1} | {bits:.1} | {walk:.1} ");
        print!("| {:.2} | {:.2} | {:.2} ", beside(WALK, 0), beside(WALK, 1), beside(WALK, 2));
        println!("| {again:.1} | {:.2} |", beside(AGAIN, 0));
    }
}

fn print_members(cases: &[Case]) {
    println!();
    println!("| ns per member | where | by next | by vertex | by bits | walk | by next, now |\n|--:|---|--:|--:|--:|--:|--:|");
    for Case { members, place, walks, .. } in cases {
        let each: String = walks.iter().map(|times| format!(" {:.2} |", median(times) / *members as f64)).collect();
        println!("| {members} | {place} |{each}");
    }
}

fn print_call(what: &str, [before, now]: &Turns<2>) {
    println!("| {what} | {:.2} | {:.2} | {:.2} |", median(before), median(now), median(&over(now, before)));
}
