//! Inputs from a seed, without a fuzzer.
//!   seeded run COUNT SEED           compares them one by one, two in three damaged once more
//!   seeded corpus DIR COUNT SEED    writes them as files, for a fuzzer to begin with
//! Exit status 1 on a difference, or where an outcome never occurred.
#![allow(dead_code)]
mod calls;
#[path = "../second/generate.rs"]
mod generate;
#[path = "../second/reference.rs"]
mod reference;

use generate::Generator;
use reference::{Answer, Random};
use std::collections::BTreeMap;
use std::process::exit;

fn main() {
    let arguments: Vec<String> = std::env::args().skip(1).collect();
    let words: Vec<&str> = arguments.iter().map(String::as_str).collect();
    let number = |word: &str| word.parse::<u64>().expect("a number");
    let right = match words[..] {
        ["run", count, seed] => run(number(count), number(seed)),
        ["corpus", directory, count, seed] => corpus(directory, number(count), number(seed)),
        _ => {
            eprintln!("seeded run COUNT SEED | corpus DIR COUNT SEED");
            false
        }
    };
    exit(if right { 0 } else { 1 });
}

fn input(generator: &mut Generator, random: &mut Random) -> Vec<u8> {
    let (call, room) = (random.below(calls::CALLS.len()), random.below(256));
    let records = match call {
        0 | 2 | 4 => generator.plan_record(),
        1 => {
            let (plan, certificate) = generator.case();
            [plan, certificate].concat()
        }
        // Long ones seldom, for time.
        _ if random.chance(4) => generator.entered().encode(usize::MAX),
        _ => generator.script().encode(usize::MAX),
    };
    [&calls::head(call, room)[..], &records].concat()
}

/// A few bytes set, put in, taken out, or cut off.
fn damage(mut bytes: Vec<u8>, random: &mut Random) -> Vec<u8> {
    for _ in 0..random.within(1, 3) {
        let at = random.within(calls::HEAD, bytes.len());
        let byte = match random.below(8) {
            0 => *random.pick(b"spbc"),
            1..=4 => random.below(8) as u8,
            _ => random.next() as u8,
        };
        match random.below(8) {
            0 => bytes.truncate(at),
            1 | 2 => bytes.insert(at, byte),
            3 | 4 if at < bytes.len() => drop(bytes.remove(at)),
            _ if at < bytes.len() => bytes[at] = byte,
            _ => {}
        }
    }
    bytes
}

fn corpus(directory: &str, count: u64, seed: u64) -> bool {
    let (mut generator, mut random) = (Generator::new(seed), Random::new(!seed));
    (0..count).all(|i| std::fs::write(format!("{directory}/seed-{i}"), input(&mut generator, &mut random)).is_ok())
}

fn run(count: u64, seed: u64) -> bool {
    println!("seed {seed}");
    let (mut generator, mut random) = (Generator::new(seed), Random::new(!seed));
    let mut seen = BTreeMap::new();
    let mut backs: BTreeMap<(char, u8), u64> = BTreeMap::new();
    for _ in 0..count {
        let mut bytes = input(&mut generator, &mut random);
        if random.chance(66) {
            bytes = damage(bytes, &mut random);
        }
        match calls::compare(&bytes) {
            Ok(compared) => {
                let key = |answer| (compared.call, compared.doubles, outcome(answer));
                compared.answers.iter().for_each(|&answer| *seen.entry(key(answer)).or_insert(0) += 1);
                compared.backs.iter().for_each(|&answer| *backs.entry(outcome(answer)).or_default() += 1);
            }
            Err(what) => {
                println!("DIFFERENT: {what}\n  input: {bytes:?}");
                return false;
            }
        }
    }
    let missing: Vec<_> = due().into_iter().filter(|key| !seen.contains_key(key)).collect();
    missing.iter().for_each(|(call, doubles, outcome)| println!("never seen: {} {doubles} {outcome:?}", calls::CALLS[*call]));
    let told = [('a', 0), ('c', 31)].map(|outcome| backs.get(&outcome).copied().unwrap_or(0));
    println!("taking back: {} accepted, {} refused", told[0], told[1]);
    println!("{count} compared, 0 differ; {} kinds of answers", seen.len());
    missing.is_empty() && !told.contains(&0)
}

/// An answer without its place.
fn outcome(answer: Answer) -> (char, u8) {
    match answer {
        Answer::Accepted => ('a', 0),
        Answer::Grade(grade) => ('g', grade),
        Answer::PlanFault(number, _) => ('p', number),
        Answer::CertificateFault(number, _) => ('c', number),
    }
}

/// For each call, with doubles in the plan and without: what has to occur. A refused plan counts as one without.
fn due() -> Vec<(usize, bool, (char, u8))> {
    let mut accepted = vec![(0, ('a', 0)), (2, ('p', 30)), (3, ('a', 0)), (3, ('g', 3)), (3, ('p', 29))];
    accepted.extend([('g', 3), ('p', 30), ('p', 32)].map(|outcome| (4, outcome)));
    accepted.extend((0..4).flat_map(|grade| [1, 2].map(|call| (call, ('g', grade)))));
    accepted.extend([1, 2, 33, 7, 8, 9].into_iter().chain(20..30).map(|number| (1, ('c', number))));
    accepted.extend([1, 2, 33, 9, 20].into_iter().chain(24..29).chain([31]).map(|number| (3, ('c', number))));
    let both = |(call, outcome)| [false, true].map(|doubles| (call, doubles, outcome));
    let mut due: Vec<_> = accepted.into_iter().flat_map(both).collect();
    let refused = |call| (1..8).chain([33]).map(move |number| (call, false, ('p', number)));
    due.extend((0..calls::CALLS.len()).flat_map(refused));
    due
}
