// Compares the library, linked as a C static library, with the second implementation over generated cases.
//   compare plans COUNT SEED              plan records: the answer, and the record written again
//   compare certificates COUNT SEED       plans with certificates: the answer, and the length of those that are accepted
//   compare sessions COUNT SEED PROGRAM   scripts of session calls: the answers, and the lines that the session program prints; half of
//                                         the scripts are made to take back
//   compare certify COUNT SEED            certificates that the library makes, for every small plan, COUNT larger ones and COUNT plan
//                                         records of any kind, in buffers that are shorter, as long and longer
//   compare doubles COUNT SEED            plans with doubles beside the same plans with each double written once
//   compare counts PROGRAM                plans by grade: all that the program prints, and the library's count of many sizes and grades
//   compare mend COUNT SEED PROGRAM       plans to be mended, COUNT of them and COUNT plan records of any kind: the word and all three
//                                         buffers, each shorter, as long and longer; and what the program prints
//   compare foreign COUNT SEED PROGRAM    good records with damaged numbers, of COUNT plans: the answers of every call that reads one, and
//                                         what the checking program prints
//   compare known FILE PROGRAM            known answers, by the library and by the checking program
//   compare calls FILE                    known answers of calls that write into several buffers
// Exit status 1 on any difference, or where a refusal or a grade never occurred, with doubles in the plan or at all, or a kind of
// taking back, or a damaged number of some kind in some place.
#![allow(dead_code)]
mod certify;
mod counts;
mod doubles;
mod foreign;
mod generate;
mod known;
mod library;
mod mend;
mod mendable;
mod mended;
mod met;
mod reference;

use generate::{shapes, Generator, Script};
use library::Lent;
use reference::{Answer, End, Plan, Random};
use std::collections::{BTreeMap, BTreeSet};
use std::io::Write;
use std::ops::RangeInclusive;
use std::process::{exit, Command, Output, Stdio};

fn main() {
    let arguments: Vec<String> = std::env::args().skip(1).collect();
    let words: Vec<&str> = arguments.iter().map(String::as_str).collect();
    let number = |word: &str| word.parse::<u64>().expect("a number");
    let right = match words[..] {
        ["plans", count, seed] => plans(number(count), number(seed)),
        ["certificates", count, seed] => certificates(number(count), number(seed)),
        ["sessions", count, seed, program] => sessions(number(count), number(seed), program),
        ["certify", count, seed] => certify::certify(number(count), number(seed)),
        ["doubles", count, seed] => doubles::doubles(number(count), number(seed)),
        ["counts", program] => grade_counts(program),
        ["mend", count, seed, program] => mended::mend(number(count), number(seed), program),
        ["foreign", count, seed, program] => foreign_numbers(number(count), number(seed), program),
        ["known", file, program] => known_answers(file, program),
        ["calls", file] => known_calls(file),
        _ => {
            eprintln!("compare plans|certificates|certify|doubles COUNT SEED, sessions|mend|foreign COUNT SEED PROGRAM,");
            eprintln!("counts PROGRAM, known FILE PROGRAM, calls FILE");
            false
        }
    };
    exit(if right { 0 } else { 1 });
}

/// What was seen in a run: how often each outcome, and how often of these beside a plan record with doubles; what the plans with
/// doubles are examples of; and how many cases differ.
struct Tally {
    outcomes: BTreeMap<(&'static str, u8), [u64; 2]>,
    shapes: BTreeMap<&'static str, u64>,
    differ: u64,
}

impl Tally {
    fn new(seed: u64) -> Tally {
        println!("seed {seed}");
        Tally { outcomes: BTreeMap::new(), shapes: BTreeMap::new(), differ: 0 }
    }

    fn count(&mut self, answer: Answer, plan: &[u8]) {
        let key = match answer {
            Answer::Accepted => ("accepted", 0),
            Answer::Grade(grade) => ("grade", grade),
            Answer::PlanFault(number, _) => ("plan refused", number),
            Answer::CertificateFault(number, _) => ("certificate refused", number),
        };
        self.see(key, plan);
    }

    fn see(&mut self, outcome: (&'static str, u8), plan: &[u8]) {
        let [all, with_doubles] = self.outcomes.entry(outcome).or_default();
        *all += 1;
        *with_doubles += has_double(plan) as u64;
    }

    fn see_shapes(&mut self, plan: &Plan) {
        shapes(plan).into_iter().for_each(|(shape, holds)| *self.shapes.entry(shape).or_default() += holds as u64);
    }

    /// The first case that differs is printed whole, in decimal.
    fn differs(&mut self, records: &[(&str, &[u8])], what: String) {
        self.differ += 1;
        if self.differ == 1 {
            println!("DIFFERENT: {what}");
            records.iter().for_each(|(name, bytes)| println!("  {name}: {}", decimal(bytes)));
        }
    }

    /// Prints the counts; right if nothing differs, and every outcome that is due was seen, with doubles too, and every shape.
    fn close(self, count: u64, due: Vec<(&'static str, u8)>) -> bool {
        for ((name, number), [all, with_doubles]) in &self.outcomes {
            println!("  {}: {all}, {with_doubles} with doubles", outcome(name, *number));
        }
        self.shapes.iter().for_each(|(name, count)| println!("  {name}: {count}"));
        let seen = |key: &(&str, u8)| self.outcomes.get(key).is_some_and(|&[_, with_doubles]| with_doubles > 0);
        let mut missing: Vec<String> = due.iter().filter(|key| !seen(key)).map(|(name, number)| outcome(name, *number)).collect();
        missing.extend(self.shapes.iter().filter(|(_, &count)| count == 0).map(|(name, _)| name.to_string()));
        missing.iter().for_each(|missing| println!("never seen with doubles: {missing}"));
        println!("{count} compared, {} differ", self.differ);
        self.differ == 0 && missing.is_empty()
    }
}

/// Whether two equal edges follow one another in a plan record, whatever else is wrong with it.
fn has_double(record: &[u8]) -> bool {
    let after = |at: usize| at + if record.get(at).is_some_and(|&byte| byte >= 128) { 2 } else { 1 };
    let edges = record.get(after(after(0))..).unwrap_or(&[]);
    edges.chunks_exact(2).zip(edges.chunks_exact(2).skip(1)).any(|(edge, next)| edge == next)
}

/// An outcome in words; only grades and refusals have a number.
fn outcome(name: &str, number: u8) -> String {
    if number > 0 || name.ends_with("grade") {
        format!("{name} {number}")
    } else {
        name.to_string()
    }
}

fn decimal(bytes: &[u8]) -> String {
    bytes.iter().map(u8::to_string).collect::<Vec<_>>().join(" ")
}

// ---------------------------------------------------------------- plans and certificates

/// Longer than any plan record.
const ROOM: usize = 1200;

fn plans(count: u64, seed: u64) -> bool {
    let mut tally = Tally::new(seed);
    let mut generator = Generator::new(seed);
    let mut random = Random::new(!seed);
    for _ in 0..count {
        let record = generator.plan_record();
        let read = reference::read_plan(&record);
        if let Ok(plan) = &read {
            tally.see_shapes(plan);
        }
        let expected = answer(&read);
        tally.count(expected, &record);
        // Mostly room to spare; also just enough, and one byte too little.
        let size = match random.below(8) {
            0 => record.len(),
            1 => record.len().saturating_sub(1),
            _ => ROOM.max(record.len()),
        };
        if let Some(what) = written_again(&record, &read, size, &mut random) {
            tally.differs(&[("plan", &record)], what);
        }
    }
    let due = [("accepted", 0)].into_iter().chain((1..8).chain([33]).map(|number| ("plan refused", number)));
    tally.close(count, due.collect())
}

fn answer(read: &Result<Plan, reference::Fault>) -> Answer {
    match *read {
        Ok(_) => Answer::Accepted,
        Err((number, place)) => Answer::PlanFault(number, place),
    }
}

/// What is wrong with the library's reading of a plan record, or with what it writes again into a buffer of so many bytes.
fn written_again(record: &[u8], read: &Result<Plan, reference::Fault>, size: usize, random: &mut Random) -> Option<String> {
    let expected = answer(read);
    let mut out = Lent::new(size, random);
    let given = library::plan(record, out.buffer());
    if given != library::word(expected) {
        return Some(format!("expected {expected:?}, the library gave {}", library::told(given)));
    }
    let due = match read {
        Ok(plan) => Some(reference::encode_plan(plan)).filter(|due| due.len() <= size).unwrap_or_default(),
        Err(_) => Vec::new(),
    };
    if !record.starts_with(&due) || out.written(due.len()) != due {
        return Some(format!("a buffer of {size} bytes: written again as {}", decimal(out.written(record.len()))));
    }
    out.touched(due.len())
}

fn certificates(count: u64, seed: u64) -> bool {
    let mut tally = Tally::new(seed);
    let mut generator = Generator::new(seed);
    for _ in 0..count {
        let (plan, certificate) = generator.case();
        if let Ok(plan) = reference::read_plan(&plan) {
            tally.see_shapes(&plan);
        }
        let expected = reference::check(&plan, &certificate);
        tally.count(expected, &plan);
        let given = library::check(&plan, &certificate);
        if given != library::word(expected) {
            let what = format!("expected {expected:?}, the library gave {}", library::told(given));
            tally.differs(&[("plan", &plan), ("certificate", &certificate)], what);
        }
        if let Answer::Grade(grade) = expected {
            match reference::read_plan(&plan).map(|read| reference::long_numbers(&read, &certificate)) {
                Ok(Ok(long)) if long > 0 => tally.see((certify::LONG, grade), &plan),
                Ok(Err(what)) => tally.differs(&[("plan", &plan), ("certificate", &certificate)], what),
                _ => {}
            }
        }
    }
    let mut due: Vec<(&str, u8)> = (0..4).map(|grade| ("grade", grade)).collect();
    due.extend((1..8).chain([33]).map(|number| ("plan refused", number)));
    due.extend([1, 2, 33, 7, 8, 9].into_iter().chain(20..30).map(|number| ("certificate refused", number)));
    due.push((certify::LONG, 2));
    tally.close(count, due)
}

// ---------------------------------------------------------------- sessions

const MOST_SCRIPT: usize = 65536;
const CUT: &str = "script cut short";
const UNKNOWN: &str = "unknown call";
const TOO_LONG: &str = "input too long";

fn sessions(count: u64, seed: u64, program: &str) -> bool {
    let mut tally = Tally::new(seed);
    let mut generator = Generator::new(seed);
    let mut random = Random::new(!seed);
    let mut met = met::Met::default();
    for turn in 0..count {
        let script = if turn % 2 == 0 { generator.script() } else { generator.entered() };
        let bytes = encode_script(&script, &mut random);
        if let Ok(plan) = reference::read_plan(&script.plan) {
            tally.see_shapes(&plan);
        }
        let (answers, end) = met.replay(&bytes);
        let expected = lines(&bytes, &answers, end, &script.plan, &mut tally);
        let printed = output(program, &bytes);
        if printed != expected {
            let same = printed.lines().zip(expected.lines()).take_while(|(a, b)| a == b).count();
            let line = |text: &str| text.lines().nth(same).unwrap_or("nothing").to_string();
            let what = format!("line {}: expected {}, the program printed {}", same + 1, line(&expected), line(&printed));
            tally.differs(&[("script", &bytes)], what);
        }
        let room = any_room(answers.len(), &mut random);
        if let Some(what) = replayed(&bytes, &answers, end, room, &mut random) {
            tally.differs(&[("script", &bytes)], what);
        }
    }
    let mut due = vec![("accepted", 0), ("grade", 3), (CUT, 0), (UNKNOWN, 0), (TOO_LONG, 0)];
    due.extend((1..8).chain([29, 33]).map(|number| ("plan refused", number)));
    due.extend([1, 2, 33, 9, 20].into_iter().chain(24..29).chain([31]).map(|number| ("certificate refused", number)));
    let met = met.told();
    tally.close(count, due) && met
}

/// Some scripts are cut, some have a call that there is not. Of those that would be too long, most end with the last call that fits.
fn encode_script(script: &Script, random: &mut Random) -> Vec<u8> {
    let most = if random.chance(30) { usize::MAX } else { MOST_SCRIPT };
    let mut bytes = script.encode(most);
    match random.below(40) {
        0 => bytes.truncate(random.below(bytes.len())),
        1 if bytes.len() + 3 <= MOST_SCRIPT => bytes.extend([*random.pick(b"BxSPC\0"), b'c', b'c']),
        _ => {}
    }
    bytes
}

/// What the session program is to print: a line for each call, the opening first.
fn lines(script: &[u8], answers: &[(Answer, Option<usize>)], end: End, plan: &[u8], tally: &mut Tally) -> String {
    if script.len() > MOST_SCRIPT {
        tally.see((TOO_LONG, 0), plan);
        return format!("{TOO_LONG}\n");
    }
    let mut lines = String::new();
    for &(answer, unread) in answers {
        tally.count(answer, plan);
        let left = unread.filter(|_| answer == Answer::Accepted).map_or(String::new(), |unread| format!(" {unread}"));
        lines += &format!("{}{left}\n", library::told(library::word(answer)));
    }
    let last = match end {
        End::Replayed => return lines,
        End::Cut => CUT,
        End::UnknownCall => UNKNOWN,
    };
    tally.see((last, 0), plan);
    lines + last + "\n"
}

/// Room for all answers or, one time in four, perhaps not.
fn any_room(answers: usize, random: &mut Random) -> usize {
    match random.below(4) {
        0 => random.below(8 * answers + 8),
        1 => 8 * answers,
        _ => 8 * answers + random.below(64),
    }
}

/// What is wrong with the library's replay into a buffer of so many bytes.
fn replayed(script: &[u8], answers: &[(Answer, Option<usize>)], end: End, size: usize, random: &mut Random) -> Option<String> {
    let made = answers.len().min(size / 8);
    let expected = if made < answers.len() { 3 } else { end as u64 };
    let words: Vec<u8> = answers[..made].iter().flat_map(|&(answer, _)| library::word(answer).to_le_bytes()).collect();
    let mut out = Lent::new(size, random);
    let given = library::session(script, out.buffer());
    if given != (expected, made) {
        return Some(format!("a buffer of {size} bytes: end {expected} after {made} answers, the library gave {given:?}"));
    }
    if out.written(words.len()) != words {
        return Some(format!("a buffer of {size} bytes: {answers:?}, the library gave {:?}", out.written(words.len())));
    }
    out.touched(words.len())
}

/// What the program prints for an input.
fn output(program: &str, input: &[u8]) -> String {
    String::from_utf8_lossy(&run(program, input).stdout).into_owned()
}

/// How the program ends for an input, with all that it prints.
fn run(program: &str, input: &[u8]) -> Output {
    let piped = || Stdio::piped();
    let mut child = Command::new(program).stdin(piped()).stdout(piped()).stderr(piped()).spawn().expect("the program");
    // A program may end before it has read everything; then what it printed tells.
    let _ = child.stdin.take().expect("a pipe").write_all(input);
    child.wait_with_output().expect("its output")
}

// ---------------------------------------------------------------- counts

/// Each pair of a size and a grade is asked once: where there are plans to count, the library goes through all of them.
fn grade_counts(program: &str) -> bool {
    let table = counts::table();
    let right = lines_printed(program, &counts::lines(&table));
    let (mut compared, mut above_zero, mut differ) = (0, 0, 0);
    let grades = with_far(0..=300);
    for size in with_far(0..=200) {
        let counts = table.iter().find(|(n, _)| *n as u64 == size).map_or([0; 4], |(_, counts)| *counts);
        for &grade in &grades {
            let expected = if grade < 4 { counts[grade as usize] as u64 } else { 0 };
            let given = library::count(size, grade);
            compared += 1;
            above_zero += (expected > 0) as u64;
            differ += (given != expected) as u64;
            if given != expected && differ == 1 {
                println!("DIFFERENT: size {size}, grade {grade}: expected {expected}, the library gave {given}");
            }
        }
    }
    println!("{compared} compared, {above_zero} of them above 0, {differ} differ");
    right && above_zero > 0 && differ == 0
}

/// Whether the program, given nothing to read, prints just these lines and ends well.
fn lines_printed(program: &str, lines: &str) -> bool {
    let run = Command::new(program).stdin(Stdio::null()).output().expect("the program");
    let right = run.status.success() && run.stdout == lines.as_bytes() && run.stderr.is_empty();
    match right {
        true => println!("{} lines, {} bytes printed as expected", lines.lines().count(), lines.len()),
        false => println!("DIFFERENT: expected {lines:?}, the program gave {run:?}"),
    }
    right
}

/// Also numbers that pass for a small one where only some of their bits are looked at: next to each power of two, and with a small
/// number as their lowest 8, 16 or 32 bits.
fn with_far(near: RangeInclusive<u64>) -> BTreeSet<u64> {
    let mut numbers: BTreeSet<u64> = near.chain([u64::MAX]).collect();
    numbers.extend((0..64).flat_map(|k| (0..8).map(move |more| (1 << k) - 1 + more)));
    for high in [u64::MAX, u64::MAX / 3, 0x0123_4567_89ab_cdef, 3] {
        numbers.extend([8, 16, 32].into_iter().flat_map(|bits| (0..7).map(move |low| (high << bits) + low)));
    }
    numbers
}

// ---------------------------------------------------------------- known answers

/// By the library's answers, or the checking program's; what else is wrong with a call stands in the answer's place.
fn known_answers(file: &str, program: &str) -> bool {
    let mut random = Random::new(1);
    known::compare(file, |call, inputs| answered(call, inputs, program, &mut random))
}

/// Records whose answers are known from how they were made.
fn foreign_numbers(count: u64, seed: u64, program: &str) -> bool {
    let mut random = Random::new(!seed);
    foreign::compare(count, seed, |call, inputs| answered(call, inputs, program, &mut random))
}

fn answered(call: &str, inputs: &[Vec<u8>], program: &str, random: &mut Random) -> String {
    match (call, inputs) {
        ("plan", [plan]) => known_plan(plan, random),
        ("check", [plan, certificate]) => library::told(library::check(plan, certificate)),
        ("certify", [plan]) => certify::known(plan, random),
        ("mend", [plan]) => mended::refused(plan, random),
        ("session", [script]) => known_session(script, random),
        ("program", [input]) => output(program, input).trim_end_matches('\n').to_string(),
        _ => "no such call".to_string(),
    }
}

fn known_calls(file: &str) -> bool {
    let mut random = Random::new(1);
    known::compare_calls(file, |call| mended::known(call, &mut random))
}

/// An accepted record is written again byte for byte.
fn known_plan(plan: &[u8], random: &mut Random) -> String {
    let mut out = Lent::new(plan.len(), random);
    let word = library::plan(plan, out.buffer());
    let length = if word == library::word(Answer::Accepted) { plan.len() } else { 0 };
    if out.written(length) != &plan[..length] {
        return format!("written again as {}", decimal(out.written(length)));
    }
    out.touched(length).unwrap_or_else(|| library::told(word))
}

/// One answer a call, then how it ended, where that was not behind the last call.
fn known_session(script: &[u8], random: &mut Random) -> String {
    let mut out = Lent::new(8 * script.len(), random);
    let (end, made) = library::session(script, out.buffer());
    if let Some(wrong) = out.touched(8 * made) {
        return wrong;
    }
    let words = out.written(8 * made).chunks_exact(8).map(|word| u64::from_le_bytes(word.try_into().expect("eight bytes")));
    let mut told: Vec<String> = words.map(library::told).collect();
    told.extend(["", "cut", "unknown call", "no room"].get(end as usize).filter(|_| end > 0).map(|end| end.to_string()));
    told.join("; ")
}
