// Tries the second implementation: recorded answers, figures for small plans, generated cases.
//   selftest vectors PROGRAM SESSIONS   recorded answers of the checking program and of sessions
//   selftest known FILE                 known answers, a call a line
//   selftest calls FILE                 known answers of calls that write into several buffers
//   selftest barns                      the cases that document 01 names, as requests 1 and 7 leave them, some with doubles, and numbers
//                                       of two bytes
//   selftest counts                     the plans on 4, 5 and 6 vertices, counted by grade: 4 and 5 as document 02 says, and each adds up
//   selftest figures [7]                every plan on 4, 5 and 6 vertices (or 7): certify, check and connectivity agree
//   selftest mend COUNT SEED            the lists for every plan on 4, 5 and 6 vertices and for COUNT others: what request 6 says of them,
//                                       and the same lists by removal, by routes and by low points
//   selftest certify COUNT SEED         the same for plans of every family, certificates chosen at random
//   selftest outcomes COUNT SEED        generated cases; every refusal, every grade and every kind of taking back must occur
//   selftest foreign COUNT SEED         good records with damaged numbers, of COUNT plans: the answers that are due from how they were made
#![allow(dead_code)]
mod counts;
mod foreign;
mod generate;
mod known;
mod mend;
mod mendable;
mod met;
mod reference;

use generate::{any_plan, every_plan, Call, Generator, Script, FIGURES};
use known::bytes_of;
use reference::*;
use std::collections::{BTreeMap, BTreeSet};
use std::process::exit;

fn main() {
    let arguments: Vec<String> = std::env::args().skip(1).collect();
    let words: Vec<&str> = arguments.iter().map(String::as_str).collect();
    let number = |word: &str| word.parse::<u64>().expect("a number");
    let right = match words[..] {
        ["vectors", program, sessions] => program_vectors(program) & session_vectors(sessions),
        ["known", file] => known::compare(file, known_answer),
        ["calls", file] => known::compare_calls(file, known_call),
        ["barns"] => barns(),
        ["counts"] => grade_counts(),
        ["figures"] => figures(6),
        ["figures", "7"] => figures(7),
        ["mend", count, seed] => mended_plans(number(count) as usize, number(seed)),
        ["foreign", count, seed] => foreign::compare(number(count), number(seed), known_answer),
        ["certify", count, seed] => certify_all(number(count), number(seed)),
        ["outcomes", count, seed] => outcomes(number(count), number(seed)),
        _ => {
            eprintln!("selftest vectors PROGRAM SESSIONS, known|calls FILE, barns, counts, figures [7],");
            eprintln!("or certify|foreign|mend|outcomes COUNT SEED");
            false
        }
    };
    exit(if right { 0 } else { 1 });
}

// ---------------------------------------------------------------- recorded answers

/// Each line: standard input in hex, a tab, the printed line.
fn program_vectors(file: &str) -> bool {
    let text = std::fs::read_to_string(file).expect("program vectors");
    let (mut count, mut differ) = (0, 0);
    for line in text.lines().filter(|line| !line.starts_with('#')) {
        let (hex, expected) = line.split_once('\t').expect("a tab");
        let given = program_line(&bytes_of(hex));
        count += 1;
        if given != expected {
            differ += 1;
            println!("{hex}: expected {expected}, given {given}");
        }
    }
    println!("program: {count} compared, {differ} differ");
    differ == 0
}

/// Blocks of lines: a call, ` = `, its answer.
fn session_vectors(file: &str) -> bool {
    let text = std::fs::read_to_string(file).expect("session vectors");
    let mut session = open(&[]).1;
    let (mut count, mut differ) = (0, 0);
    for line in text.lines().filter(|line| !line.is_empty() && !line.starts_with('#')) {
        let (call, expected) = line.split_once(" = ").expect("an answer");
        let words: Vec<&str> = call.split(' ').collect();
        let part = bytes_of(words.get(1).unwrap_or(&""));
        let (answer, unread);
        match words[0] {
            "open" => ((answer, session), unread) = (open(&part), None),
            "close" => ((answer, session), unread) = (session.close(), None),
            "back" => ((answer, session), unread) = (session.back(), None),
            "start" => {
                let left;
                (answer, session, left) = session.start(&part);
                unread = Some(left);
            }
            _ => {
                let left;
                (answer, session, left) = session.path(&part);
                unread = Some(left);
            }
        }
        let given = session_line(answer, unread);
        count += 1;
        if given != expected {
            differ += 1;
            println!("{call}: expected {expected}, given {given}");
        }
    }
    println!("sessions: {count} calls compared, {differ} differ");
    differ == 0
}

fn session_line(answer: Answer, unread: Option<usize>) -> String {
    match (answer, unread) {
        (Answer::Accepted, None) => "ok".to_string(),
        (Answer::Accepted, Some(left)) => format!("ok {left} left"),
        (Answer::Grade(grade), _) => format!("grade {grade}"),
        (Answer::PlanFault(number, place), _) => format!("plan {number} {place}"),
        (Answer::CertificateFault(number, place), _) => format!("certificate {number} {place}"),
    }
}

/// The answer to a call as the programs print it. A made certificate counts by its grade, if the checker gives it.
fn known_answer(call: &str, inputs: &[Vec<u8>]) -> String {
    match (call, inputs) {
        ("plan", [plan]) => match read_plan(plan) {
            Ok(read) if encode_plan(&read) == *plan => "accepted".to_string(),
            Ok(_) => "written otherwise".to_string(),
            Err((number, place)) => told(Answer::PlanFault(number, place)),
        },
        ("check", [plan, certificate]) => told(check(plan, certificate)),
        ("certify", [plan]) => known_certify(plan),
        ("mend", [plan]) => match mend::mend(plan, |_| Vec::new()) {
            Ok(_) => "mended".to_string(),
            Err((number, place)) => told(Answer::PlanFault(number, place)),
        },
        ("session", [script]) => known_session(script),
        ("program", [input]) => program_line(input),
        _ => "no such call".to_string(),
    }
}

/// With room enough; in the least room the same, in less none.
fn known_certify(record: &[u8]) -> String {
    let plan = read_plan(record);
    let certificate = plan.as_ref().map_or(Vec::new(), certify);
    let made = plan.map(|plan| (connectivity(&plan), &certificate[..]));
    let (answer, written) = lent(certificate.len(), made);
    let none = made.is_ok() && lent(written.len() - 1, made) != (Answer::PlanFault(30, 0), &[]);
    match answer {
        _ if none => "written without room".to_string(),
        Answer::Grade(_) if check(record, written) != answer => "another grade".to_string(),
        _ => told(answer) + &known::numbers_told(written),
    }
}

/// One answer a call, then how it ended, where that was not behind the last call.
fn known_session(script: &[u8]) -> String {
    let (answers, end) = replay(script);
    let mut words: Vec<String> = answers.into_iter().map(|(answer, _)| told(answer)).collect();
    match end {
        End::Replayed => {}
        End::Cut => words.push("cut".to_string()),
        End::UnknownCall => words.push("unknown call".to_string()),
    }
    words.join("; ")
}

fn known_call(call: &known::Call) -> Option<String> {
    let ("fikzarn_mend", [record], &[list, mended, certificate]) = (call.function, &call.inputs[..], &call.rooms[..]) else {
        return Some("no such call".to_string());
    };
    let made = mend::mend(record, |mended| certify(&read_plan(mended).expect("a plan")));
    let answer = mend::lent([list, mended, certificate], &made);
    call.wrong(mend::word(answer), answer.map_or([&[]; 3], |records| [0, 1, 2].map(|i| &records[i][..])))
}

fn told(answer: Answer) -> String {
    match answer {
        Answer::Accepted => "accepted".to_string(),
        Answer::Grade(grade) => format!("grade {grade}"),
        Answer::PlanFault(number, place) => format!("plan refused {number} at {place}"),
        Answer::CertificateFault(number, place) => format!("certificate refused {number} at {place}"),
    }
}

// ---------------------------------------------------------------- the cases of document 01

fn numbers(words: &str) -> Vec<u8> {
    words.split_whitespace().map(|word| word.parse().expect("a byte")).collect()
}

const A_BUILD: &str = "3 0 1 2 3 2 0 1 2 0 2 2 0 3 2 1 2 2 1 3 2 2 3";
const FIVE: &str = "5 10 0 1 0 2 0 3 0 4 1 2 1 3 1 4 2 3 2 4 3 4";

/// A name, a plan and a certificate, and their answer.
const BARNS: [(&str, &str, &str, Answer); 38] = [
    ("A", "4 6 0 1 0 2 0 3 1 2 1 3 2 3", A_BUILD, Answer::Grade(3)),
    ("B", "4 5 0 1 0 2 0 3 1 2 1 3", "2 0 1 2 3 0 1 2 3 0 3 1 1 2", Answer::Grade(2)),
    ("C", "4 5 0 1 0 2 0 3 1 2 1 3", "3", Answer::CertificateFault(29, 0)),
    ("D", "4 3 0 1 1 2 2 3", "1 1 0 1 0 2 1 3 2 1 0", Answer::Grade(1)),
    ("E", "4 0", "0 1 0", Answer::Grade(0)),
    ("F", "4 0", "0 0", Answer::CertificateFault(22, 1)),
    ("G", FIVE, "3 0 1 2 3 3 0 4 1 2 0 2 2 0 3 2 1 2 2 1 3 2 2 3 2 4 2 2 4 3 2 0 1", Answer::Grade(3)),
    ("H", FIVE, "3 0 1 2 3 3 0 4 1 2 0 2 2 0 3 2 1 2 2 1 3 2 2 3 2 0 1 2 4 2 2 4 3", Answer::CertificateFault(27, 24)),
    ("I", "5 7 0 2 0 3 0 4 1 2 1 3 1 4 2 3", "3 0 1 2 3 3 0 4 1 2 0 2 2 0 3 2 1 2 2 1 3 2 2 3", Answer::CertificateFault(28, 24)),
    (
        "0 4 1 beside the link 0 1",
        FIVE,
        "3 0 1 2 3 2 0 1 2 0 2 2 0 3 2 1 2 2 1 3 2 2 3 3 0 4 1",
        Answer::CertificateFault(27, 23),
    ),
    ("no plan", "", "", Answer::PlanFault(1, 0)),
    ("plan", "3 0", "0 1 0", Answer::PlanFault(3, 0)),
    ("plan", "128 1 0", "0 1 0", Answer::Grade(0)),
    ("plan", "129 1 0", "0 1 0", Answer::PlanFault(3, 0)),
    ("plan", "132 0", "0 1 0", Answer::PlanFault(2, 0)),
    ("plan", "132", "0 1 0", Answer::PlanFault(1, 1)),
    ("plan", "132 128", "0 1 0", Answer::PlanFault(33, 0)),
    ("plan", "132 128 1", "0 1 0", Answer::PlanFault(33, 0)),
    ("plan", "132 255", "0 1 0", Answer::PlanFault(33, 0)),
    ("plan", "4 128 128", "0 1 0", Answer::PlanFault(33, 1)),
    ("plan", "4 129 4", "0 1 0", Answer::PlanFault(4, 1)),
    ("plan", "4 1 1 1", "0 1 0", Answer::PlanFault(5, 2)),
    ("plan", "4 2 0 1 0 1", "0 1 2", Answer::Grade(0)),
    ("plan", "4 2 0 2 0 1", "0 1 2", Answer::PlanFault(6, 4)),
    ("plan", "4 0 0", "0 1 0", Answer::PlanFault(7, 2)),
    ("kind, padded", "4 0", "128 0", Answer::CertificateFault(2, 0)),
    ("kind, too long", "4 0", "128 128", Answer::CertificateFault(33, 0)),
    ("kind, too long", "4 0", "131 128", Answer::CertificateFault(33, 0)),
    ("kind, cut off", "4 0", "128", Answer::CertificateFault(1, 1)),
    ("in a side", "4 0", "0 2 1 131 128", Answer::CertificateFault(33, 3)),
    ("in a pair", "4 3 0 1 1 2 2 3", "1 1 0 1 0 2 129 200 3 2", Answer::CertificateFault(33, 6)),
    ("in an ear", "4 5 0 1 0 2 0 3 1 2 1 3", "2 0 1 2 3 0 129 128 2", Answer::CertificateFault(33, 6)),
    ("in an ear, padded", "4 5 0 1 0 2 0 3 1 2 1 3", "2 0 1 2 3 0 129 0 2", Answer::CertificateFault(2, 6)),
    ("in the four", "4 6 0 1 0 2 0 3 1 2 1 3 2 3", "3 0 129 129 2 3", Answer::CertificateFault(33, 2)),
    ("in a path", "4 6 0 1 0 2 0 3 1 2 1 3 2 3", "3 0 1 2 3 2 0 129 255", Answer::CertificateFault(33, 7)),
    ("A, first and last doubled", "4 8 0 1 0 1 0 2 0 3 1 2 1 3 2 3 2 3", A_BUILD, Answer::Grade(3)),
    ("B, one doubled", "4 6 0 1 0 2 0 3 1 2 1 2 1 3", "2 0 1 2 3 0 1 2 3 0 3 1 1 2", Answer::Grade(2)),
    ("C, one doubled", "4 6 0 1 0 2 0 3 1 2 1 2 1 3", "3", Answer::CertificateFault(29, 0)),
];

fn barns() -> bool {
    let mut right = program_line(&[numbers(BARNS[0].1), numbers(BARNS[0].2)].concat()) == "boxes 4 cables 6 grade 3";
    for (name, plan, certificate, expected) in BARNS {
        let given = check(&numbers(plan), &numbers(certificate));
        if given != expected {
            println!("{name}: {plan} with {certificate}: expected {expected:?}, given {given:?}");
            right = false;
        }
    }
    println!("{} cases, {}", BARNS.len(), if right { "all agree" } else { "DIFFERENT" });
    right
}

// ---------------------------------------------------------------- counts

/// "a line's counts add up to all plans of its size": as many as there are sets of pairs, no two alike.
fn grade_counts() -> bool {
    let (mut right, mut all) = (true, 0);
    for n in counts::SIZES {
        let mut plans = BTreeSet::new();
        let counts = counts::counted(n, |plan, _| right &= plans.insert(plan.edges));
        let (sum, due) = (counts.iter().sum::<usize>(), 1 << (n * (n - 1) / 2));
        right &= sum == due;
        print!("{n} vertices: {counts:?}, {sum} plans, {due} due");
        if let Some((_, said)) = counts::SAID.iter().find(|(size, _)| *size == n) {
            right &= counts == *said;
            print!("; document 02 says {said:?}");
        }
        println!();
        all += sum;
    }
    println!("{all} plans counted, {}", if right { "all agree" } else { "DIFFERENT" });
    right
}

// ---------------------------------------------------------------- mended plans

/// Up to here the list is found by every way, above by one.
const MOST_BY_EACH: usize = 16;

fn mended_plans(count: usize, seed: u64) -> bool {
    println!("seed {seed}");
    let mut random = Random::new(seed);
    let mut seen = Mends::default();
    let mut right = (4..=6).flat_map(every_plan).all(|plan| seen.promised(&plan));
    right = right && (0..count).all(|turn| seen.promised(&mendable::plan(turn, &mut random)));
    let Mends { plans, grades, doubles, largest, longest, by_each, limits } = seen;
    println!("{plans} plans, by grade {grades:?}, {doubles} with doubles, {largest} with 128 vertices; longest list {longest}");
    println!("{by_each} lists found in three ways; with the list 511, 512 and 513 edges: {limits:?}");
    println!("{}", if right { "all agree" } else { "DIFFERENT" });
    right && doubles > 0 && largest > 0 && by_each > 0 && !grades.contains(&0) && !limits.contains(&0)
}

/// What the plans were.
#[derive(Default)]
struct Mends {
    plans: u64,
    grades: [u64; 4],
    doubles: u64,
    largest: u64,
    longest: usize,
    by_each: u64,
    limits: [u64; 3],
}

impl Mends {
    /// Whether all that request 6 says of the list holds for a plan.
    fn promised(&mut self, plan: &Plan) -> bool {
        let list = mend::list(plan);
        let (grade, together) = (figure(plan), plan.edges.len() + list.len());
        self.plans += 1;
        self.grades[grade as usize] += 1;
        self.doubles += (*plan != plan.simple()) as u64;
        self.largest += (plan.n == MOST_VERTICES) as u64;
        self.longest = self.longest.max(list.len());
        (0..3).for_each(|i| self.limits[i] += (together == MOST_EDGES - 1 + i) as u64);
        let mut right = as_promised(plan, &list, grade) && refused_rightly(plan, together);
        if plan.n <= MOST_BY_EACH {
            self.by_each += 1;
            right &= [mend::by_removal, mend::by_routes, by_low_points].iter().all(|way| mend::list_by(plan, *way) == list);
        }
        if !right {
            println!("DIFFERENT: {plan:?}: {list:?}");
        }
        right
    }
}

fn figure(plan: &Plan) -> u8 {
    if plan.n <= mend::MOST_BY_REMOVAL {
        connectivity(plan)
    } else {
        connectivity_by_low_points(plan)
    }
}

/// "What remains is listed in cable order. With all of it the figure is 3, and with any one left out it is below 3. A plan of grade 3
/// gets an empty list, and a double never appears in it."
fn as_promised(plan: &Plan, list: &[(usize, usize)], grade: u8) -> bool {
    let without = |i: usize| mend::with(plan, &[&list[..i], &list[i + 1..]].concat());
    list.windows(2).all(|pair| pair[0] < pair[1])
        && list.iter().all(|&(a, b)| a < b && b < plan.n && !plan.adjacent(a, b))
        && list.is_empty() == (grade == 3)
        && figure(&mend::with(plan, list)) == 3
        && (0..list.len()).all(|i| figure(&without(i)) < 3)
}

/// 32 exactly where plan and list have more than 512 edges together; else the mended plan is one.
fn refused_rightly(plan: &Plan, together: usize) -> bool {
    match mend::mend(&encode_plan(plan), |_| Vec::new()) {
        Err(fault) => fault == (32, 0) && together > MOST_EDGES,
        Ok([_, mended, _]) => read_plan(&mended).is_ok_and(|mended| mended.edges.len() == together),
    }
}

/// The figure of the rows, once more from a list of edges.
fn by_low_points(rows: &[u128], _: usize, _: usize) -> bool {
    let below = |b: usize| (0..b).filter(move |a| rows[b] >> a & 1 == 1).map(move |a| (a, b));
    connectivity_by_low_points(&Plan::new(rows.len(), (0..rows.len()).flat_map(below))) == 3
}

// ---------------------------------------------------------------- certify, check, connectivity

/// Every plan on 4 to `most` vertices, counted by connectivity.
fn figures(most: usize) -> bool {
    let mut right = true;
    for n in 4..=most {
        let expected = FIGURES[n - 4];
        let counts = counts::counted(n, |plan, figure| {
            right &= figure == connectivity_by_low_points(&plan);
            right &= check(&encode_plan(&plan), &certify(&plan)) == Answer::Grade(figure);
        });
        right &= counts == expected;
        println!("{n} vertices: {counts:?}, expected {expected:?}");
    }
    println!("{}", if right { "all agree" } else { "DIFFERENT" });
    right
}

/// Random certificates of random plans are accepted with the plan's connectivity, and are as long as request 2 says; what kind 3 must
/// show besides is tested too.
fn certify_all(count: u64, seed: u64) -> bool {
    println!("seed {seed}");
    let mut random = Random::new(seed);
    let mut grades = [0; 4];
    let mut doubled = 0;
    let mut additions = [0; 3];
    let mut longest = [0; 4];
    let mut long = 0;
    for _ in 0..count {
        let plan = any_plan(&mut random);
        let certificate = certify_with(&plan, &mut random);
        let record = encode_certificate(&certificate);
        let figure = connectivity_by_low_points(&plan);
        let mut right = check(&encode_plan(&plan), &record) == Answer::Grade(figure);
        right &= plan.n > 40 || figure == connectivity(&plan);
        let counted = long_numbers(&plan, &record);
        right &= counted.is_ok();
        long += counted.is_ok_and(|count| count > 0) as u64;
        if let Certificate::Build { four, paths } = &certificate {
            doubled += (plan != plan.simple()) as u64;
            right &= each_pair_once(&plan, paths);
            count_additions(plan.n, four, paths, &mut additions);
        }
        grades[figure as usize] += 1;
        longest[figure as usize] = longest[figure as usize].max(record.len());
        if !right {
            println!("DIFFERENT: {:?} {:?}", encode_plan(&plan), record);
            return false;
        }
    }
    println!("{count} certificates accepted, by grade {grades:?}, longest records {longest:?}");
    println!("additions vertex-vertex, edge-vertex, edge-edge: {additions:?}; {doubled} builds of plans with doubles");
    println!("{long} records with a number of two bytes");
    long > 0 && doubled > 0 && additions.iter().all(|&count| count > 0) && grades.iter().all(|&count| count > 0)
}

/// "What a finished build of kind 3 uses just once is then each cabled pair."
fn each_pair_once(plan: &Plan, paths: &[Vec<usize>]) -> bool {
    let mut used: Vec<(usize, usize)> =
        paths.iter().flat_map(|path| path.windows(2).map(|pair| (pair[0].min(pair[1]), pair[0].max(pair[1])))).collect();
    used.sort();
    used == plan.pairs()
}

/// How many ends of each further path lay inside a link.
fn count_additions(n: usize, four: &[usize], paths: &[Vec<usize>], additions: &mut [usize; 3]) {
    let mut build = Build::new(n, four);
    for (index, path) in paths.iter().enumerate() {
        if index >= 6 {
            let ends = [path[0], path[path.len() - 1]];
            additions[ends.iter().filter(|&&end| !build.branch[end]).count()] += 1;
        }
        build.take(path.clone());
    }
}

// ---------------------------------------------------------------- generated cases

fn name(answer: Answer) -> (&'static str, u8) {
    match answer {
        Answer::Accepted => ("accepted", 0),
        Answer::Grade(grade) => ("grade", grade),
        Answer::PlanFault(number, _) => ("plan refused", number),
        Answer::CertificateFault(number, _) => ("certificate refused", number),
    }
}

/// One case in eight is a script of session calls, every second of these one that takes back much; the others are a plan and a
/// certificate.
fn outcomes(count: u64, seed: u64) -> bool {
    println!("seed {seed}");
    let mut generator = Generator::new(seed);
    let mut checked: BTreeMap<(&str, u8), u64> = BTreeMap::new();
    let mut called: BTreeMap<(&str, u8), u64> = BTreeMap::new();
    let mut met = met::Met::default();
    let mut right = true;
    for index in 0..count {
        if index % 8 == 7 {
            let script = if index % 16 == 7 { generator.script() } else { generator.entered() };
            right &= run_script(&script, &mut called);
            met.replay(&script.encode(usize::MAX));
            continue;
        }
        let (plan, certificate) = generator.case();
        let answer = check(&plan, &certificate);
        *checked.entry(name(answer)).or_default() += 1;
        if !consistent(&plan, &certificate, answer) {
            println!("DIFFERENT: {plan:?} {certificate:?} {answer:?}");
            right = false;
        }
    }
    for (title, counts) in [("checks", &checked), ("session calls", &called)] {
        println!("{title}:");
        counts.iter().for_each(|((name, number), count)| println!("  {name} {number}: {count}"));
    }
    right &= met.told();
    let seen = |key| checked.contains_key(&key) || called.contains_key(&key);
    let mut due: Vec<(&str, u8)> = (0..4).map(|grade| ("grade", grade)).collect();
    due.extend((1..8).chain([29, 33]).map(|number| ("plan refused", number)));
    due.extend([1, 2, 33, 7, 8, 9].into_iter().chain(20..30).chain([31]).map(|number| ("certificate refused", number)));
    for key in due.into_iter().filter(|&key| !seen(key)) {
        println!("MISSING: {} {}", key.0, key.1);
        right = false;
    }
    println!("{count} cases, {}", if right { "all refusals and grades seen" } else { "FAILED" });
    right
}

/// A grade is the connectivity, and the counts of request 2 hold. "A certificate of kind 3 is accepted exactly when these calls accept
/// it and no byte is left." The plan is written again as it was, and doubles change no answer.
fn consistent(plan: &[u8], certificate: &[u8], answer: Answer) -> bool {
    let Ok(graph) = read_plan(plan) else { return true };
    let true_grade = match answer {
        Answer::Grade(grade) => grade == connectivity_by_low_points(&graph),
        _ => true,
    };
    let counted = !matches!(answer, Answer::Grade(_)) || long_numbers(&graph, certificate).is_ok();
    let by_calls = certificate.first() == Some(&3) && calls_accept(plan, &certificate[1..], &graph);
    let once = check(&encode_plan(&graph.simple()), certificate);
    true_grade && counted && by_calls == (answer == Answer::Grade(3)) && encode_plan(&graph) == plan && once == answer
}

fn calls_accept(plan: &[u8], parts: &[u8], graph: &Plan) -> bool {
    let (opened, session) = open(plan);
    let (mut answer, mut session, mut unread) = session.start(parts);
    for _ in 0..graph.further_paths().unwrap_or(0) {
        if opened != Answer::Accepted || answer != Answer::Accepted {
            return false;
        }
        (answer, session, unread) = session.path(&parts[parts.len() - unread..]);
    }
    answer == Answer::Accepted && unread == 0 && session.close().0 == Answer::Grade(3)
}

/// Runs a script; a refused call leaves the session and the part as they were, taking back gives the session before the last path, and a
/// closing that is accepted tells the connectivity.
fn run_script(script: &Script, counts: &mut BTreeMap<(&'static str, u8), u64>) -> bool {
    let (answer, mut session) = open(&script.plan);
    *counts.entry(name(answer)).or_default() += 1;
    let mut right = true;
    let small = script.plan.len() < 100;
    // The sessions before each path that is in.
    let mut earlier: Vec<Session> = Vec::new();
    for call in &script.calls {
        let before = small.then(|| session.clone());
        let (answer, part, unread);
        match call {
            Call::Start(bytes) => (part, (answer, session, unread)) = (bytes.len(), session.start(bytes)),
            Call::Path(bytes) => (part, (answer, session, unread)) = (bytes.len(), session.path(bytes)),
            Call::Back => ((part, unread), (answer, session)) = ((0, 0), session.back()),
            Call::Close => ((part, unread), (answer, session)) = ((0, 0), session.close()),
        }
        *counts.entry(name(answer)).or_default() += 1;
        match (call, before) {
            (_, Some(before)) if answer != Answer::Accepted => right &= unread == part && session == before,
            (Call::Path(_), Some(before)) => earlier.push(before),
            (Call::Back, Some(_)) => right &= earlier.pop().is_some_and(|earlier| session == earlier),
            _ => {}
        }
        if answer == Answer::Grade(3) {
            right &= connectivity_by_low_points(&read_plan(&script.plan).expect("opened")) == 3;
        }
    }
    if !right {
        println!("DIFFERENT: {script:?}");
    }
    right
}
