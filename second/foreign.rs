// Request 7: good records with damaged numbers. Reading comes as far as the first of them, so how a record was made tells the answer,
// without a reader: 1 behind a number that is cut off, 2 at a padded one, 33 at one that is too long. selftest asks the second
// implementation, compare the library.
use crate::generate::{any_plan, foreign_numbers, Call, Foreign, Script};
use crate::reference::*;
use std::collections::{BTreeMap, BTreeSet};

/// How many records are made of one plan and its certificate; the program is run on the first of them.
const RECORDS: usize = 8;
/// The answer to a call on a session that a refused opening gave.
const NEVER: &str = "certificate refused 31 at 0";

pub fn compare(count: u64, seed: u64, answer: impl FnMut(&str, &[Vec<u8>]) -> String) -> bool {
    println!("seed {seed}");
    let mut run = Run { answer, random: Random::new(seed), met: BTreeMap::new(), compared: 0, differ: 0 };
    for _ in 0..count {
        let plan = any_plan(&mut run.random);
        let certificate = certify_with(&plan, &mut run.random);
        for turn in 0..RECORDS {
            run.plan(&plan, &certificate, turn == 0);
            run.certificate(&plan, &certificate, turn == 0);
        }
        run.session(&plan, &certificate);
    }
    run.close()
}

struct Run<F> {
    answer: F,
    random: Random,
    /// Which refusals each call gave, and at which numbers of a record.
    met: BTreeMap<(String, u8), u64>,
    compared: u64,
    differ: u64,
}

impl<F: FnMut(&str, &[Vec<u8>]) -> String> Run<F> {
    /// A damaged plan record, for every call that takes one.
    fn plan(&mut self, plan: &Plan, certificate: &Certificate, printed: bool) {
        let Foreign { bytes, first } = foreign_numbers(&plan_numbers(plan.n, &plan.edges), &mut self.random);
        let Some((at, fault)) = first else { return };
        let what = if at < 2 { ["n", "m"][at] } else { ["a lower vertex", "a higher vertex"][at % 2] };
        let due = format!("plan refused {} at {}", fault.0, fault.1);
        for call in ["plan", "certify", "mend"] {
            self.ask(call, &[&bytes], &due);
        }
        let other = foreign_numbers(&certificate.items().concat(), &mut self.random).bytes;
        self.ask("check", &[&bytes, &other], &due);
        let calls = vec![Call::Start(other.clone()), Call::Path(other.clone()), Call::Back, Call::Close];
        let script = Script { plan: bytes.clone(), calls }.encode(usize::MAX);
        self.ask("session", &[&script], &format!("{due}; {NEVER}; {NEVER}; {NEVER}; {NEVER}"));
        PLAN_CALLS.iter().for_each(|call| self.see(call, what, fault, bytes.len()));
        if printed {
            // The certificate may be missing. Behind a number that is cut off its first byte would be that number's second.
            let input = if fault.0 == 1 || self.random.chance(50) { bytes } else { [bytes, other].concat() };
            self.ask("program", &[&input], &due);
            self.see("program", "plan", fault, input.len());
        }
    }

    /// A damaged certificate beside its plan.
    fn certificate(&mut self, plan: &Plan, certificate: &Certificate, printed: bool) {
        let written = certificate.items().concat();
        let Foreign { bytes, first } = foreign_numbers(&written, &mut self.random);
        let Some((at, fault)) = first else { return };
        let (plan, kind) = (encode_plan(plan), format!("kind {}", written[0]));
        let due = format!("certificate refused {} at {}", fault.0, fault.1);
        self.ask("check", &[&plan, &bytes], &due);
        self.see(&kind, roles(certificate)[at], fault, bytes.len());
        if numbers(&bytes) != Err(fault) {
            self.differs(format!("the numbers of {bytes:?}: expected {fault:?}"));
        }
        if printed {
            self.ask("program", &[&[plan, bytes.clone()].concat()], &due);
            self.see("program", &kind, fault, bytes.len());
        }
    }

    /// Where a certificate is of kind 3: before its start, and before some of its paths, the same part damaged. It is refused, and what
    /// follows is answered as if it had not been.
    fn session(&mut self, plan: &Plan, certificate: &Certificate) {
        let (items, roles) = (certificate.items(), roles(certificate));
        if items[0] != [3] {
            return;
        }
        let (mut calls, mut due) = (Vec::new(), vec!["accepted".to_string()]);
        let mut read = 1;
        for (name, from, to) in [("start", 1, 8)].into_iter().chain((8..items.len()).map(|i| ("path", i, i + 1))) {
            let call = |part| if name == "start" { Call::Start(part) } else { Call::Path(part) };
            let (numbers, rest) = (items[from..to].concat(), encode_items(&items[to..]));
            let Foreign { bytes, first } = foreign_numbers(&numbers, &mut self.random);
            if let Some((at, fault)) = first.filter(|_| name == "start" || self.random.chance(25)) {
                // The rest of the record may stand behind it.
                let part = if fault.0 == 1 || self.random.chance(50) { bytes } else { [&bytes, &rest[..]].concat() };
                self.see(name, roles[read + at], fault, part.len());
                calls.push(call(part));
                due.push(format!("certificate refused {} at {}", fault.0, fault.1));
            }
            calls.push(call(encode_numbers(&numbers)));
            due.push("accepted".to_string());
            read += numbers.len();
        }
        calls.push(Call::Close);
        due.push("grade 3".to_string());
        self.ask("session", &[&Script { plan: encode_plan(plan), calls }.encode(usize::MAX)], &due.join("; "));
    }

    fn ask(&mut self, call: &str, inputs: &[&Vec<u8>], due: &str) {
        let inputs: Vec<Vec<u8>> = inputs.iter().map(|&input| input.clone()).collect();
        let given = (self.answer)(call, &inputs);
        self.compared += 1;
        if given != due {
            self.differs(format!("{call} {inputs:?}: expected {due}, given {given}"));
        }
    }

    /// The first case that differs is printed whole.
    fn differs(&mut self, what: String) {
        self.differ += 1;
        if self.differ == 1 {
            println!("DIFFERENT: {what}");
        }
    }

    fn see(&mut self, call: &str, what: &str, (number, place): Fault, length: usize) {
        let mut count = |what: &str| *self.met.entry((format!("{call}, {what}"), number)).or_default() += 1;
        count(what);
        if number != 1 && place + 2 == length {
            count(AT_THE_END);
        }
    }

    /// Right if nothing differs, and each of the three occurred at every kind of number, 2 and 33 also at the end of a record.
    fn close(self) -> bool {
        let due = due();
        let times = |key: &(String, u8)| self.met.get(key).copied().unwrap_or(0);
        let missing: Vec<&(String, u8)> = due.iter().filter(|key| times(key) == 0).collect();
        missing.iter().for_each(|(what, number)| println!("never seen: {what}: {number}"));
        let least = due.iter().min_by_key(|key| times(key)).expect("a kind");
        println!("{} kinds of damaged numbers due, the rarest met {} times ({}: {})", due.len(), times(least), least.0, least.1);
        println!("{} compared, {} differ", self.compared, self.differ);
        self.compared > 0 && self.differ == 0 && missing.is_empty()
    }
}

// ---------------------------------------------------------------- kinds of numbers

const AT_THE_END: &str = "at the record's end";
/// `certify` is the maker with room and the length without; the opening is a session's.
const PLAN_CALLS: [&str; 5] = ["plan", "check", "certify", "opening", "mend"];

/// What each number of a certificate is, in the order of its record.
fn roles(certificate: &Certificate) -> Vec<&'static str> {
    let counted = |list: &Vec<usize>, what: [&'static str; 2]| [vec![what[0]], vec![what[1]; list.len()]].concat();
    let side = |side: &Vec<usize>| counted(side, ["the side's length", "a vertex of the side"]);
    let path = |path: &Vec<usize>| counted(path, ["a path's length", "a vertex of a path"]);
    let kind = vec!["the kind"];
    match certificate {
        Certificate::Side { side: vertices } => [kind, side(vertices)].concat(),
        Certificate::Tree { pairs, side: vertices, .. } => {
            let pairs = ["a new vertex", "a vertex named before"].repeat(pairs.len());
            [kind, vec!["the removed vertex", "the root"], pairs, side(vertices)].concat()
        }
        Certificate::Ears { ears, side: vertices, .. } => {
            let ears: Vec<&str> = ears.iter().flat_map(path).collect();
            [kind, vec!["a removed vertex"; 2], vec!["the number of ears"], ears, side(vertices)].concat()
        }
        Certificate::Build { paths, .. } => {
            let paths: Vec<&str> = paths.iter().flat_map(path).collect();
            [kind, vec!["a branch vertex"; 4], paths].concat()
        }
    }
}

/// What has to occur: 1, 2 and 33 at every number of a plan, a certificate of each kind, a start and a path; 2 and 33 also at the end.
fn due() -> BTreeSet<(String, u8)> {
    let (side, one) = (vec![0], vec![vec![0]]);
    let kinds = [
        Certificate::Side { side: side.clone() },
        Certificate::Tree { removed: 0, root: 0, pairs: vec![(0, 0)], side: side.clone() },
        Certificate::Ears { removed: [0; 2], ears: one.clone(), side },
        Certificate::Build { four: [0; 4], paths: one },
    ];
    let mut due = BTreeSet::new();
    let mut add = |call: &str, what: &[&str]| {
        what.iter().for_each(|what| due.extend([1, 2, 33].map(|number| (format!("{call}, {what}"), number))));
        due.extend([2, 33].map(|number| (format!("{call}, {AT_THE_END}"), number)));
    };
    PLAN_CALLS.iter().for_each(|call| add(call, &["n", "m", "a lower vertex", "a higher vertex"]));
    (0..4).for_each(|kind| add(&format!("kind {kind}"), &roles(&kinds[kind])));
    add("program", &["plan", "kind 0", "kind 1", "kind 2", "kind 3"]);
    add("start", &roles(&kinds[3])[1..]);
    add("path", &roles(&kinds[3])[5..]);
    due
}
