// Times a session's path calls and takings back, by scripts that differ in these alone, those of an older archive beside those of the new
// one, in one process. bench/README.md says how.
#[allow(dead_code)]
#[path = "../second/reference.rs"]
mod reference;
#[allow(dead_code)]
mod timing;

use reference::*;
use timing::*;

const SEED: u64 = 20261117;
/// Numberings of each plan, rounds through all cases, and replays in one timing.
const PLANS: usize = 8;
const ROUNDS: usize = 50;
const REPLAYS: u32 = 50;
const SIZES: [usize; 3] = [16, 64, MOST_VERTICES];
/// The first edition whose scripts take back.
const BACK: u64 = 4;

type Replay = unsafe extern "C" fn(*const u8, usize, *mut u8, usize) -> u64;

extern "C" {
    fn fikzarn_edition() -> u64;
    fn fikzarn_session(script: *const u8, script_len: usize, out: *mut u8, out_len: usize) -> u64;
}

#[cfg(old)]
extern "C" {
    fn old_fikzarn_session(script: *const u8, script_len: usize, out: *mut u8, out_len: usize) -> u64;
}

/// The new library is the last; before it stands the old one, where bench/session was given one.
const LIBRARIES: &[Replay] = &[
    #[cfg(old)]
    old_fikzarn_session,
    fikzarn_session,
];
const NEW: Replay = LIBRARIES[LIBRARIES.len() - 1];

/// A script, and how many answers it gets, all of them accepted.
#[derive(Clone)]
struct Script {
    bytes: Vec<u8>,
    answers: usize,
}

impl Script {
    fn opened(plan: &Plan, start: &[u8]) -> Script {
        let mut script = Script { bytes: Vec::new(), answers: 0 };
        script.add(b"", Some(&encode_plan(plan)));
        script.add(b"s", Some(start));
        script
    }

    fn add(&mut self, letter: &[u8], part: Option<&[u8]>) {
        self.bytes.extend(letter);
        if let Some(part) = part {
            self.bytes.extend((part.len() as u16).to_le_bytes());
            self.bytes.extend(part);
        }
        self.answers += 1;
    }

    fn with(&self, paths: &[Vec<usize>]) -> Script {
        let mut script = self.clone();
        paths.iter().for_each(|path| script.add(b"p", Some(&part_of(path))));
        script
    }

    fn back(&self, times: usize) -> Script {
        let mut script = self.clone();
        (0..times).for_each(|_| script.add(b"b", None));
        script
    }

    fn replay(&self, library: Replay, out: &mut [u8]) {
        let word = unsafe { library(self.bytes.as_ptr(), self.bytes.len(), out.as_mut_ptr(), out.len()) };
        demand(word == 65536 * self.answers as u64, "every call is made");
    }

    /// Microseconds of one replay; every answer must be that of an accepted call.
    fn time(&self, library: Replay) -> f64 {
        let mut out = vec![170; 8 * self.answers];
        self.replay(library, &mut out);
        demand(out.iter().all(|&byte| byte == 0), "every call is accepted");
        microseconds(REPLAYS, || self.replay(library, &mut out))
    }
}

fn part_of(path: &[usize]) -> Vec<u8> {
    encode_numbers(&[&[path.len()], path].concat())
}

// ---------------------------------------------------------------- plans and their paths

/// A build on the branch vertices 0, 1, 2, 3: the six links, and further paths in groups; each group is timed by itself.
struct Built {
    links: Vec<Vec<usize>>,
    groups: Vec<(&'static str, Vec<Vec<usize>>)>,
}

/// So many of the vertices, spread over the list.
fn spread(list: &[usize], count: usize) -> Vec<usize> {
    (0..count).map(|i| list[(2 * i + 1) * list.len() / (2 * count)]).collect()
}

/// One link through all vertices but four; it is opened at twelve vertices by edges to a third branch vertex, and edges follow
/// between vertices that are then branch vertices.
fn one_long_link(n: usize) -> Built {
    let inside: Vec<usize> = (4..n).collect();
    let links = links(&inside, &[]);
    let opened = spread(&inside, 12);
    let opening: Vec<Vec<usize>> = opened.iter().map(|&v| vec![v, 2]).collect();
    let pairs = (0..12).flat_map(|i| (i + 2..12).map(move |j| (i, j)));
    let edges = pairs.map(|(i, j)| vec![opened[i], opened[j]]).take(32).collect();
    let groups = vec![("edge from inside a long link", opening), ("edge between branch boxes", edges)];
    Built { links, groups }
}

/// Two long links without a common end, and long paths from inside the one to inside the other.
fn two_long_links(n: usize) -> Built {
    let (count, size) = if n == 16 { (3, 2) } else { (4, n / 8) };
    let outside: Vec<usize> = (n - count * size..n).collect();
    let inside: Vec<usize> = (4..n - count * size).collect();
    let (one, other) = inside.split_at(inside.len() / 2);
    let ends = spread(one, count).into_iter().zip(spread(other, count));
    let paths = ends.zip(outside.chunks(size)).map(|((v, w), way)| [&[v], way, &[w]].concat()).collect();
    Built { links: links(one, other), groups: vec![("long path between two long links", paths)] }
}

/// The links of a start on 0, 1, 2, 3, with these vertices inside the first and the last.
fn links(first: &[usize], last: &[usize]) -> Vec<Vec<usize>> {
    let mut links: Vec<Vec<usize>> = [(0, 1), (0, 2), (0, 3), (1, 2), (1, 3), (2, 3)].map(|(a, b)| vec![a, b]).to_vec();
    links[0].splice(1..1, first.iter().copied());
    links[5].splice(1..1, last.iter().copied());
    links
}

impl Built {
    /// The plan has the steps of the build and, for every vertex that is then inside a link, an edge to a branch vertex that is not on
    /// it, so that its connectivity is 3.
    fn plan(&self, n: usize) -> Plan {
        let mut build = Build::new(n, &[0, 1, 2, 3]);
        let paths = self.links.iter().chain(self.groups.iter().flat_map(|group| &group.1));
        paths.clone().for_each(|path| build.take(path.clone()));
        let apart = |link: &Vec<usize>| (0..4).rev().find(|v| !link.contains(v)).expect("three are apart");
        let more = build.links.iter().flat_map(|link| inner(link).iter().map(move |&v| (v, apart(link))));
        let steps = paths.flat_map(|path| path.windows(2)).map(|pair| (pair[0], pair[1]));
        let plan = Plan::new(n, steps.chain(more));
        demand(plan.edges.len() <= MOST_EDGES && connectivity_by_low_points(&plan) == 3, "the plan has figure 3");
        plan
    }

    /// The scripts of each group, numbered at random but for the four.
    fn cases(&self, n: usize, random: &mut Random) -> Vec<Case> {
        let mut others: Vec<usize> = (4..n).collect();
        random.shuffle(&mut others);
        let label = |v: usize| if v < 4 { v } else { others[v - 4] };
        let named = |path: &Vec<usize>| path.iter().map(|&v| label(v)).collect::<Vec<usize>>();
        let plan = Plan::new(n, self.plan(n).edges.iter().map(|&(a, b)| (label(a), label(b))));
        let links = self.links.iter().flat_map(|link| part_of(&named(link)));
        let start: Vec<u8> = [0, 1, 2, 3].into_iter().chain(links).collect();
        let mut before = Script::opened(&plan, &start);
        let mut cases = Vec::new();
        for (_, paths) in &self.groups {
            let paths: Vec<Vec<usize>> = paths.iter().map(named).collect();
            let taken = before.with(&paths);
            cases.push(Case { back: taken.back(paths.len()), before, taken: taken.clone(), count: paths.len() });
            before = taken;
        }
        cases
    }
}

// ---------------------------------------------------------------- timings

/// Scripts without the paths of a group, with them, and with them and as many takings back.
struct Case {
    before: Script,
    taken: Script,
    back: Script,
    count: usize,
}

/// A group on plans of one size: nanoseconds of each library's path calls, of takings back, and of the script before the paths.
struct Row {
    n: usize,
    name: &'static str,
    cases: Vec<Case>,
    inner: usize,
    paths: Vec<Vec<f64>>,
    before: Vec<Vec<f64>>,
    backs: Vec<f64>,
}

impl Row {
    fn time(&mut self, takes_back: bool) {
        for case in &self.cases {
            let before: Vec<f64> = LIBRARIES.iter().map(|&library| case.before.time(library)).collect();
            let taken: Vec<f64> = LIBRARIES.iter().map(|&library| case.taken.time(library)).collect();
            let each = |more: f64, less: f64| (more - less) * 1000.0 / case.count as f64;
            for i in 0..LIBRARIES.len() {
                self.before[i].push(before[i] * 1000.0);
                self.paths[i].push(each(taken[i], before[i]));
            }
            if takes_back {
                self.backs.push(each(case.back.time(NEW), taken[LIBRARIES.len() - 1]));
            }
        }
    }

    fn print(&self) {
        let Row { n, name, inner, .. } = self;
        let paths = beside(&self.paths);
        let back = match self.backs.is_empty() {
            true => " | ".to_string(),
            false => format!("{:.0} | {:.2}", median(&self.backs), median(&over(&self.backs, &self.paths[LIBRARIES.len() - 1]))),
        };
        println!("| {n} | {name} | {inner} | {} | {paths} | {back} | {} |", self.cases[0].count, beside(&self.before));
    }
}

/// Medians of the libraries, and of the new one's over the old one's.
fn beside(times: &[Vec<f64>]) -> String {
    let medians = times.iter().map(|times| format!("{:.0}", median(times))).collect::<Vec<_>>().join(" | ");
    match times {
        [old, new] => format!("{medians} | {:.3}", median(&over(new, old))),
        _ => medians,
    }
}

fn rows() -> Vec<Row> {
    let random = &mut Random::new(SEED);
    let mut rows = Vec::new();
    for built in [one_long_link, two_long_links] {
        for n in SIZES {
            let built = built(n);
            let mut cases: Vec<Vec<Case>> = built.groups.iter().map(|_| Vec::new()).collect();
            for _ in 0..PLANS {
                cases.iter_mut().zip(built.cases(n, random)).for_each(|(cases, case)| cases.push(case));
            }
            for ((name, paths), cases) in built.groups.iter().zip(cases) {
                let times = || vec![Vec::new(); LIBRARIES.len()];
                let inner = paths[0].len() - 2;
                rows.push(Row { n, name, cases, inner, paths: times(), before: times(), backs: Vec::new() });
            }
        }
    }
    rows
}

fn main() {
    let mut rows = rows();
    let takes_back = unsafe { fikzarn_edition() } >= BACK;
    for _ in 0..ROUNDS {
        rows.iter_mut().for_each(|row| row.time(takes_back));
    }
    rows.sort_by_key(|row| row.name);
    let two = LIBRARIES.len() == 2;
    let columns = |name: &str| if two { format!("{name} old ns | new ns | new/old") } else { format!("{name} ns") };
    println!("| boxes | path | inner boxes | paths | {} | back ns | back/path | {} |", columns("path"), columns("all before"));
    println!("|--:|---|--:|--:|{}--:|--:|{}", "--:|".repeat(if two { 3 } else { 1 }), "--:|".repeat(if two { 3 } else { 1 }));
    rows.iter().for_each(Row::print);
}
