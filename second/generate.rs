// Test cases from a seed: plans of many families, one in three with doubles, certificates good and bad, damaged records and numbers,
// scripts of session calls.
use crate::reference::*;

/// One call of a session, with the part handed in.
#[derive(Clone, Debug)]
pub enum Call {
    Start(Vec<u8>),
    Path(Vec<u8>),
    Back,
    Close,
}

/// An opening and the calls after it.
#[derive(Clone, Debug)]
pub struct Script {
    pub plan: Vec<u8>,
    pub calls: Vec<Call>,
}

impl Script {
    /// The plan record, then the calls that fit into so many bytes, each its letter and its part; before a record or part its length,
    /// two bytes, the lower first.
    pub fn encode(&self, most: usize) -> Vec<u8> {
        let counted = |part: &[u8]| [&(part.len() as u16).to_le_bytes()[..], part].concat();
        let mut bytes = counted(&self.plan);
        for call in &self.calls {
            let call = match call {
                Call::Start(part) => [vec![b's'], counted(part)].concat(),
                Call::Path(part) => [vec![b'p'], counted(part)].concat(),
                Call::Back => vec![b'b'],
                Call::Close => vec![b'c'],
            };
            if call.len() > most.saturating_sub(bytes.len()) {
                break;
            }
            bytes.extend(call);
        }
        bytes
    }
}

/// Several cases are drawn from one plan and its certificate before the next plan is made.
pub struct Generator {
    random: Random,
    plan: Plan,
    certificate: Certificate,
    left: usize,
}

const CASES_A_PLAN: usize = 12;

impl Generator {
    pub fn new(seed: u64) -> Generator {
        let certificate = Certificate::Side { side: vec![0] };
        Generator { random: Random::new(seed), plan: Plan { n: 4, edges: vec![] }, certificate, left: 0 }
    }

    fn turn(&mut self) {
        if self.left == 0 {
            self.plan = any_plan(&mut self.random);
            self.certificate = certify_with(&self.plan, &mut self.random);
            self.left = CASES_A_PLAN;
        }
        self.left -= 1;
    }

    /// A plan record, about one in three of them good.
    pub fn plan_record(&mut self) -> Vec<u8> {
        let plan = any_plan(&mut self.random);
        if self.random.chance(35) {
            encode_plan(&plan)
        } else {
            damaged_plan(&plan, &mut self.random)
        }
    }

    /// A plan record and a certificate record.
    pub fn case(&mut self) -> (Vec<u8>, Vec<u8>) {
        self.turn();
        let random = &mut self.random;
        let items = self.certificate.items();
        let plan = encode_plan(&self.plan);
        match random.below(108) {
            0..=9 => (plan, encode_items(&items)),
            10..=15 => {
                // Another certificate of the same plan; large plans keep theirs, for time.
                if self.plan.n <= 24 {
                    self.certificate = certify_with(&self.plan, random);
                }
                (plan, encode_certificate(&self.certificate))
            }
            16..=20 => (damaged_plan(&self.plan, random), encode_items(&items)),
            21..=28 => (plan, damaged_bytes(encode_items(&items), random)),
            29..=40 => (plan, damaged_numbers(&items.concat(), self.plan.n, random)),
            41..=42 => (plan, damaged_bytes(damaged_numbers(&items.concat(), self.plan.n, random), random)),
            43..=60 => (plan, encode_items(&damaged_items(items, &self.plan, random))),
            61..=62 => (plan, encode_items(&each_edge(items, &self.plan, random))),
            63..=72 => (plan, encode_certificate(&other_kind(&self.plan, random))),
            73..=78 => {
                let other = other_kind(&self.plan, random);
                (plan, damaged_numbers(&other.items().concat(), self.plan.n, random))
            }
            79..=82 => (plan, encode_items(&damaged_items(other_kind(&self.plan, random).items(), &self.plan, random))),
            83..=92 => {
                let (plan, items) = altered(&self.plan, &self.certificate, random);
                let record = encode_items(&items);
                (encode_plan(&plan), if random.chance(20) { damaged_bytes(record, random) } else { record })
            }
            93..=99 => (plan, small_bytes(self.plan.n, random)),
            100..=105 => (plan, foreign_numbers(&items.concat(), random).bytes),
            _ => (plan, foreign_numbers(&other_kind(&self.plan, random).items().concat(), random).bytes),
        }
    }

    /// An opening and a list of calls: good and damaged parts, wrong order, repeats, some paths taken back.
    pub fn script(&mut self) -> Script {
        self.turn();
        let random = &mut self.random;
        let (plan, items) = match (&self.certificate, random.below(10)) {
            (Certificate::Build { .. }, 0..=5) => (self.plan.clone(), self.certificate.items()),
            (Certificate::Build { .. }, 6) => (self.plan.clone(), each_edge(self.certificate.items(), &self.plan, random)),
            (Certificate::Build { .. }, 7..=8) => altered(&self.plan, &self.certificate, random),
            _ => (self.plan.clone(), build_attempt(&self.plan, random).items()),
        };
        let record = if random.chance(8) { damaged_plan(&plan, random) } else { encode_plan(&plan) };
        Script { plan: record, calls: calls(&plan, &items, random) }
    }

    /// An opening, and calls among which many paths are taken, taken back, and taken again or others in their stead. One plan in three
    /// has long links, one in eight may have up to 128 vertices; where there is no certificate of kind 3, it is tried for one.
    pub fn entered(&mut self) -> Script {
        self.turn();
        let random = &mut self.random;
        let (plan, certificate) = match random.below(24) {
            0..=7 => long_links(random),
            8..=10 => {
                let plan = larger_plan(random.below(20), random);
                let certificate = certify_with(&plan, random);
                (plan, certificate)
            }
            11 => (self.plan.clone(), build_attempt(&self.plan, random)),
            _ => (self.plan.clone(), self.certificate.clone()),
        };
        let (plan, items) = match certificate {
            Certificate::Build { .. } if random.chance(10) => altered(&plan, &certificate, random),
            Certificate::Build { .. } => (plan, certificate.items()),
            _ => {
                let items = build_attempt(&plan, random).items();
                (plan, items)
            }
        };
        Script { plan: encode_plan(&plan), calls: Entry::calls(&plan, &items, random) }
    }
}

fn calls(plan: &Plan, items: &[Vec<usize>], random: &mut Random) -> Vec<Call> {
    let mut calls = Vec::new();
    let trailing = random.chance(50);
    // The part for items[from..to], with the rest of the record after it or not.
    let part = |from: usize, to: usize| encode_items(&items[from..if trailing { items.len() } else { to.min(items.len()) }]);
    let first = items.len().min(8);
    for _ in 0..random.below(3) {
        calls.push(match random.below(6) {
            0 => Call::Path(part(first, first + 1)),
            1 => Call::Close,
            4 => Call::Back,
            5 => Call::Start(foreign_numbers(&items[1..first].concat(), random).bytes),
            2 => Call::Start(encode_items(&damaged_items(items[1..first].to_vec(), plan, random))),
            _ => Call::Start(damaged_numbers(&items[1..first].concat(), plan.n, random)),
        });
    }
    if !random.chance(2) {
        calls.push(Call::Start(part(1, first)));
    }
    for index in first..items.len() {
        match random.below(40) {
            0 => calls.push(Call::Start(part(1, first))),
            1 => calls.push(Call::Close),
            2 | 3 => calls.push(Call::Path(damaged_numbers(&items[index], plan.n, random))),
            4 | 5 => calls.push(Call::Path(encode_items(&[random_walk(plan, random)]))),
            6 => calls.push(Call::Path(damaged_bytes(part(index, index + 1), random))),
            7 if random.chance(20) => continue,
            8 => calls.push(Call::Path(encode_items(&[random.pick(&items[2..]).clone()]))),
            12 => calls.push(Call::Path(foreign_numbers(&items[index], random).bytes)),
            9..=11 => {
                // Some are taken back, and mostly taken again.
                let from = index.saturating_sub(random.within(1, 4)).max(first);
                calls.extend((from..index).map(|_| Call::Back));
                calls.extend((from..index).filter(|_| !random.chance(5)).map(|i| Call::Path(part(i, i + 1))));
            }
            _ => {}
        }
        calls.push(Call::Path(part(index, index + 1)));
    }
    for _ in 0..random.within(1, 4) {
        calls.push(match random.below(6) {
            0 => Call::Path(encode_items(&[random_walk(plan, random)])),
            1 => Call::Start(part(1, first)),
            2 => Call::Back,
            3 => Call::Path(part(items.len() - 1, items.len())),
            _ => Call::Close,
        });
    }
    calls
}

// ---------------------------------------------------------------- scripts that take back

/// Someone who enters paths and takes some of them back. It keeps the build before each path that is in, so it knows what there is to
/// take back, and which paths would be taken.
struct Entry<'a> {
    plan: &'a Plan,
    neighbours: Vec<Vec<usize>>,
    start: Vec<u8>,
    due: usize,
    build: Build,
    /// For each path that is in: the build before it, and the path.
    before: Vec<(Build, Vec<usize>)>,
    calls: Vec<Call>,
}

/// A path as a part.
fn part_of(path: &[usize]) -> Vec<u8> {
    encode_numbers(&[&[path.len()], path].concat())
}

impl<'a> Entry<'a> {
    /// The paths of a certificate in their order, with others and refused calls among them, each now and then taken back. Where it has
    /// no start that is accepted, there is nothing to take back.
    fn calls(plan: &'a Plan, items: &[Vec<usize>], random: &mut Random) -> Vec<Call> {
        let start = encode_items(&items[1..items.len().min(8)]);
        let begun = plan.further_paths().zip(read_start(plan, &mut Reader::new(&start)).ok());
        let Some((due, build)) = begun else { return calls(plan, items, random) };
        let (neighbours, before) = (plan.neighbours(), Vec::new());
        let mut entry = Entry { plan, neighbours, start, due, build, before, calls: Vec::new() };
        (0..random.below(3)).for_each(|_| entry.calls.push(random.pick(&[Call::Back, Call::Close]).clone()));
        entry.calls.push(Call::Start(entry.start.clone()));
        // On large plans fewer of them, and not always as far as the start, for time.
        let (often, far) = ((400 / (due + 1)).clamp(3, 40), due < 60 || random.chance(70));
        for item in &items[8.min(items.len())..] {
            entry.offer(encode_numbers(item));
            if random.chance(often) {
                entry.detour(far, random);
            }
        }
        entry.close(far, random);
        entry.calls
    }

    /// One path call; keeps what it does, if it is accepted.
    fn offer(&mut self, part: Vec<u8>) {
        let read = read_bg_path(self.plan, &self.build, &mut Reader::new(&part));
        self.calls.push(Call::Path(part));
        if let Some(path) = read.ok().filter(|_| self.before.len() < self.due) {
            self.before.push((self.build.clone(), path.clone()));
            self.build.take(path);
        }
    }

    /// One taking back; the path, where there was one.
    fn back(&mut self) -> Option<Vec<usize>> {
        self.calls.push(Call::Back);
        let (build, path) = self.before.pop()?;
        self.build = build;
        Some(path)
    }

    /// Some paths are taken back, perhaps all and once more; others are tried in their stead; then all is as it was.
    fn detour(&mut self, far: bool, random: &mut Random) {
        let deep = match random.below(12) {
            0 if far => self.before.len() + random.within(1, 2),
            1..=3 => random.within(3, 12.max(self.before.len() / 3)),
            4..=6 => 2,
            _ => 1,
        };
        let mut again = Vec::new();
        for _ in 0..deep {
            again.extend(self.back());
            if !again.is_empty() && random.chance(8) {
                self.refused(&again, random);
            }
        }
        if !again.is_empty() {
            self.others(&again, random);
        }
        for path in again.iter().rev() {
            self.offer(part_of(path));
        }
    }

    /// Paths that are not those of the certificate, and refused ones; then those that were taken are taken back.
    fn others(&mut self, again: &[Vec<usize>], random: &mut Random) {
        let kept = self.before.len();
        if again.len() > 1 && random.chance(40) {
            self.sooner(&again[0], random);
        }
        let mut left = random.below(9);
        while left > 0 || self.before.len() > kept {
            match random.below(8) {
                0..=3 if left > 0 || random.chance(30) => {
                    let other = self.other(again, random);
                    self.offer(part_of(&other));
                }
                4 if left > 0 => self.offer(part_of(&random.pick(again).clone())),
                5 if left > 0 => self.refused(again, random),
                _ if self.before.len() > kept => drop(self.back()),
                _ => {}
            }
            left = left.saturating_sub(1);
        }
    }

    /// The last of several paths that were taken back comes first, and then edges at its ends, which are branch vertices by now; the first
    /// of these has the number in the build that the path had, and is taken back.
    fn sooner(&mut self, path: &[usize], random: &mut Random) {
        self.offer(part_of(path));
        for turn in 0..random.within(2, 4) {
            let (first, last) = (path[0], path[path.len() - 1]);
            let edge = match random.chance(50) {
                true => [first, *random.pick(&self.neighbours[first])],
                false => [*random.pick(&self.neighbours[last]), last],
            };
            let count = self.before.len();
            self.offer(part_of(&edge));
            if turn == 0 && self.before.len() > count {
                self.back();
            }
        }
    }

    /// A path that may be taken: along an edge at a path that was taken back, or at the last one that is in; from inside a long link,
    /// mostly from next to its end; from anywhere.
    fn other(&self, again: &[Vec<usize>], random: &mut Random) -> Vec<usize> {
        let last = self.before.last().map(|(_, path)| path).filter(|_| random.chance(40));
        let near = last.unwrap_or(random.pick(again));
        let at = *random.pick(near);
        let mut edge = vec![at, *random.pick(&self.neighbours[at])];
        if random.chance(50) {
            edge.reverse();
        }
        let path = match random.below(8) {
            0..=3 => None,
            4..=6 => self.from_a_link(random),
            _ => any_bg_path(&self.neighbours, &self.build, random),
        };
        path.unwrap_or(edge)
    }

    /// A path from inside a long link to a vertex of the build that is not on it, or seldom to one that is; half of the times to one
    /// inside another link.
    fn from_a_link(&self, random: &mut Random) -> Option<Vec<usize>> {
        let long: Vec<&Vec<usize>> = self.build.links.iter().filter(|link| link.len() > 2).collect();
        if long.is_empty() {
            return None;
        }
        let link = *random.pick(&long);
        let (inner_ends, same_link) = (random.chance(50), random.chance(15));
        let from = match random.below(3) {
            0 => link[1],
            1 => link[link.len() - 2],
            _ => *random.pick(inner(link)),
        };
        let goes = |v: usize| self.build.inside[v] && v != from && same_link == link.contains(&v);
        let goal: Vec<bool> = (0..self.plan.n).map(|v| goes(v) && !(inner_ends && self.build.branch[v])).collect();
        let removed: Vec<bool> = (0..self.plan.n).map(|v| self.build.inside[v] && !goal[v]).collect();
        search(&self.neighbours, &[from], &goal, &removed, random).ok()
    }

    /// A call that is refused, or nearly always.
    fn refused(&mut self, again: &[Vec<usize>], random: &mut Random) {
        let link = random.pick(&self.build.links).clone();
        let path = random.pick(again).clone();
        match random.below(10) {
            0 => self.calls.push(Call::Start(self.start.clone())),
            1 => self.calls.push(Call::Close),
            2 => self.offer(damaged_bytes(part_of(&path), random)),
            3 => self.offer(damaged_numbers(&[&[path.len()], &path[..]].concat(), self.plan.n, random)),
            // A link once more, whole or in part.
            4 => self.offer(part_of(&link)),
            5 => self.offer(part_of(&link[..random.within(2, link.len())])),
            6 => self.offer(part_of(&[path, vec![link[0]]].concat())),
            7 => self.offer(part_of(&path[..path.len() - 1])),
            8 => self.offer(foreign_numbers(&[&[path.len()], &path[..]].concat(), random).bytes),
            _ => self.offer(encode_numbers(&random_walk(self.plan, random))),
        }
    }

    /// Closing, and what may follow it: one or all paths taken back, calls out of turn, the same paths again or others.
    fn close(&mut self, far: bool, random: &mut Random) {
        for _ in 0..random.within(1, 3) {
            self.calls.push(Call::Close);
            let deep = if far && random.chance(35) { self.before.len() + 2 } else { random.within(1, 3) };
            let again: Vec<Vec<usize>> = (0..deep).filter_map(|_| self.back()).collect();
            if again.is_empty() {
                continue;
            }
            (0..random.below(3)).for_each(|_| self.refused(&again, random));
            let other = random.chance(30);
            for path in again.iter().rev().take(60) {
                let path = if other { self.other(&again, random) } else { path.clone() };
                self.offer(part_of(&path));
            }
        }
        self.calls.push(Call::Close);
    }
}

/// A plan made around its build: one or two long links in the start, each opened by paths from inside it, some of these long and opened
/// in their turn; the other edges join any vertices.
fn long_links(random: &mut Random) -> (Plan, Certificate) {
    let n = match random.below(8) {
        0 => random.within(20, 60),
        1 if random.chance(30) => random.within(61, MOST_VERTICES),
        2..=4 => random.within(8, 20),
        _ => random.within(5, 8),
    };
    let mut vertices: Vec<usize> = (0..n).collect();
    random.shuffle(&mut vertices);
    vertices[..4].sort();
    let (four, others) = vertices.split_at(4);
    let (inside, outside) = others.split_at(if random.chance(60) { random.within(1, n - 4) } else { n - 4 });
    let mut links: Vec<Vec<usize>> = [(0, 1), (0, 2), (0, 3), (1, 2), (1, 3), (2, 3)].map(|(i, j)| vec![four[i], four[j]]).to_vec();
    let at = random.within(0, inside.len());
    let (first, second) = (random.below(6), random.below(6));
    links[first].splice(1..1, inside[at..].iter().copied());
    links[second].splice(1..1, inside[..at].iter().copied());
    let paths = openings(four, &links, inside, outside, random);
    let steps = links.iter().chain(&paths).flat_map(|path| path.windows(2)).map(|pair| (pair[0], pair[1]));
    let needed = Plan::new(n, steps);
    let more = random.below((MOST_EDGES - needed.edges.len()).min(n) + 1);
    let plan = Plan::new(n, needed.edges.iter().copied().chain(random_edges(n, more, random)));
    let left = plan.edges.iter().filter(|edge| !needed.adjacent(edge.0, edge.1)).map(|&(a, b)| vec![a, b]);
    let paths = links.into_iter().chain(paths).chain(left).collect();
    let certificate = Certificate::Build { four: [four[0], four[1], four[2], four[3]], paths };
    (if random.chance(30) { doubled(&plan, random) } else { plan }, certificate)
}

/// From each vertex inside a link to one of the four that is not on it, the vertices outside on the way; and from each of these to
/// another of the four, some time after it has come in.
fn openings(four: &[usize], links: &[Vec<usize>], inside: &[usize], mut outside: &[usize], random: &mut Random) -> Vec<Vec<usize>> {
    let mut paths: Vec<(usize, Vec<usize>)> = Vec::new();
    for (index, &v) in inside.iter().enumerate() {
        let link = links.iter().find(|link| link.contains(&v)).expect("its link");
        let apart: Vec<usize> = four.iter().copied().filter(|v| !link.contains(v)).collect();
        let (turn, to) = (random.below(1000), *random.pick(&apart));
        // The last takes all that are left.
        let count = if index + 1 == inside.len() { outside.len() } else { random.below(outside.len() + 1) };
        let (way, rest) = outside.split_at(count);
        paths.push((turn, [&[v], way, &[to]].concat()));
        for &w in way {
            let others: Vec<usize> = four.iter().copied().filter(|&v| v != to).collect();
            paths.push((random.within(turn, 1000), vec![w, *random.pick(&others)]));
        }
        outside = rest;
    }
    paths.sort_by_key(|(turn, _)| *turn);
    paths.into_iter().map(|(_, path)| path).collect()
}

// ---------------------------------------------------------------- plans

fn vertex_count(random: &mut Random) -> usize {
    match random.below(100) {
        0..=49 => random.within(4, 7),
        50..=79 => random.within(8, 14),
        80..=94 => random.within(15, 40),
        95..=98 => random.within(41, 127),
        _ => 128,
    }
}

/// One plan in three has doubles.
pub fn any_plan(random: &mut Random) -> Plan {
    match random.below(24) {
        0 => at_the_bound(random),
        1..=7 => doubled(&simple_plan(random), random),
        _ => simple_plan(random),
    }
}

/// A plan of one of the families, numbered at random, sometimes with a few edges changed.
fn simple_plan(random: &mut Random) -> Plan {
    let n = vertex_count(random);
    let (n, mut edges) = family(random.below(16), n, random);
    if random.chance(25) {
        for _ in 0..random.within(1, 3) {
            if random.chance(50) || edges.is_empty() {
                edges.push(random_edge(n, random));
            } else {
                edges.swap_remove(random.below(edges.len()));
            }
        }
    }
    numbered(n, &edges, random)
}

/// A plan with more than 6 vertices, one family after the other: 16 of `family` and four more. One in three has doubles.
pub fn larger_plan(turn: usize, random: &mut Random) -> Plan {
    let n = match random.below(4) {
        0 => random.within(7, 16),
        1 => random.within(17, 64),
        2 => random.within(65, 127),
        _ => MOST_VERTICES,
    };
    let (n, edges) = match turn % 20 {
        16 => (n, three_tree(n, random)),
        // Disconnected, or with a vertex or two planted that separate.
        17..=19 => (n, two_pieces(n, turn % 20 - 17, random)),
        which => family(which, n, random),
    };
    let plan = numbered(n, &edges, random);
    if random.below(3) == 0 {
        doubled(&plan, random)
    } else {
        plan
    }
}

/// Plans of every grade on n vertices, each as it is, numbered at random, and with doubles. A ring has a certificate whose first ear
/// goes through all vertices.
pub fn at_the_limit(n: usize, random: &mut Random) -> Vec<Plan> {
    let (ring, shorter) = (cycle(n), cycle(n - 1));
    let chord = [ring.clone(), vec![(0, n / 2)]].concat();
    let pendant = [shorter.clone(), vec![(0, n - 1)]].concat();
    let wheel = [shorter.clone(), (0..n - 1).map(|v| (v, n - 1)).collect()].concat();
    let strip = (1..5).flat_map(|by| (0..n).map(move |v| (v, (v + by) % n))).collect();
    let mut plans = Vec::new();
    for edges in [Vec::new(), shorter, ring[1..].to_vec(), pendant, ring, chord, wheel, strip] {
        let other = numbered(n, &edges, random);
        plans.extend([Plan::new(n, edges), doubled(&other, random), other]);
    }
    plans
}

/// The plan, mostly numbered at random, each edge once; edges beyond the limit are left out.
fn numbered(n: usize, edges: &[(usize, usize)], random: &mut Random) -> Plan {
    let mut labels: Vec<usize> = (0..n).collect();
    if random.chance(80) {
        random.shuffle(&mut labels);
    }
    let mut plan = Plan::new(n, edges.iter().map(|&(a, b)| (labels[a], labels[b])));
    while plan.edges.len() > MOST_EDGES {
        plan.edges.remove(random.below(plan.edges.len()));
    }
    plan
}

/// The plan with at least one double and no more edges than there may be. A plan that has no edge, or no room, has one more or fewer.
pub fn doubled(plan: &Plan, random: &mut Random) -> Plan {
    let mut edges = plan.edges.clone();
    if edges.is_empty() {
        edges.push(random_edge(plan.n, random));
    }
    if edges.len() == MOST_EDGES {
        edges.remove(random.below(MOST_EDGES));
    }
    let (room, last) = (MOST_EDGES - edges.len(), edges.len() - 1);
    let any = random.below(edges.len());
    let again: Vec<usize> = match random.below(8) {
        0 => vec![any],
        1 => vec![0],
        2 => vec![last],
        3 => vec![0, last],
        // Triples, and more.
        4 => vec![any; random.within(2, 5)],
        5 => (0..=last).filter(|&i| i == any || random.chance(40)).collect(),
        6 => (0..=last).collect(),
        // As many as there may be.
        _ => (0..room).map(|_| random.below(edges.len())).collect(),
    };
    let again: Vec<(usize, usize)> = again.into_iter().take(room).map(|i| edges[i]).collect();
    Plan::with_doubles(plan.n, edges.into_iter().chain(again))
}

/// With doubles n+2 edges or more, but n+1 or n+2 pairs: four vertices with every edge, the others put inside edges, at times one edge
/// fewer.
fn at_the_bound(random: &mut Random) -> Plan {
    let n = vertex_count(random);
    let mut edges = complete(4);
    for v in 4..n {
        let (a, b) = edges.swap_remove(random.below(edges.len()));
        edges.extend([(a, v), (v, b)]);
    }
    if random.chance(50) {
        edges.swap_remove(random.below(edges.len()));
    }
    doubled(&numbered(n, &edges, random), random)
}

/// Whether a plan with doubles is an example of each of these; a plan without doubles is of none.
pub fn shapes(plan: &Plan) -> [(&'static str, bool); 7] {
    let times: Vec<usize> = plan.edges.chunk_by(|a, b| a == b).map(|same| same.len()).collect();
    let (n, m, d) = (plan.n, plan.edges.len(), times.len());
    let shapes = [
        ("first edge doubled", times.first() > Some(&1)),
        ("last edge doubled", times.last() > Some(&1)),
        ("an edge three times or more", times.iter().any(|&times| times > 2)),
        ("every edge doubled", times.iter().all(|&times| times > 1)),
        ("512 edges, fewer pairs", m == MOST_EDGES),
        ("n+1 pairs, more edges", d == n + 1),
        ("n+2 pairs, more edges", d == n + 2),
    ];
    shapes.map(|(name, holds)| (name, holds && m > d))
}

/// How many plans on 4, 5, 6 and 7 vertices have the figures 0, 1, 2 and 3.
pub const FIGURES: [[usize; 4]; 4] =
    [[26, 28, 9, 1], [296, 490, 212, 26], [6064, 15336, 9600, 1768], [230896, 851368, 789792, 225096]];

/// Every plan on n vertices.
pub fn every_plan(n: usize) -> impl Iterator<Item = Plan> {
    let pairs = complete(n);
    (0..1u32 << pairs.len()).map(move |set| Plan::new(n, (0..pairs.len()).filter(|i| set >> i & 1 == 1).map(|i| pairs[i])))
}

pub fn random_edge(n: usize, random: &mut Random) -> (usize, usize) {
    let a = random.below(n);
    (a, (a + random.within(1, n - 1)) % n)
}

fn random_edges(n: usize, count: usize, random: &mut Random) -> Vec<(usize, usize)> {
    (0..count).map(|_| random_edge(n, random)).collect()
}

fn random_tree(n: usize, random: &mut Random) -> Vec<(usize, usize)> {
    let near = random.chance(50);
    (1..n).map(|v| (if near { v - 1 - random.below(v.min(3)) } else { random.below(v) }, v)).collect()
}

pub fn cycle(n: usize) -> Vec<(usize, usize)> {
    (0..n).map(|v| (v, (v + 1) % n)).collect()
}

fn complete(n: usize) -> Vec<(usize, usize)> {
    (0..n).flat_map(|b| (0..b).map(move |a| (a, b))).collect()
}

fn family(which: usize, n: usize, random: &mut Random) -> (usize, Vec<(usize, usize)>) {
    let pairs = n * (n - 1) / 2;
    match which {
        // Random, from empty to full.
        0 => (n, random_edges(n, random.within(0, pairs.min(MOST_EDGES)), random)),
        // Sparse: about as many edges as vertices.
        1 => (n, random_edges(n, random.within(n / 2, 2 * n), random)),
        // A tree with a few more edges.
        2 => (n, [random_tree(n, random), random_edges(n, random.below(4), random)].concat()),
        // A Hamilton cycle with chords: about cubic, then denser.
        3 => (n, [cycle(n), random_matching(n, random)].concat()),
        4 => (n, [cycle(n), random_matching(n, random), random_edges(n, random.below(n), random)].concat()),
        5 => (n, [cycle(n), random_edges(n, random.below(n), random)].concat()),
        // A wheel.
        6 => (n, [cycle(n - 1), (0..n - 1).map(|v| (v, n - 1)).collect()].concat()),
        // A prism, at times twisted.
        7 => prism((n / 2).max(3), random.chance(30)),
        8 => grid(n, random),
        9 => (n.min(33), complete(n.min(33))),
        10 => bipartite(n, random),
        // Planted: two or more dense pieces that share 0, 1, 2 or 3 vertices.
        11..=13 => pieces(n, random),
        // Half of the pairs or more.
        14 => (n.min(40), complete(n.min(40)).into_iter().filter(|_| random.chance(70)).collect()),
        // At the limits.
        _ => match random.below(12) {
            0 => (MOST_VERTICES, [cycle(128), random_edges(128, 600, random)].concat()),
            4 => (MOST_VERTICES, [cycle(128), random_edges(128, random.below(4), random)].concat()),
            1 => (33, complete(33)),
            2 => (MOST_VERTICES, random_tree(128, random)),
            3 => (MOST_VERTICES, Vec::new()),
            _ => (n, random_edges(n, pairs.min(MOST_EDGES) * 3, random)),
        },
    }
}

pub fn random_matching(n: usize, random: &mut Random) -> Vec<(usize, usize)> {
    let mut order: Vec<usize> = (0..n).collect();
    random.shuffle(&mut order);
    order.chunks(2).filter(|pair| pair.len() == 2).map(|pair| (pair[0], pair[1])).collect()
}

pub fn prism(half: usize, twisted: bool) -> (usize, Vec<(usize, usize)>) {
    let mut edges = Vec::new();
    for v in 0..half {
        let next = (v + 1) % half;
        let (top, bottom) = if twisted && next == 0 { (half, 0) } else { (next, half + next) };
        edges.extend([(v, half + v), (v, top), (half + v, bottom)]);
    }
    (2 * half, edges)
}

fn grid(n: usize, random: &mut Random) -> (usize, Vec<(usize, usize)>) {
    let width = random.within(2, 8.min(n / 2));
    let height = n / width;
    let around = random.chance(50);
    let mut edges = Vec::new();
    for y in 0..height {
        for x in 0..width {
            if x + 1 < width || around && width > 2 {
                edges.push((y * width + x, y * width + (x + 1) % width));
            }
            if y + 1 < height || around && height > 2 && random.chance(80) {
                edges.push((y * width + x, (y + 1) % height * width + x));
            }
        }
    }
    (width * height, edges)
}

fn bipartite(n: usize, random: &mut Random) -> (usize, Vec<(usize, usize)>) {
    let left = random.within(1, 4.min(n - 1));
    (n, (0..left).flat_map(|a| (left..n).map(move |b| (a, b))).collect())
}

/// A chain of dense pieces, each sharing a few vertices with what came before.
fn pieces(n: usize, random: &mut Random) -> (usize, Vec<(usize, usize)>) {
    let mut edges = Vec::new();
    let mut made = 0;
    while made < n {
        let size = random.within(1, n - made);
        let shared = if made == 0 { 0 } else { random.below(4).min(made) };
        let mut members: Vec<usize> = (0..made).collect();
        random.shuffle(&mut members);
        members.truncate(shared);
        members.extend(made..made + size);
        let percent = if size > 20 { 10 } else { random.within(60, 100) };
        for (a, b) in complete(members.len()) {
            if b == a + 1 || random.chance(percent) {
                edges.push((members[a], members[b]));
            }
        }
        made += size;
    }
    (n, edges)
}

/// Four vertices with every edge, then each vertex joined to three that are joined to each other.
fn three_tree(n: usize, random: &mut Random) -> Vec<(usize, usize)> {
    let mut edges = complete(4);
    let mut triangles = vec![[0, 1, 2], [0, 1, 3], [0, 2, 3], [1, 2, 3]];
    for v in 4..n {
        let [a, b, c] = *random.pick(&triangles);
        edges.extend([(a, v), (b, v), (c, v)]);
        triangles.extend([[a, b, v], [a, c, v], [b, c, v]]);
    }
    edges
}

/// Two pieces with the vertices below `shared` in common, each a cycle and random edges.
fn two_pieces(n: usize, shared: usize, random: &mut Random) -> Vec<(usize, usize)> {
    let first = random.within(shared + 2, n - 2);
    let mut edges = Vec::new();
    for piece in [(0..first).collect::<Vec<usize>>(), (0..shared).chain(first..n).collect()] {
        let within = [cycle(piece.len()), random_edges(piece.len(), random.below(4 * piece.len()), random)].concat();
        edges.extend(within.iter().map(|&(a, b)| (piece[a], piece[b])));
    }
    edges
}

// ---------------------------------------------------------------- damage to bytes and numbers

fn boundary(n: usize, random: &mut Random) -> usize {
    *random.pick(&[0, 1, 2, 3, 4, n - 2, n - 1, n, n + 1, 127, 128, 129, 255, 256, 511, 512, 513, 16383])
}

fn damaged_bytes(mut bytes: Vec<u8>, random: &mut Random) -> Vec<u8> {
    let at = random.below(bytes.len() + 1);
    let byte = if random.chance(50) { random.below(8) as u8 } else { random.next() as u8 };
    match random.below(7) {
        0 if at < bytes.len() => bytes[at] = byte,
        1 => bytes.insert(at, byte),
        2 if at < bytes.len() => drop(bytes.remove(at)),
        3 => bytes.truncate(at),
        4 => (0..random.within(1, 3)).for_each(|_| bytes.push(byte)),
        5 => {
            // The first byte of two, and no second.
            bytes.truncate(at);
            bytes.push(byte | 128);
        }
        _ => {
            let copy = bytes[at..(at + random.within(1, 4)).min(bytes.len())].to_vec();
            bytes.splice(at..at, copy);
        }
    }
    bytes
}

/// Damage to one, two or three numbers of a record, padded and over-long forms among it.
fn damaged_numbers(numbers: &[usize], n: usize, random: &mut Random) -> Vec<u8> {
    let mut forms: Vec<Vec<u8>> = numbers.iter().map(|&value| encode_number(value)).collect();
    for _ in 0..*random.pick(&[1, 1, 1, 2, 3]) {
        // Half of the damage near the front, where the counts are.
        let limit = if random.chance(50) { forms.len().min(12) } else { forms.len() };
        let at = random.below(limit.max(1));
        if at >= forms.len() {
            return encode_number(boundary(n, random));
        }
        let first = forms[at][0];
        match random.below(10) {
            0 => forms[at] = vec![first | 128, 0],
            1 => forms[at] = vec![first | 128, random.within(128, 255) as u8, random.below(3) as u8],
            2 => {
                let other = random.below(forms.len());
                forms.swap(at, other);
            }
            3 => drop(forms.remove(at)),
            4 => forms.insert(at, encode_number(random.below(n))),
            5 => forms.insert(at, forms[at].clone()),
            6 | 7 => forms[at] = encode_number(random.below(n)),
            _ => forms[at] = encode_number(boundary(n, random)),
        }
    }
    forms.concat()
}

/// A record with damaged numbers.
pub struct Foreign {
    pub bytes: Vec<u8>,
    /// The first that is damaged: which number of the record it is, and its refusal where reading comes to it.
    pub first: Option<(usize, Fault)>,
}

/// Damaged numbers in a tenth of all places or, since the first of them decides, in one place, any alike. After a damaged number the
/// record may end.
pub fn foreign_numbers(numbers: &[usize], random: &mut Random) -> Foreign {
    let only = random.chance(50).then(|| random.below(numbers.len().max(1)));
    let mut record = Foreign { bytes: Vec::new(), first: None };
    for (at, &value) in numbers.iter().enumerate() {
        if only.map_or_else(|| random.below(10) > 0, |only| only != at) {
            record.bytes.extend(encode_number(value));
            continue;
        }
        let place = record.bytes.len();
        let (form, number) = foreign_number(value, random);
        record.bytes.extend(form);
        let fault = (number, if number == 1 { record.bytes.len() } else { place });
        record.first = record.first.or(Some((at, fault)));
        if number == 1 || random.chance(30) {
            break;
        }
    }
    record
}

/// A number that can't be read, and its refusal: 1 where the record ends behind its first byte, 2 where it is padded, 33 where it is too
/// long.
fn foreign_number(value: usize, random: &mut Random) -> (Vec<u8>, u8) {
    let [any, more] = [(); 2].map(|_| random.within(128, 255) as u8);
    let own = encode_number(value)[0] | 128;
    let first = *random.pick(&[own, own, own, own, own, own, 255, any]);
    match random.below(8) {
        0 | 1 => (vec![first], 1),
        2..=4 => (vec![first, 0], 2),
        5 => (vec![first, more, random.below(3) as u8], 33),
        _ => (vec![first, *random.pick(&[128, 255, more])], 33),
    }
}

fn damaged_plan(plan: &Plan, random: &mut Random) -> Vec<u8> {
    let n = plan.n;
    let mut edges = plan.edges.clone();
    match random.below(17) {
        0..=3 => return damaged_bytes(encode_plan(plan), random),
        4..=7 => return damaged_numbers(&plan_numbers(n, &edges), n, random),
        15 | 16 => return foreign_numbers(&plan_numbers(n, &edges), random).bytes,
        14 => return damaged_bytes(damaged_numbers(&plan_numbers(n, &edges), n, random), random),
        8 if edges.len() > 1 => {
            let (i, j) = (random.below(edges.len()), random.below(edges.len()));
            edges.swap(i, j);
        }
        9 if !edges.is_empty() => {
            // Once more, mostly where it does not belong.
            let (from, to) = (random.below(edges.len()), random.below(edges.len() + 1));
            edges.insert(to, edges[from]);
        }
        10 if !edges.is_empty() => {
            let at = random.below(edges.len());
            edges[at] = (edges[at].1, edges[at].0);
        }
        11 => {
            // At the limit or a few edges above it, all of them in order.
            let many = random.within(MOST_EDGES, MOST_EDGES + 8);
            let mut edges = complete(128)[..many].to_vec();
            if random.chance(50) {
                // The same with doubles.
                (0..many).for_each(|i| edges[i] = edges[random.below(i + 1)]);
            }
            edges.sort();
            return encode_edges(128, &edges);
        }
        // Too few or too many vertices; isolated vertices are no fault.
        12 => {
            return encode_edges(*random.pick(&[0, 1, 2, 3, 128, 129, 130, 256, 16383]), &edges);
        }
        _ => edges.push(random_edge(n + 1, random)),
    }
    encode_edges(n, &edges)
}

/// A kind and then mostly small numbers.
fn small_bytes(n: usize, random: &mut Random) -> Vec<u8> {
    let mut bytes = vec![random.below(5) as u8];
    for _ in 0..random.below(30) {
        bytes.push(if random.chance(97) { random.below(n) as u8 } else { random.next() as u8 });
    }
    bytes
}

// ---------------------------------------------------------------- damage to items

/// Two to six vertices along edges, as a path is written.
fn random_walk(plan: &Plan, random: &mut Random) -> Vec<usize> {
    let neighbours = plan.neighbours();
    let mut walk = vec![random.below(plan.n)];
    let length = random.within(2, 6.min(plan.n));
    while walk.len() < length {
        let near = &neighbours[walk[walk.len() - 1]];
        let ahead: Vec<usize> = near.iter().copied().filter(|v| !walk.contains(v) || random.chance(10)).collect();
        if ahead.is_empty() {
            break;
        }
        walk.push(*random.pick(&ahead));
    }
    walk.insert(0, walk.len());
    walk
}

/// Faults that keep the record's form: paths turned, moved, doubled, left out, lengthened, cut, closed; sides changed.
fn damaged_items(mut items: Vec<Vec<usize>>, plan: &Plan, random: &mut Random) -> Vec<Vec<usize>> {
    if items.len() < 2 {
        return vec![random_walk(plan, random)];
    }
    let at = random.within(1, items.len() - 1);
    let other = random.within(1, items.len() - 1);
    let last = items[at].len() - 1;
    match random.below(18) {
        0 => items[at][1..].reverse(),
        1 => items.swap(at, other),
        2 => items.insert(other, items[at].clone()),
        3 => left_out(&mut items, at),
        4 => items[at] = random_walk(plan, random),
        5 => items.insert(at, random_walk(plan, random)),
        6 if last > 2 => shortened(&mut items[at]),
        7 => lengthened(&mut items[at], plan, random),
        8 if last > 1 => items[at][last] = items[at][1],
        9 | 10 => changed_side(&mut items, plan.n, random),
        11 | 12 => offered(&mut items, plan, random),
        13 => {
            let item = items.remove(at);
            items.insert(other, item);
        }
        14 => closed(&mut items[at], plan),
        15 | 16 => {
            let long: Vec<usize> = (1..items.len()).filter(|&i| items[i].len() > 3).collect();
            turned_back(&mut items[if long.is_empty() { at } else { *random.pick(&long) }], plan, random);
        }
        _ => {
            let place = random.below(items[at].len());
            items[at][place] = random.below(plan.n);
        }
    }
    items
}

/// Kind 3 as if each edge counted: a path for every edge that is there again, in the midst of the further paths or behind them.
fn each_edge(mut items: Vec<Vec<usize>>, plan: &Plan, random: &mut Random) -> Vec<Vec<usize>> {
    if items[0] != [3] {
        return items;
    }
    let behind = random.chance(50);
    for edges in plan.edges.windows(2).filter(|edges| edges[0] == edges[1]) {
        let at = if behind { items.len() } else { random.within(8, items.len()) };
        items.insert(at, vec![2, edges[0].0, edges[0].1]);
    }
    items
}

/// Leaves an item out; an ear with its count.
fn left_out(items: &mut Vec<Vec<usize>>, at: usize) {
    items.remove(at);
    if items[0] == [2] && at >= 3 && items.len() > 4 {
        items[2][0] -= 1;
    }
}

/// One vertex fewer at the end.
fn shortened(item: &mut Vec<usize>) {
    item.pop();
    item[0] = item.len() - 1;
}

/// One vertex more at the end, a neighbour if there is one.
fn lengthened(item: &mut Vec<usize>, plan: &Plan, random: &mut Random) {
    let from = item[item.len() - 1];
    let near: Vec<usize> = (0..plan.n).filter(|&v| plan.adjacent(v, from)).collect();
    item.push(if near.is_empty() { from } else { *random.pick(&near) });
    item[0] = item.len() - 1;
}

/// Goes on from the last vertex of a path to its first, if they are adjacent: equal ends, every step an edge.
fn closed(item: &mut Vec<usize>, plan: &Plan) {
    let last = item.len() - 1;
    if last > 2 && item[0] == last && plan.adjacent(item[1], item[last]) {
        item.push(item[1]);
        item[0] += 1;
    }
}

/// Within a path one step along an edge and back: a vertex twice, every step an edge.
fn turned_back(item: &mut Vec<usize>, plan: &Plan, random: &mut Random) {
    let at = random.below(item.len());
    let near: Vec<usize> = (0..plan.n).filter(|&v| plan.adjacent(v, item[at])).collect();
    if at > 0 && item[0] == item.len() - 1 && !near.is_empty() {
        let step = if at + 1 < item.len() && random.chance(50) { item[at + 1] } else { *random.pick(&near) };
        item.splice(at + 1..at + 1, [step, item[at]]);
        item[0] += 2;
    }
}

/// Another side for kinds 0 to 2: empty, everything but the removed vertices, the other part, one vertex more or fewer.
fn changed_side(items: &mut [Vec<usize>], n: usize, random: &mut Random) {
    let kind = items[0][0];
    if kind > 2 || items.len() < 2 {
        return;
    }
    let removed = if kind == 0 { vec![] } else { items[1].clone() };
    let index = items.len() - 1;
    let mut side: Vec<usize> = items[index][1..].to_vec();
    match random.below(7) {
        0 => side.clear(),
        1 => side = (0..n).filter(|v| !removed.contains(v)).collect(),
        2 => side = (0..n).filter(|v| !removed.contains(v) && !side.contains(v)).collect(),
        3 => side = (0..n).filter(|v| !side.contains(v)).collect(),
        4 if !side.is_empty() => drop(side.remove(random.below(side.len()))),
        5 => side.push(random.below(n)),
        _ => side = (0..n).collect(),
    }
    if random.chance(90) {
        side.sort();
        side.dedup();
    }
    side.insert(0, side.len());
    items[index] = side;
}

/// Kind 3: in the midst of the paths, one from the build through vertices outside it and back, whether or not one link holds both ends.
fn offered(items: &mut Vec<Vec<usize>>, plan: &Plan, random: &mut Random) {
    if items[0] != [3] || items.len() < 8 || items[1].len() != 4 {
        return;
    }
    let stop = random.within(8, items.len());
    let mut build = Build::new(plan.n, &items[1]);
    for item in &items[2..stop] {
        build.take(item[1..].to_vec());
    }
    let inside: Vec<usize> = (0..plan.n).filter(|&v| build.inside[v]).collect();
    let from = *random.pick(&inside);
    let mut goal = build.inside.clone();
    goal[from] = false;
    if let Ok(mut path) = search(&plan.neighbours(), &[from], &goal, &vec![false; plan.n], random) {
        path.insert(0, path.len());
        if random.chance(50) && stop < items.len() {
            items[stop] = path;
        } else {
            items.insert(stop, path);
        }
    }
}

// ---------------------------------------------------------------- certificates of another kind

/// A certificate of any kind, made as well as the plan lets it; most are refused late.
fn other_kind(plan: &Plan, random: &mut Random) -> Certificate {
    let neighbours = plan.neighbours();
    let mut vertices: Vec<usize> = (0..plan.n).collect();
    random.shuffle(&mut vertices);
    match random.below(4) {
        0 => {
            let mut side = vertices[..random.within(0, plan.n)].to_vec();
            side.sort();
            Certificate::Side { side }
        }
        1 => {
            let (root, mut pairs) = tree(&neighbours, random);
            while pairs.len() + 1 < plan.n {
                pairs.push(*random.pick(&[(vertices[0], vertices[1]), (vertices[1], root)]));
            }
            let side = side_without(&neighbours, &vertices[..1], random);
            Certificate::Tree { removed: vertices[0], root, pairs, side }
        }
        2 => {
            let ears = ears_attempt(&neighbours, random);
            let mut removed = [vertices[0], vertices[1]];
            removed.sort();
            let side = side_without(&neighbours, &removed, random);
            Certificate::Ears { removed, ears, side }
        }
        _ => build_attempt(plan, random),
    }
}

/// Ears as far as they go. Where a cut vertex stops them a closed one, with equal ends, may stand in.
fn ears_attempt(neighbours: &[Vec<usize>], random: &mut Random) -> Vec<Vec<usize>> {
    let n = neighbours.len();
    let mut reached = vec![false; n];
    let mut ears: Vec<Vec<usize>> = Vec::new();
    for _ in 0..3 * n {
        let from = random.below(n);
        if neighbours[from].is_empty() || !ears.is_empty() && !reached[from] || ears.len() == n - 2 {
            continue;
        }
        let step = *random.pick(&neighbours[from]);
        if reached[step] {
            continue;
        }
        let mut goal = if ears.is_empty() { marks(n, &neighbours[from]) } else { reached.clone() };
        goal[from] = false;
        goal[step] = false;
        let mut ear = vec![from];
        match search(neighbours, &[step], &goal, &marks(n, &[from]), random) {
            Ok(path) => ear.extend(path),
            Err(_) if ears.is_empty() => continue,
            Err(_) => {
                let mut goal = marks(n, &neighbours[from]);
                goal[step] = false;
                let Ok(path) = search(neighbours, &[step], &goal, &marks(n, &[from]), random) else { continue };
                ear.extend(path);
                ear.push(from);
            }
        }
        ear.iter().for_each(|&v| reached[v] = true);
        ears.push(ear);
    }
    if ears.is_empty() {
        ears.push(vec![0, 1, 2]);
    }
    ears
}

/// A kind 3 certificate with as many paths as the plan asks for, filled up with walks where no BG-path is found.
fn build_attempt(plan: &Plan, random: &mut Random) -> Certificate {
    let neighbours = plan.neighbours();
    let further = plan.further_paths().unwrap_or(0);
    let two_connected = plan.n <= 24 && connectivity_by_low_points(plan) >= 2;
    let begun = if two_connected { (0..4).find_map(|_| start(&neighbours, random).ok()) } else { None };
    let Some((four, mut paths)) = begun else {
        let walks = (0..6 + further.min(3)).map(|_| random_walk(plan, random)[1..].to_vec());
        return Certificate::Build { four: [0, 1, 2, 3], paths: walks.collect() };
    };
    let mut build = Build::new(plan.n, &four);
    paths.iter().for_each(|path| build.take(path.clone()));
    for _ in 0..further {
        match (0..6).find_map(|_| any_bg_path(&neighbours, &build, random)) {
            Some(path) => {
                build.take(path.clone());
                paths.push(path);
            }
            None => paths.push(random_walk(plan, random)[1..].to_vec()),
        }
    }
    Certificate::Build { four, paths }
}

// ---------------------------------------------------------------- plans altered under a certificate

/// The plan with one edge or vertex more or fewer, or with other doubles, and its old certificate, at times fitted to the change.
fn altered(plan: &Plan, certificate: &Certificate, random: &mut Random) -> (Plan, Vec<Vec<usize>>) {
    let mut items = certificate.items();
    let mut plan = plan.clone();
    let room = plan.n < MOST_VERTICES && plan.edges.len() < MOST_EDGES;
    match random.below(9) {
        0 if !plan.edges.is_empty() => drop(plan.edges.remove(random.below(plan.edges.len()))),
        1 if room => {
            let edge = random_edge(plan.n, random);
            plan = Plan::with_doubles(plan.n, plan.edges.iter().copied().chain([edge]));
        }
        2 | 3 if room && !plan.edges.is_empty() => plan = subdivided(&plan, &mut items, random),
        4 if room => {
            // A new vertex with one edge.
            let new = plan.n;
            let edge = (random.below(new), new);
            plan = Plan::with_doubles(new + 1, plan.edges.iter().copied().chain([edge]));
        }
        5 if plan.n < MOST_VERTICES => {
            // A new vertex without an edge: one path fewer.
            plan.n += 1;
            if items[0] == [3] && items.len() > 8 {
                items.pop();
            }
        }
        6 => plan = plan.simple(),
        7 if room && !plan.edges.is_empty() => plan = doubled(&plan, random),
        _ => {
            // Two vertices that change places.
            let (a, b) = random_edge(plan.n, random);
            let swap = |v: usize| if v == a || v == b { a + b - v } else { v };
            plan = Plan::with_doubles(plan.n, plan.edges.iter().map(|&(c, d)| (swap(c), swap(d))));
        }
    }
    (plan, items)
}

/// A new vertex in the middle of an edge, in the plan and in every path over it.
fn subdivided(plan: &Plan, items: &mut [Vec<usize>], random: &mut Random) -> Plan {
    let mut edges = plan.edges.clone();
    let (a, b) = edges.remove(random.below(edges.len()));
    let new = plan.n;
    for item in items.iter_mut().skip(2).filter(|item| item.len() > 2) {
        let over = (1..item.len() - 1).find(|&i| (item[i], item[i + 1]) == (a, b) || (item[i + 1], item[i]) == (a, b));
        if let Some(i) = over {
            item.insert(i + 1, new);
            item[0] += 1;
        }
    }
    Plan::with_doubles(new + 1, edges.into_iter().chain([(a, new), (b, new)]))
}
