// Climbs for the plan on 128 vertices whose certificate takes longest to make, in searches on the same graph.
use crate::cases::*;
use crate::families::*;
use crate::generate;
use crate::reference::*;
use crate::table;
use crate::timing::*;

/// Changes that are tried where no number is given: about two minutes.
pub const STEPS: u64 = 50_000;
/// Rounds of timings for a changed plan beside the plan before it: it must be slower in the first, in the next few, and in the last.
const ROUNDS: [usize; 3] = [1, 5, 25];
/// The least rise that counts: below it lies the noise.
const RISE: f64 = 1.005;
/// After so many steps their gain is timed again, in so many rounds.
const STRETCH: u64 = 250;
const STRETCH_ROUNDS: usize = 75;
/// Calls in one timing.
const SEARCHES: u32 = 40;
const CALLS: u32 = 1;
/// Where the worst plan's record is left.
const WORST: &str = "target/bench/worst.bin";

#[derive(Clone)]
struct Climber {
    start: String,
    plan: Plan,
    case: Case,
    /// Certify's time when the climbers were ranked.
    searches: f64,
}

pub fn climb(seed: u64, steps: u64) {
    let random = &mut Random::new(seed);
    let mut climbers: Vec<Climber> = starts(random).into_iter().map(Climber::new).collect();
    let shares = (1..).find(|&k| climbers.len() >> k == 0).unwrap_or(1);
    println!("seed {seed}, {steps} steps");
    // All climb for a share of the steps, then the slower half of the plans for as large a share, until one is left.
    for _ in 0..shares {
        let each = steps / shares / climbers.len() as u64;
        climbers.iter_mut().for_each(|climber| climber.climb(each, random));
        rank(&mut climbers);
        println!("{:>3} plans, {each} steps each: {}", climbers.len(), climbers[0].told());
        climbers.truncate((climbers.len() / 2).max(1));
    }
    let worst = &climbers[0];
    std::fs::write(WORST, &worst.case.plan).unwrap_or_else(|error| panic!("{WORST}: {error}"));
    println!("worst of seed {seed}: {}; its record is {WORST}", worst.told());
    table::one("worst found", &worst.plan);
}

/// Each family numbered at random and in order, and strips in order: each vertex joined to the next few.
fn starts(random: &mut Random) -> Vec<(String, Plan)> {
    let n = MOST_VERTICES;
    let mut starts = Vec::new();
    for family in FAMILIES.iter().filter(|family| family.sizes.contains(&n) && !family.in_order) {
        let plan = (family.make)(n, random);
        starts.push((family.name.to_string(), renumbered(&plan, random)));
        starts.push((format!("{} in order", family.name), plan));
    }
    for width in [2, 3] {
        let closed = (1..=width).flat_map(|by| (0..n).map(move |v| (v, v + by)));
        let open = closed.clone().filter(|edge| edge.1 < n);
        starts.push((format!("strip of {width}"), Plan::new(n, open)));
        starts.push((format!("closed strip of {width}"), Plan::new(n, closed.map(|(a, b)| (a, b % n)))));
    }
    starts
}

/// Times all plans in turns, and puts the slowest first.
fn rank(climbers: &mut [Climber]) {
    let cases: Vec<&Case> = climbers.iter().map(|climber| &climber.case).collect();
    let ratios = in_searches(&cases, STRETCH_ROUNDS);
    climbers.iter_mut().zip(ratios).for_each(|(climber, ratios)| climber.searches = median(&ratios));
    climbers.sort_by(|a, b| b.searches.total_cmp(&a.searches));
}

impl Climber {
    fn new((start, plan): (String, Plan)) -> Climber {
        let case = Case::new(&plan, connectivity_by_low_points(&plan), Vec::new());
        Climber { start, plan, case, searches: 0.0 }
    }

    /// Goes back where the plan is not slower at the end of a stretch: among many changes some are kept by chance, and the losses add up.
    fn climb(&mut self, steps: u64, random: &mut Random) {
        for done in (0..steps).step_by(STRETCH as usize) {
            let before = self.clone();
            (done..steps.min(done + STRETCH)).for_each(|_| self.step(random));
            if self.plan != before.plan && rise(&before.case, &self.case, STRETCH_ROUNDS) <= RISE {
                *self = before;
            }
        }
    }

    /// Tries a change, and keeps it where the plan has become slower.
    fn step(&mut self, random: &mut Random) {
        let plan = changed(&self.plan, random);
        let grade = connectivity_by_low_points(&plan);
        if grade == 0 || plan.edges.len() > MOST_EDGES {
            return;
        }
        let case = Case::new(&plan, grade, Vec::new());
        if ROUNDS.iter().all(|&rounds| rise(&self.case, &case, rounds) > RISE) {
            (self.plan, self.case) = (plan, case);
        }
    }

    fn told(&self) -> String {
        format!("{:.0} searches, {} edges, grade {}, from {}", self.searches, self.case.m, self.case.grade, self.start)
    }
}

/// How many times as long the second case takes, in its searches, as the first in its own. The quotients are of neighbouring
/// timings, and their median is taken: on a shared machine the search slows down by more than the certifier, for a while and for both.
fn rise(before: &Case, after: &Case, rounds: usize) -> f64 {
    let ratios = in_searches(&[before, after], rounds);
    median(&over(&ratios[1], &ratios[0]))
}

/// Certify's times in searches, those of each case in a list; round after round, all cases in turns.
fn in_searches(cases: &[&Case], rounds: usize) -> Vec<Vec<f64>> {
    let mut lists = vec![Vec::new(); cases.len()];
    for _ in 0..rounds {
        for (case, list) in cases.iter().zip(&mut lists) {
            let search = case.time_search(SEARCHES);
            list.push(case.time_certify(NEW, CALLS) / search);
        }
    }
    lists
}

/// A large change, or up to four small ones of edges or of the numbering.
fn changed(plan: &Plan, random: &mut Random) -> Plan {
    if random.chance(20) {
        return woven(plan, random);
    }
    (0..random.within(1, 4)).fold(plan.clone(), |plan, _| match random.below(6) {
        0 => joined(&plan, random),
        1 => parted(&plan, random),
        2 => joined(&parted(&plan, random), random),
        _ => moved(&plan, random),
    })
}

/// Some vertices in a row lose their edges to lower ones; instead each is joined to three: one that is fixed, or one so far below it.
fn woven(plan: &Plan, random: &mut Random) -> Plan {
    let first = random.within(4, plan.n - 2);
    let last = random.within(first, plan.n - 1);
    let kept = plan.edges.iter().copied().filter(|edge| !(first..=last).contains(&edge.1));
    let mut edges: Vec<(usize, usize)> = kept.collect();
    for _ in 0..3 {
        let far = random.within(1, 4);
        let fixed = random.chance(30).then(|| random.below(first));
        edges.extend((first..=last).map(|v| (fixed.unwrap_or(v - far), v)));
    }
    Plan::new(plan.n, edges)
}

fn parted(plan: &Plan, random: &mut Random) -> Plan {
    let mut plan = plan.clone();
    plan.edges.remove(random.below(plan.edges.len()));
    plan
}

/// One edge more: anywhere, or to a neighbour's neighbour, which leaves long ways long.
fn joined(plan: &Plan, random: &mut Random) -> Plan {
    let (a, mut b) = generate::random_edge(plan.n, random);
    if random.chance(50) {
        let lists = plan.neighbours();
        b = (0..2).fold(a, |at, _| if lists[at].is_empty() { at } else { *random.pick(&lists[at]) });
    }
    Plan::new(plan.n, plan.edges.iter().copied().chain((a != b).then_some((a, b))))
}

/// Other numbers: two are exchanged, or some in a row are turned round, or the last of them goes before the others.
fn moved(plan: &Plan, random: &mut Random) -> Plan {
    let mut labels: Vec<usize> = (0..plan.n).collect();
    let (a, b) = generate::random_edge(plan.n, random);
    let row = &mut labels[a.min(b)..=a.max(b)];
    match random.below(3) {
        0 => row.swap(0, row.len() - 1),
        1 => row.reverse(),
        _ => row.rotate_right(1),
    }
    labelled(plan, &labels)
}
