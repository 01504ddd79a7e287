// Plans to be mended, from a seed: one family after the other, of every grade, with doubles, and with their lists close to 512 edges.
use crate::generate::{any_plan, cycle, doubled, random_edge, random_matching};
use crate::mend;
use crate::reference::*;

/// How many families there are; two rounds of them have each family with doubles and without.
const FAMILIES: usize = 12;

/// Most plans are small, one in forty has 128 vertices.
fn vertex_count(random: &mut Random) -> usize {
    match random.below(40) {
        0..=25 => random.within(LEAST_VERTICES, mend::MOST_BY_REMOVAL),
        26..=35 => random.within(11, 24),
        36 | 37 => random.within(25, 60),
        38 => random.within(61, 127),
        _ => MOST_VERTICES,
    }
}

pub fn plan(turn: usize, random: &mut Random) -> Plan {
    let n = vertex_count(random);
    let plan = match turn % FAMILIES {
        0 => Plan::new(n, []),
        1 => Plan::new(n, cycle(n)[1..].to_vec()),
        2 => Plan::new(n, cycle(n)),
        3 => Plan::new(n, tree(n, random)),
        grade @ 4..=7 => of_grade(grade as u8 - 4, n, random),
        8 => dense(n.min(32), random),
        9 => close_with_doubles(n, random),
        10 => close_without_doubles(random),
        _ => any_plan(random),
    };
    match turn / FAMILIES % 2 {
        1 if !matches!(turn % FAMILIES, 9 | 10) => doubled(&plan, random),
        _ => plan,
    }
}

/// Numbered at random or, one time in four, as it is.
fn numbered(n: usize, edges: Vec<(usize, usize)>, random: &mut Random) -> Plan {
    let mut labels: Vec<usize> = (0..n).collect();
    if random.chance(75) {
        random.shuffle(&mut labels);
    }
    Plan::new(n, edges.into_iter().map(|(a, b)| (labels[a], labels[b])))
}

/// A path of any length at times, or a star.
fn tree(n: usize, random: &mut Random) -> Vec<(usize, usize)> {
    let reach = *random.pick(&[1, 3, n]);
    (1..n).map(|v| (v - 1 - random.below(v.min(reach)), v)).collect()
}

/// A random plan with that figure: from what it has at least, with a few edges more, drawn again until it has it.
pub fn of_grade(grade: u8, n: usize, random: &mut Random) -> Plan {
    loop {
        let mut edges = match grade {
            0 => Vec::new(),
            1 => tree(n, random),
            2 => cycle(n),
            _ => [cycle(n), random_matching(n, random)].concat(),
        };
        let more = if grade % 3 == 0 { random.below(n) } else { random.below(n / 4 + 2) };
        edges.extend((0..more).map(|_| random_edge(n, random)));
        let plan = numbered(n, edges, random);
        if connectivity_by_low_points(&plan) == grade {
            return plan;
        }
    }
}

/// Every edge or nearly every one, at times of all vertices but the last few; up to 32 vertices have no more than 496.
fn dense(n: usize, random: &mut Random) -> Plan {
    let (percent, first) = (random.within(50, 100), n - random.below(3));
    numbered(n, clique(first).into_iter().filter(|_| random.chance(percent)).collect(), random)
}

fn clique(n: usize) -> Vec<(usize, usize)> {
    (0..n).flat_map(|b| (0..b).map(move |a| (a, b))).collect()
}

/// Plan and list together two fewer than 512 to two more, by doubles, which the list does not depend on.
fn close_with_doubles(n: usize, random: &mut Random) -> Plan {
    let grade = random.below(4) as u8;
    let plan = of_grade(grade, n, random);
    let room = random.within(MOST_EDGES - 2, MOST_EDGES + 2) - mend::list(&plan).len();
    let again = room.min(MOST_EDGES).saturating_sub(plan.edges.len());
    let pairs = if plan.edges.is_empty() { vec![(0, 1)] } else { plan.edges.clone() };
    let doubles: Vec<(usize, usize)> = (0..again).map(|_| *random.pick(&pairs)).collect();
    Plan::with_doubles(n, plan.edges.into_iter().chain(doubles))
}

/// About as many without doubles: a dense piece, and vertices beside it that have few edges or none.
fn close_without_doubles(random: &mut Random) -> Plan {
    let size = random.within(24, 31);
    let n = size + random.within(8, 60);
    let mut edges = clique(size);
    edges.extend((0..random.below(n)).map(|_| random_edge(n, random)));
    let plan = numbered(n, edges, random);
    let over = (plan.edges.len() + mend::list(&plan).len()).saturating_sub(random.within(MOST_EDGES - 1, MOST_EDGES + 2));
    // Where some are dropped, the list may grow; in the dense piece it mostly does not.
    let mut edges = plan.edges;
    random.shuffle(&mut edges);
    edges.truncate((edges.len() - over).min(MOST_EDGES));
    Plan::new(n, edges)
}
