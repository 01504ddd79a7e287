// The families of graphs that the table goes through.
use crate::generate;
use crate::reference::*;

pub struct Family {
    pub name: &'static str,
    pub grade: u8,
    pub sizes: &'static [usize],
    /// A graph with that many vertices.
    pub make: fn(usize, &mut Random) -> Plan,
    /// Not numbered at random.
    pub in_order: bool,
}

pub const SIZES: [usize; 4] = [16, 32, 64, MOST_VERTICES];

const fn family(name: &'static str, grade: u8, make: fn(usize, &mut Random) -> Plan) -> Family {
    Family { name, grade, sizes: &SIZES, make, in_order: false }
}

pub const FAMILIES: [Family; 8] = [
    family("random 3-connected", 3, dense),
    family("wheel", 3, wheel),
    // The hub is 0, and the others go round the ring.
    Family { in_order: true, ..family("wheel in order", 3, wheel) },
    family("prism", 3, prism),
    family("random cubic", 3, cubic),
    family("planted pair", 2, planted_pair),
    family("3-tree", 3, three_tree),
    // 32 is the last size whose edges, 496, a plan may have and that is a power of two.
    Family { sizes: &[16, 32], ..family("complete graph", 3, complete) },
];

impl Family {
    /// A graph of the family, numbered at random, drawn again until it has that connectivity.
    pub fn drawn(&self, n: usize, random: &mut Random) -> Plan {
        loop {
            let plan = (self.make)(n, random);
            if connectivity_by_low_points(&plan) == self.grade {
                return if self.in_order { plan } else { renumbered(&plan, random) };
            }
        }
    }
}

pub fn renumbered(plan: &Plan, random: &mut Random) -> Plan {
    let mut labels: Vec<usize> = (0..plan.n).collect();
    random.shuffle(&mut labels);
    labelled(plan, &labels)
}

pub fn labelled(plan: &Plan, labels: &[usize]) -> Plan {
    Plan::new(plan.n, plan.edges.iter().map(|&(a, b)| (labels[a], labels[b])))
}

/// A cycle through all vertices, and random edges up to four for each vertex: at 128 as many as a plan may have.
fn dense(n: usize, random: &mut Random) -> Plan {
    filled(Plan::new(n, generate::cycle(n)), 4 * n, random)
}

/// The graph, and random edges up to m.
pub fn filled(mut plan: Plan, m: usize, random: &mut Random) -> Plan {
    while plan.edges.len() < m {
        let edge = generate::random_edge(plan.n, random);
        plan = Plan::new(plan.n, plan.edges.iter().copied().chain([edge]));
    }
    plan
}

fn wheel(n: usize, _: &mut Random) -> Plan {
    Plan::new(n, generate::cycle(n - 1).into_iter().map(|(a, b)| (a + 1, b + 1)).chain((1..n).map(|v| (0, v))))
}

fn prism(n: usize, _: &mut Random) -> Plan {
    let (n, edges) = generate::prism(n / 2, false);
    Plan::new(n, edges)
}

/// A cycle and a perfect matching, drawn again until no edge stands in both.
fn cubic(n: usize, random: &mut Random) -> Plan {
    loop {
        let plan = Plan::new(n, [generate::cycle(n), generate::random_matching(n, random)].concat());
        if 2 * plan.edges.len() == 3 * n {
            return plan;
        }
    }
}

/// Two dense halves with two vertices in common.
fn planted_pair(n: usize, random: &mut Random) -> Plan {
    let half = n / 2;
    let mut edges = Vec::new();
    for piece in [(0..half).collect::<Vec<usize>>(), [0, 1].into_iter().chain(half..n).collect()] {
        let within = filled(Plan::new(piece.len(), generate::cycle(piece.len())), 4 * half - 8, random);
        edges.extend(within.edges.iter().map(|&(a, b)| (piece[a], piece[b])));
    }
    Plan::new(n, edges)
}

/// Four vertices with every edge, then each vertex joined to the three of a triangle that is there.
fn three_tree(n: usize, random: &mut Random) -> Plan {
    let mut edges = complete(4, random).edges;
    let mut triangles = vec![[0, 1, 2], [0, 1, 3], [0, 2, 3], [1, 2, 3]];
    for v in 4..n {
        let [a, b, c] = *random.pick(&triangles);
        edges.extend([(a, v), (b, v), (c, v)]);
        triangles.extend([[a, b, v], [a, c, v], [b, c, v]]);
    }
    Plan::new(n, edges)
}

fn complete(n: usize, _: &mut Random) -> Plan {
    Plan::new(n, (0..n).flat_map(|b| (0..b).map(move |a| (a, b))))
}
