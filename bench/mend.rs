// What mending a plan of 128 boxes takes, in the new library alone.
#[cfg(mend)]
pub use rows::rows;

#[cfg(not(mend))]
pub fn rows() {}

#[cfg(mend)]
mod rows {
    use crate::families::{filled, Family};
    use crate::generate::{cycle, random_edge};
    use crate::mending;
    use crate::reference::*;
    use crate::timing::*;
    use crate::{GRAPHS, SEED};

    extern "C" {
        fn fikzarn_certify(plan: *const u8, plan_len: usize, out: *mut u8, out_len: usize) -> u64;
        fn fikzarn_mend(
            plan: *const u8,
            plan_len: usize,
            list: *mut u8,
            list_len: usize,
            mended: *mut u8,
            mended_len: usize,
            certificate: *mut u8,
            certificate_len: usize,
        ) -> u64;
    }

    /// Timings of each plan, one call each.
    const TIMINGS: usize = 25;
    /// What request 6's landing allows for a call.
    const MOST: f64 = 1000.0;
    /// Each buffer has room for the longest of the records.
    const SPACE: usize = 1536;

    const fn family(name: &'static str, grade: u8, make: fn(usize, &mut Random) -> Plan) -> Family {
        Family { name, grade, sizes: &[MOST_VERTICES], make, in_order: false }
    }

    const FAMILIES: [Family; 16] = [
        family("empty", 0, |n, _| Plan::new(n, [])),
        Family { in_order: true, ..family("path in order", 1, path) },
        family("path", 1, path),
        Family { in_order: true, ..family("cycle in order", 2, ring) },
        family("cycle", 2, ring),
        family("tree", 1, tree),
        Family { in_order: true, ..family("star in order", 1, star) },
        family("star", 1, star),
        family("random", 0, |n, random| filled(Plan::new(n, []), n, random)),
        family("random", 1, |n, random| filled(tree(n, random), 3 * n / 2, random)),
        family("random", 2, |n, random| filled(ring(n, random), 3 * n / 2, random)),
        family("random", 3, |n, random| filled(ring(n, random), 4 * n, random)),
        Family { in_order: true, ..family("ladder in order", 2, ladder) },
        family("ladder", 2, ladder),
        // Of grade 3 with few edges.
        family("three downwards", 3, three_downwards),
        // Nearly as dense as a plan may be that has to be mended, and a vertex beside it that has no edge.
        family("one alone", 0, |n, random| Plan { n, ..filled(ring(n - 1, random), 7 * n / 2, random) }),
    ];

    fn path(n: usize, _: &mut Random) -> Plan {
        Plan::new(n, (1..n).map(|v| (v - 1, v)))
    }

    fn ring(n: usize, _: &mut Random) -> Plan {
        Plan::new(n, cycle(n))
    }

    fn tree(n: usize, random: &mut Random) -> Plan {
        Plan::new(n, (1..n).map(|v| (random.below(v), v)).collect::<Vec<_>>())
    }

    fn star(n: usize, _: &mut Random) -> Plan {
        Plan::new(n, (1..n).map(|v| (0, v)))
    }

    fn ladder(n: usize, _: &mut Random) -> Plan {
        let half = n / 2;
        let rails = (1..half).flat_map(|v| [(v - 1, v), (half + v - 1, half + v)]);
        Plan::new(n, rails.chain((0..half).map(|v| (v, half + v))))
    }

    fn three_downwards(n: usize, random: &mut Random) -> Plan {
        let mut plan = Plan::new(n, (0..4).flat_map(|b| (0..b).map(move |a| (a, b))));
        for v in 4..n {
            let due = plan.edges.len() + 3;
            while plan.edges.len() < due {
                plan = Plan::new(n, plan.edges.iter().copied().chain([(random_edge(v, random).0, v)]));
            }
        }
        plan
    }

    /// A row for each family: the median of all timings, and of those of its slowest plan.
    pub fn rows() {
        let random = &mut Random::new(SEED);
        println!();
        println!("{:<20}vertices edges grade | list  mend us  slowest plan us", "graph");
        let mut slowest: (f64, &str) = (0.0, "");
        for family in &FAMILIES {
            let cases: Vec<Case> = (0..GRAPHS).map(|_| Case::new(&family.drawn(MOST_VERTICES, random))).collect();
            let mut times = vec![Vec::new(); cases.len()];
            // In turns, so that all plans meet the same load.
            for _ in 0..TIMINGS {
                cases.iter().zip(&mut times).for_each(|(case, times)| times.push(microseconds(1, || case.call())));
            }
            let worst = times.iter().map(|times| median(times)).fold(0.0, f64::max);
            let list = median(&cases.iter().map(|case| case.list as f64).collect::<Vec<_>>());
            print!("{:<20} {MOST_VERTICES:>7} {:>5} {:>5} |", family.name, cases[0].edges, family.grade);
            println!(" {list:>4.0} {:>8.1} {worst:>16.1}", median(&times.concat()));
            slowest = if worst > slowest.0 { (worst, family.name) } else { slowest };
        }
        let told = if slowest.0 <= MOST { "within" } else { "ABOVE" };
        println!("slowest: {:.1} us, {}; {told} {MOST:.0} us", slowest.0, slowest.1);
    }

    /// A plan record with the records that are due for it.
    struct Case {
        plan: Vec<u8>,
        edges: usize,
        list: usize,
        due: mending::Records,
    }

    impl Case {
        fn new(plan: &Plan) -> Case {
            let record = encode_plan(plan);
            let due = mending::mend(&record, certificate).expect("a plan that can be mended");
            let list = numbers(&due[0]).expect("a list")[1];
            Case { plan: record, edges: plan.edges.len(), list, due }
        }

        /// One call, whose word and bytes are tested.
        fn call(&self) {
            let (mut list, mut mended, mut made) = ([0; SPACE], [0; SPACE], [0; SPACE]);
            let (plan, size) = (self.plan.as_ptr(), self.plan.len());
            let [first, second, third] = [&mut list, &mut mended, &mut made].map(|buffer| buffer.as_mut_ptr());
            let word = unsafe { fikzarn_mend(plan, size, first, SPACE, second, SPACE, third, SPACE) };
            demand(word == mending::word(Ok(&self.due)), "the word has grade 3 and the three lengths");
            let right = [list, mended, made].iter().zip(&self.due).all(|(buffer, due)| buffer.starts_with(due));
            demand(right, "the three records are those that are due");
        }
    }

    /// What the library's maker writes for the mended plan.
    fn certificate(plan: &[u8]) -> Vec<u8> {
        let mut out = vec![0; SPACE];
        let word = unsafe { fikzarn_certify(plan.as_ptr(), plan.len(), out.as_mut_ptr(), SPACE) };
        demand(word % 65536 == 1 + 256 * 3, "the mended plan has grade 3");
        out.truncate((word >> 16) as usize);
        demand(check(plan, &out) == Answer::Grade(3), "the second checker accepts the certificate");
        out
    }
}
