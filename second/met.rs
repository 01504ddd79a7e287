// What scripts of session calls met that has to do with taking back, counted: a run in which one of these kinds never occurs shows little.
use crate::reference::*;
use std::collections::{BTreeMap, BTreeSet};

/// How many kinds there are. Where fewer were counted, a place that counts some was never come to.
const KINDS: usize = 41;

#[derive(Default)]
pub struct Met {
    counts: BTreeMap<&'static str, u64>,
    accepted: u64,
    refused: u64,
    deepest: usize,
}

/// One session, as far as it was replayed.
#[derive(Default)]
struct Walk {
    /// The paths that are in, and those that were taken back since the last path was taken.
    paths: Vec<Vec<u8>>,
    back: Vec<Vec<u8>>,
    /// Every path that was taken, and every part that was refused as one.
    taken: BTreeSet<Vec<u8>>,
    refused: BTreeSet<Vec<u8>>,
    any_back: bool,
    /// The answer to a closing right before.
    closed: Option<Answer>,
}

fn is_refused(answer: Answer, number: u8) -> bool {
    matches!(answer, Answer::CertificateFault(given, _) if given == number)
}

impl Met {
    fn see<const N: usize>(&mut self, kinds: [(&'static str, bool); N]) {
        kinds.into_iter().for_each(|(kind, holds)| *self.counts.entry(kind).or_default() += holds as u64);
    }

    /// Replays a script and counts what it meets.
    pub fn replay(&mut self, script: &[u8]) -> (Vec<(Answer, Option<usize>)>, End) {
        let mut walk = Walk::default();
        let replayed = replay_seen(script, |seen| {
            match seen.call {
                b'b' => self.back(&mut walk, &seen),
                b'p' => self.path(&mut walk, &seen),
                b's' => self.see([("then a start is refused 31", walk.any_back && is_refused(seen.answer, 31))]),
                _ => self.see([
                    ("then closing is refused 31", walk.any_back && is_refused(seen.answer, 31)),
                    ("then closing is refused 28", walk.any_back && is_refused(seen.answer, 28)),
                    ("then closing gives grade 3", walk.any_back && seen.answer == Answer::Grade(3)),
                ]),
            }
            walk.closed = (seen.call == b'c').then_some(seen.answer);
        });
        self.end_of_row(&walk);
        replayed
    }

    fn back(&mut self, walk: &mut Walk, seen: &Seen) {
        let (plan, build) = (&seen.session.plan, &seen.session.build);
        let Some(path) = walk.paths.pop() else {
            self.refused += 1;
            return self.see([
                ("refused, never opened", plan.is_none()),
                ("refused, no start yet", plan.is_some() && build.is_none()),
                ("refused, no path yet", build.is_some() && !walk.any_back),
                ("refused, every path taken back already", walk.any_back),
            ]);
        };
        self.accepted += 1;
        self.see([
            ("right after grade 3", walk.closed == Some(Answer::Grade(3))),
            ("right after a closing refused 28", walk.closed.is_some_and(|answer| is_refused(answer, 28))),
            ("right after a closing refused 31", walk.closed.is_some_and(|answer| is_refused(answer, 31))),
        ]);
        self.see_path(build.as_ref().expect("a build"), &numbers(&path).expect("a path")[1..]);
        walk.back.push(path);
        walk.any_back = true;
    }

    /// The path that was taken back, and the build before it.
    fn see_path(&mut self, build: &Build, path: &[usize]) {
        let n = build.inside.len();
        let ends = [path[0], path[path.len() - 1]];
        let link = |end: usize| build.links.iter().find(|link| inner(link).contains(&end));
        let split: Vec<(usize, &Vec<usize>)> = ends.into_iter().filter_map(|end| Some((end, link(end)?))).collect();
        let ends_of = |i: usize| [split[i].1[0], split[i].1[split[i].1.len() - 1]];
        let outermost = |end: usize, link: &[usize]| link[1] == end || link[link.len() - 2] == end;
        self.see([
            ("both ends branch vertices", split.is_empty()),
            ("one end inside a link", split.len() == 1),
            ("both ends inside links", split.len() == 2),
            ("both ends inside links that meet", split.len() == 2 && ends_of(0).iter().any(|end| ends_of(1).contains(end))),
            ("an end that is the only inner vertex of its link", split.iter().any(|(_, link)| link.len() == 3)),
            (
                "an end that is the first or last of several inner vertices",
                split.iter().any(|(end, link)| link.len() > 3 && outermost(*end, link)),
            ),
            ("an end with inner vertices on both sides", split.iter().any(|(end, link)| !outermost(*end, link))),
            ("one edge", path.len() == 2),
            ("inner vertices of its own", path.len() > 2),
            ("eight inner vertices or more", path.len() >= 10),
            ("a plan of 65 to 127 vertices", (65..MOST_VERTICES).contains(&n)),
            ("a plan of 128 vertices", n == MOST_VERTICES),
        ]);
    }

    fn path(&mut self, walk: &mut Walk, seen: &Seen) {
        if seen.answer == Answer::Accepted {
            let path = seen.session.parts.last().expect("an accepted part").clone();
            self.see([
                ("then the same path is taken", walk.back.last() == Some(&path)),
                ("then another path is taken", walk.back.last().is_some_and(|last| *last != path)),
                ("then a path is taken that was refused before", walk.any_back && walk.refused.contains(&path)),
            ]);
            self.end_of_row(walk);
            walk.back.clear();
            walk.taken.insert(path.clone());
            walk.paths.push(path);
            return;
        }
        let number = |number| walk.any_back && is_refused(seen.answer, number);
        self.see([
            ("then a path is refused 1", number(1)),
            ("then a path is refused 2", number(2)),
            ("then a path is refused 9", number(9)),
            ("then a path is refused 24", number(24)),
            ("then a path is refused 25", number(25)),
            ("then a path is refused 26", number(26)),
            ("then a path is refused 27", number(27)),
            ("then a path is refused 31", number(31)),
            ("then a path is refused 33", number(33)),
            ("then a path is refused that was taken before", walk.any_back && !number(31) && walk.taken.contains(seen.part)),
        ]);
        walk.refused.insert(seen.part.to_vec());
    }

    /// How many were taken back in a row, refused calls among them or not.
    fn end_of_row(&mut self, walk: &Walk) {
        let deep = walk.back.len();
        self.deepest = self.deepest.max(deep);
        self.see([
            ("one alone", deep == 1),
            ("two in a row", deep == 2),
            ("3 to 9 in a row", (3..10).contains(&deep)),
            ("10 to 99 in a row", (10..100).contains(&deep)),
            ("100 in a row or more", deep >= 100),
        ]);
    }

    /// Prints the counts; right if every kind occurred.
    pub fn told(&self) -> bool {
        println!("  taking back: {} accepted, {} refused, at most {} in a row", self.accepted, self.refused, self.deepest);
        self.counts.iter().for_each(|(kind, count)| println!("    {kind}: {count}"));
        let met = self.counts.values().filter(|&&count| count > 0).count();
        println!("  {met} kinds of taking back met, {KINDS} due");
        met == KINDS
    }
}
