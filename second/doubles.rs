// compare doubles: a plan with doubles beside the same plan with each double written once. The library writes the same certificate for
// both. Every certificate, and every list of session calls, gets the same answers with both, those of the second implementation.
use crate::certify::{certified, figure, SPACE};
use crate::generate::{doubled, every_plan, larger_plan, Generator, Script};
use crate::library;
use crate::reference::*;
use crate::{replayed, Tally};

/// Certificates that are checked beside each larger plan.
const CHECKS: usize = 10;

pub fn doubles(count: u64, seed: u64) -> bool {
    let mut run = Run { tally: Tally::new(seed), random: Random::new(!seed), compared: 0 };
    for n in 4..=6 {
        every_plan(n).for_each(|plan| run.certify(&plan));
    }
    let mut generator = Generator::new(seed);
    for turn in 0..count as usize {
        let plan = larger_plan(turn, &mut run.random).simple();
        run.certify(&plan);
        for _ in 0..CHECKS {
            let (record, certificate) = generator.case();
            run.check(&record, &certificate);
        }
        run.session(&generator.script());
    }
    let mut due: Vec<(&str, u8)> = (0..4).map(|grade| ("grade", grade)).collect();
    due.extend([1, 2, 33, 7, 8, 9].into_iter().chain(20..30).chain([31]).map(|number| ("certificate refused", number)));
    due.push(("plan refused", 29));
    run.tally.close(run.compared, due)
}

struct Run {
    tally: Tally,
    random: Random,
    compared: u64,
}

impl Run {
    /// The plan with doubles, some if it has none, and with none.
    fn both(&mut self, plan: &Plan) -> (Vec<u8>, Vec<u8>) {
        let simple = plan.simple();
        let plan = if simple == *plan { doubled(plan, &mut self.random) } else { plan.clone() };
        self.tally.see_shapes(&plan);
        self.compared += 1;
        (encode_plan(&plan), encode_plan(&plan.simple()))
    }

    fn certify(&mut self, plan: &Plan) {
        let (doubled, simple) = self.both(plan);
        let expected = Answer::Grade(figure(&read_plan(&doubled).expect("a plan with doubles")));
        self.tally.count(expected, &doubled);
        let made = certified(&doubled, SPACE, &mut self.random);
        let once = certified(&simple, SPACE, &mut self.random);
        let other = made.certificate != once.certificate;
        let other = other.then(|| "another certificate with each double written once".to_string());
        if let Some(what) = made.wrong(&doubled, expected).or(once.wrong(&simple, expected)).or(other) {
            self.tally.differs(&[("plan", &doubled), ("certificate", &made.certificate), ("other", &once.certificate)], what);
        }
    }

    /// A plan record that is refused has no other beside it.
    fn check(&mut self, record: &[u8], certificate: &[u8]) {
        let Ok(plan) = read_plan(record) else { return };
        let (doubled, simple) = self.both(&plan);
        let expected = check(&simple, certificate);
        self.tally.count(expected, &doubled);
        for plan in [&doubled, &simple] {
            let given = library::check(plan, certificate);
            if given != library::word(expected) {
                let what = format!("expected {expected:?}, the library gave {}", library::told(given));
                self.tally.differs(&[("plan", plan), ("certificate", certificate)], what);
            }
        }
    }

    fn session(&mut self, script: &Script) {
        let Ok(plan) = read_plan(&script.plan) else { return };
        let (doubled, simple) = self.both(&plan);
        let encoded = |plan: &[u8]| Script { plan: plan.to_vec(), calls: script.calls.clone() }.encode(usize::MAX);
        let scripts = [encoded(&doubled), encoded(&simple)];
        let (answers, end) = replay(&scripts[1]);
        answers.iter().for_each(|&(answer, _)| self.tally.count(answer, &doubled));
        for script in &scripts {
            if let Some(what) = replayed(script, &answers, end, 8 * script.len(), &mut self.random) {
                self.tally.differs(&[("script", script)], what);
            }
        }
    }
}
