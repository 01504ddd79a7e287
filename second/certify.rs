// compare certify: the certificates that the library makes, under the figure, both checkers and request 2's counts; the lengths that it
// answers without writing; and what becomes of buffers that are shorter, as long and longer.
use crate::generate::{at_the_limit, every_plan, larger_plan, Generator, FIGURES};
use crate::known::numbers_told;
use crate::library::{self, Lent};
use crate::reference::*;
use crate::Tally;

/// Document 01: "the length is at most 1,536". No buffer need be longer.
pub const SPACE: usize = 1536;
/// Up to here the figure is found as document 01 words it, above by low points.
const MOST_BY_REMOVAL: usize = 48;

/// Outcomes beside the answers: a grade at the largest number of vertices, and a certificate with a number of two bytes.
const LARGEST: &str = "128 vertices, grade";
pub const LONG: &str = "a number of two bytes, grade";

pub fn certify(count: u64, seed: u64) -> bool {
    let mut run = Run { tally: Tally::new(seed), random: Random::new(!seed), calls: 0, plans: [0; 4], longest: [0; 4] };
    let mut right = true;
    for n in 4..=6 {
        let before = run.plans;
        every_plan(n).for_each(|plan| run.record(&encode_plan(&plan)));
        let figures = [0, 1, 2, 3].map(|grade| run.plans[grade] - before[grade]);
        println!("every plan on {n} vertices: figures {figures:?}, expected {:?}", FIGURES[n - 4]);
        right &= figures == FIGURES[n - 4];
    }
    for n in MOST_VERTICES - 2..=MOST_VERTICES {
        at_the_limit(n, &mut run.random).iter().for_each(|plan| run.record(&encode_plan(plan)));
    }
    for turn in 0..count as usize {
        let plan = larger_plan(turn, &mut run.random);
        run.record(&encode_plan(&plan));
    }
    let mut generator = Generator::new(seed);
    (0..count).for_each(|_| run.record(&generator.plan_record()));
    println!("plans by grade: {:?}, longest certificates: {:?}", run.plans, run.longest);
    let mut due: Vec<(&str, u8)> = (0..4).flat_map(|grade| [("grade", grade), (LARGEST, grade)]).collect();
    due.extend((1..8).chain([30, 33]).map(|number| ("plan refused", number)));
    // The rules leave no other place for it: a first ear through 128 vertices.
    due.push((LONG, 2));
    run.tally.close(run.calls, due) & right
}

pub fn figure(plan: &Plan) -> u8 {
    if plan.n <= MOST_BY_REMOVAL {
        connectivity(plan)
    } else {
        connectivity_by_low_points(plan)
    }
}

struct Run {
    tally: Tally,
    random: Random,
    calls: u64,
    plans: [usize; 4],
    longest: [usize; 4],
}

impl Run {
    fn record(&mut self, record: &[u8]) {
        match read_plan(record) {
            Ok(plan) => self.accepted(record, &plan),
            Err(fault) => {
                let (shorter, longer) = (self.random.below(SPACE), self.random.within(SPACE, 4 * SPACE));
                self.buffers(record, &[0, 1, shorter, SPACE, longer], Err(fault));
            }
        }
    }

    /// The certificate with room enough has to be right; then it is due in every buffer.
    fn accepted(&mut self, record: &[u8], plan: &Plan) {
        self.tally.see_shapes(plan);
        let grade = figure(plan);
        let made = certified(record, SPACE, &mut self.random);
        let counted = match made.wrong(record, Answer::Grade(grade)) {
            Some(wrong) => Err(wrong),
            None => long_numbers(plan, &made.certificate),
        };
        self.count(record, Answer::Grade(grade));
        match counted {
            Err(wrong) => return self.differs(record, &made.certificate, wrong),
            Ok(0) => {}
            Ok(_) => self.tally.see((LONG, grade), record),
        }
        if plan.n == MOST_VERTICES {
            self.tally.see((LARGEST, grade), record);
        }
        let length = made.certificate.len();
        self.plans[grade as usize] += 1;
        self.longest[grade as usize] = length.max(self.longest[grade as usize]);
        let (shorter, longer) = (self.random.below(length), self.random.within(length, SPACE));
        let larger = self.random.within(SPACE, 4 * SPACE);
        let sizes = [0, 1, shorter, length - 1, length, length + 1, longer, larger];
        self.buffers(record, &sizes, Ok((grade, &made.certificate)));
    }

    /// The length without a buffer, then a call with a buffer of each size.
    fn buffers(&mut self, record: &[u8], sizes: &[usize], made: Result<(u8, &[u8]), Fault>) {
        let (answer, certificate) = lent(usize::MAX, made);
        self.count(record, answer);
        let (word, length) = library::certificate_length(record);
        if (word, length) != (library::word(answer), certificate.len()) {
            let due = certificate.len();
            self.differs(record, certificate, format!("a length of {due} is due, answered {length}, {}", library::told(word)));
        }
        for &size in sizes {
            let (answer, due) = lent(size, made);
            self.count(record, answer);
            let given = certified(record, size, &mut self.random);
            let wrong = given.other(answer).or((given.certificate != due).then(|| "another certificate".to_string()));
            if let Some(wrong) = wrong {
                self.differs(record, &given.certificate, format!("a buffer of {size} bytes: {wrong}"));
            }
        }
    }

    fn count(&mut self, record: &[u8], answer: Answer) {
        self.calls += 1;
        self.tally.count(answer, record);
    }

    fn differs(&mut self, record: &[u8], certificate: &[u8], what: String) {
        self.tally.differs(&[("plan", record), ("certificate", certificate)], what);
    }
}

/// What came of a call: its word, the certificate, and what is wrong with the bytes around it.
pub struct Made {
    pub word: u64,
    pub certificate: Vec<u8>,
    touched: Option<String>,
}

pub fn certified(record: &[u8], size: usize, random: &mut Random) -> Made {
    let mut out = Lent::new(size, random);
    let (word, length) = library::certify(record, out.buffer());
    let touched = match length > SPACE {
        true => Some(format!("a length of {length}")),
        false => out.touched(length),
    };
    Made { word, certificate: out.written(length).to_vec(), touched }
}

impl Made {
    /// What is wrong with it where this answer is due: the word, or a byte that is none of the certificate.
    fn other(&self, expected: Answer) -> Option<String> {
        match self.word == library::word(expected) {
            true => self.touched.clone(),
            false => Some(format!("expected {expected:?}, the library gave {}", library::told(self.word))),
        }
    }

    /// The same, or what one of the checkers has against the certificate.
    pub fn wrong(&self, record: &[u8], expected: Answer) -> Option<String> {
        let other = self.other(expected);
        if other.is_some() || !matches!(expected, Answer::Grade(_)) {
            return other;
        }
        let own = library::check(record, &self.certificate);
        let second = check(record, &self.certificate);
        if own != self.word {
            return Some(format!("expected {expected:?}, the library's checker gave {}", library::told(own)));
        }
        (second != expected).then(|| format!("expected {expected:?}, the second checker gave {second:?}"))
    }
}

/// The answer with room enough; both checkers are to accept the certificate with its grade. Of kind 3 it tells how many numbers.
pub fn known(record: &[u8], random: &mut Random) -> String {
    let made = certified(record, SPACE, random);
    let wrong = match made.word % 256 {
        1 => made.wrong(record, Answer::Grade((made.word >> 8) as u8)),
        _ => made.touched.clone(),
    };
    let length = library::certificate_length(record);
    let other = length != (made.word, made.certificate.len());
    let other = other.then(|| format!("another length, {} for {}", length.1, made.certificate.len()));
    wrong.or(other).unwrap_or_else(|| library::told(made.word) + &numbers_told(&made.certificate))
}
