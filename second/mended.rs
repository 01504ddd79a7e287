// compare mend: what the library answers and writes for plans to be mended, in buffers that are shorter, as long and longer, and what
// the program prints. The certificate has to be the one that the library's maker writes for the mended plan.
use crate::certify::{certified, figure, SPACE};
use crate::generate::{every_plan, Generator};
use crate::known::Call;
use crate::library::{self, Lent};
use crate::mend::{self, Records};
use crate::mendable;
use crate::reference::*;
use crate::{run, Tally};
use std::collections::BTreeMap;

/// No record that is written is longer.
const MOST_BYTES: usize = 1536;
/// One record in so many is also given to the program.
const PRINTED: u64 = 4;

pub fn mend(count: u64, seed: u64, program: &str) -> bool {
    let (tally, random) = (Tally::new(seed), Random::new(!seed));
    let mut run = Run { tally, random, program, met: BTreeMap::new(), records: 0, calls: 0, printed: 0 };
    for n in 4..=5 {
        every_plan(n).for_each(|plan| run.record(&encode_plan(&plan)));
    }
    for turn in 0..count as usize {
        let plan = mendable::plan(turn, &mut run.random);
        run.record(&encode_plan(&plan));
    }
    let mut generator = Generator::new(seed);
    (0..count).for_each(|_| run.record(&generator.plan_record()));
    run.long_inputs();
    run.close()
}

struct Run<'a> {
    tally: Tally,
    random: Random,
    program: &'a str,
    /// What the plans are examples of.
    met: BTreeMap<&'static str, u64>,
    records: u64,
    calls: u64,
    printed: u64,
}

impl Run<'_> {
    fn record(&mut self, record: &[u8]) {
        let made = self.made(record);
        self.records += 1;
        if let Ok(plan) = read_plan(record) {
            self.see(record, &plan, &made);
        }
        self.buffers(record, &made);
        if self.records % PRINTED == 0 {
            self.print(record, &made);
        }
        // 32 comes "after all plan faults": the same with a byte behind it, and cut short.
        if made == Err((32, 0)) {
            self.record(&[record, &[0]].concat());
            self.record(&record[..record.len() - 1]);
        }
    }

    /// Counts what an accepted plan is an example of.
    fn see(&mut self, record: &[u8], plan: &Plan, made: &Result<Records, Fault>) {
        self.tally.see_shapes(plan);
        self.tally.see(("plan of grade", figure(plan)), record);
        let list = match made {
            Ok([list, ..]) => numbers(list).expect("a list")[1],
            Err(_) => mend::list(plan).len(),
        };
        let (together, pairs) = (plan.edges.len() + list, plan.pairs().len() + list);
        let doubles = together > pairs;
        self.meet([
            ("an empty list", list == 0),
            ("a list of 128 pairs or more", list >= 128),
            ("128 vertices, mended", plan.n == MOST_VERTICES && made.is_ok()),
            ("more than 10 vertices, mended", plan.n > mend::MOST_BY_REMOVAL && made.is_ok()),
            ("512 edges with the list, none of them double", together == MOST_EDGES && !doubles),
            ("512 edges with the list, some double", together == MOST_EDGES && doubles),
            ("513 edges with the list, none of them double", together == MOST_EDGES + 1 && !doubles),
            ("more than 512 edges with the list, only because doubles count", together > MOST_EDGES && pairs <= MOST_EDGES),
        ]);
    }

    fn meet<const N: usize>(&mut self, kinds: [(&'static str, bool); N]) {
        kinds.into_iter().for_each(|(kind, holds)| *self.met.entry(kind).or_default() += holds as u64);
    }

    /// The records that are due. The library's maker chooses the certificate; both checkers have to accept it with grade 3, and it has
    /// to be as long as request 2 says.
    fn made(&mut self, record: &[u8]) -> Result<Records, Fault> {
        let mut wrong = None;
        let made = mend::mend(record, |mended| {
            let made = certified(mended, SPACE, &mut self.random);
            let counted = || long_numbers(&read_plan(mended).expect("a plan"), &made.certificate).err();
            wrong = made.wrong(mended, Answer::Grade(3)).or_else(counted);
            made.certificate
        });
        if let Some(wrong) = wrong {
            self.tally.differs(&[("plan", record)], format!("the mended plan's certificate: {wrong}"));
        }
        made
    }

    /// Calls with buffers of many sizes.
    fn buffers(&mut self, record: &[u8], made: &Result<Records, Fault>) {
        let sizes = match made {
            Ok(records) => rooms(records.each_ref().map(Vec::len), &mut self.random),
            Err(_) => any_rooms(&mut self.random),
        };
        for rooms in sizes {
            let expected = mend::lent(rooms, made);
            self.calls += 1;
            let answer = expected.map_or_else(|(number, place)| Answer::PlanFault(number, place), |_| Answer::Grade(3));
            self.tally.count(answer, record);
            if let Some(wrong) = wrong(record, rooms, expected, &mut self.random) {
                self.tally.differs(&[("plan", record)], format!("buffers of {rooms:?} bytes: {wrong}"));
            }
        }
    }

    /// What the program prints, to its last byte.
    fn print(&mut self, input: &[u8], made: &Result<Records, Fault>) {
        self.printed += 1;
        let (run, due) = (run(self.program, input), mend::printed(input, made));
        if !run.status.success() || run.stdout != due || !run.stderr.is_empty() {
            let records = [("input", input), ("due", &due), ("printed", &run.stdout), ("on standard error", &run.stderr)];
            self.tally.differs(&records, format!("the program: {}", run.status));
        }
    }

    /// As many bytes as the program takes and one more: a plan with bytes behind it, and no plan.
    fn long_inputs(&mut self) {
        let plan = encode_plan(&mendable::of_grade(1, 12, &mut self.random));
        for length in [MOST_INPUT, MOST_INPUT + 1] {
            for mut input in [plan.clone(), Vec::new()] {
                input.resize(length, 0);
                let made = self.made(&input);
                self.print(&input, &made);
            }
        }
    }

    /// Right if nothing differs, and every refusal and every kind of plan occurred.
    fn close(self) -> bool {
        println!("{} plan records, {} calls, {} runs of the program", self.records, self.calls, self.printed);
        self.met.iter().for_each(|(kind, count)| println!("  {kind}: {count}"));
        let missing: Vec<&&str> = self.met.iter().filter(|(_, &count)| count == 0).map(|(kind, _)| kind).collect();
        missing.iter().for_each(|kind| println!("never seen: {kind}"));
        let mut due: Vec<(&str, u8)> = (1..8).chain([30, 32, 33]).map(|number| ("plan refused", number)).collect();
        due.extend((0..4).map(|grade| ("plan of grade", grade)).chain([("grade", 3)]));
        self.tally.close(self.calls + self.printed, due) && missing.is_empty()
    }
}

/// What is wrong with the word, or with a byte in a buffer or around it.
fn wrong(record: &[u8], rooms: [usize; 3], expected: Result<&Records, Fault>, random: &mut Random) -> Option<String> {
    let mut buffers = rooms.map(|room| Lent::new(room, random));
    let given = library::mend(record, buffers.each_mut().map(Lent::buffer));
    let due = mend::word(expected);
    if given != due {
        return Some(format!("expected {}, the library gave {}", told(due), told(given)));
    }
    (0..3).find_map(|i| {
        let due = expected.map_or(&[][..], |records| &records[i]);
        let other = buffers[i].written(due.len()) != due;
        let other = other.then(|| format!("{:?} is due, {:?} is written", due, buffers[i].written(due.len())));
        Some(format!("buffer {i}: {}", other.or_else(|| buffers[i].touched(due.len()))?))
    })
}

/// A word with three lengths, or any other.
fn told(word: u64) -> String {
    match word % 256 {
        1 => format!("grade {} and lengths {:?}", word / 256 % 256, lengths(word)),
        _ => library::told(word),
    }
}

fn lengths(word: u64) -> [usize; 3] {
    [16, 32, 48].map(|bits| (word >> bits) as usize % 65536)
}

/// Just the lengths, twice, since each buffer is filled anew; each one byte short, or 0, beside others that are exact or long; each as long as another is; all longer; any.
fn rooms(exact: [usize; 3], random: &mut Random) -> Vec<[usize; 3]> {
    let [list, mended, certificate] = exact;
    let long = exact.map(|length| length + random.within(1, MOST_BYTES));
    let mut rooms = vec![exact, exact, exact.map(|length| length + 1), long, [0; 3], exact.map(|length| length - 1)];
    for (at, others) in (0..3).flat_map(|at| [(at, exact), (at, long)]) {
        for size in [0, random.below(exact[at]), exact[at] - 1] {
            rooms.push(others);
            rooms.last_mut().expect("the last")[at] = size;
        }
    }
    rooms.extend([[mended, certificate, list], [certificate, list, mended], [mended, list, certificate]]);
    rooms.extend([[certificate, mended, list], [list, certificate, mended]]);
    rooms.push(exact.map(|length| random.within(length - 1, length + 1)));
    rooms
}

/// For a record that is refused whatever buffers are lent.
fn any_rooms(random: &mut Random) -> Vec<[usize; 3]> {
    let mut up_to = |most: usize| [(); 3].map(|_| random.below(most));
    vec![[0; 3], up_to(8), up_to(MOST_BYTES), up_to(MOST_BYTES).map(|more| MOST_BYTES + more)]
}

/// The answer to a record that is refused, in buffers of four sizes: no byte of them changes.
pub fn refused(record: &[u8], random: &mut Random) -> String {
    let mut answers = Vec::new();
    for rooms in any_rooms(random) {
        let mut buffers = rooms.map(|room| Lent::new(room, random));
        let word = library::mend(record, buffers.each_mut().map(Lent::buffer));
        answers.push((0..3).find_map(|i| buffers[i].touched(0)).unwrap_or_else(|| told(word)));
    }
    answers.dedup();
    answers.join(", ")
}

/// A known answer: the library's word, and every byte. The certificate is open, and accepted by both checkers.
pub fn known(call: &Call, random: &mut Random) -> Option<String> {
    let ("fikzarn_mend", [record], &[list, mended, certificate]) = (call.function, &call.inputs[..], &call.rooms[..]) else {
        return Some("no such call".to_string());
    };
    let mut buffers = [list, mended, certificate].map(|room| Lent::new(room, random));
    let word = library::mend(record, buffers.each_mut().map(Lent::buffer));
    let lengths = if word % 256 == 1 { lengths(word) } else { [0; 3] };
    let written = [0, 1, 2].map(|i| buffers[i].written(lengths[i]));
    let refused = || (lengths != [0; 3]).then(|| library::told(library::check(written[1], written[2])));
    let touched = || (0..3).find_map(|i| buffers[i].touched(lengths[i]));
    call.wrong(word, written).or_else(touched).or_else(|| refused().filter(|told| told != "grade 3"))
}
