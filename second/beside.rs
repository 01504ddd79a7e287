// Writes what one archive of the library answers and writes for many plans, so that two archives can be compared byte by byte.
//   beside COUNT SEED   for every plan on 4 to 6 vertices, those at the limit, COUNT larger ones and COUNT plan records of any kind:
//                       the record, the word of fikzarn_certify and the whole buffer, lent 1,536 bytes and lent more
// Request 7 gave 33 to what was 2 before, at numbers that are too long: there 2 is written for both, and how often each was answered is
// counted. On standard error a line tells what was asked, and one the two counts. tests/beside links it with both archives.
#![allow(dead_code)]
mod generate;
mod reference;

use generate::{at_the_limit, every_plan, larger_plan, Generator};
use reference::*;
use std::io::{BufWriter, Result, StdoutLock, Write};

extern "C" {
    fn fikzarn_certify(plan: *const u8, plan_len: usize, out: *mut u8, out_len: usize) -> u64;
}

/// From here on every edition has room for a certificate.
const SPACE: usize = 1536;

struct Run {
    out: BufWriter<StdoutLock<'static>>,
    random: Random,
    records: u64,
    doubles: u64,
    grades: [u64; 4],
    refused: u64,
    largest: usize,
    /// How often 2 and how often 33 was answered at a number whose second byte is 128 or more.
    too_long: [u64; 2],
}

fn main() -> Result<()> {
    let number = |at: usize| std::env::args().nth(at).and_then(|word| word.parse::<u64>().ok()).expect("beside COUNT SEED");
    let (count, seed) = (number(1), number(2));
    let out = BufWriter::new(std::io::stdout().lock());
    let random = Random::new(!seed);
    let mut run = Run { out, random, records: 0, doubles: 0, grades: [0; 4], refused: 0, largest: 0, too_long: [0; 2] };
    for n in 4..=6 {
        every_plan(n).try_for_each(|plan| run.record(&encode_plan(&plan)))?;
    }
    for n in MOST_VERTICES - 2..=MOST_VERTICES {
        at_the_limit(n, &mut run.random).iter().try_for_each(|plan| run.record(&encode_plan(plan)))?;
    }
    for turn in 0..count as usize {
        let plan = larger_plan(turn, &mut run.random);
        run.record(&encode_plan(&plan))?;
    }
    let mut generator = Generator::new(seed);
    (0..count).try_for_each(|_| run.record(&generator.plan_record()))?;
    run.out.flush()?;
    let Run { records, doubles, grades, refused, largest, too_long: [two, other], .. } = run;
    eprintln!("{records} plan records: grades {grades:?}, up to {largest} boxes, {doubles} with doubles; {refused} refused");
    eprintln!("{two} times 2 and {other} times 33");
    Ok(())
}

impl Run {
    fn record(&mut self, record: &[u8]) -> Result<()> {
        self.records += 1;
        self.out.write_all(record)?;
        let more = self.random.within(SPACE + 1, 2 * SPACE);
        for size in [SPACE, more] {
            let mut buffer = vec![170; size];
            let word = unsafe { fikzarn_certify(record.as_ptr(), record.len(), buffer.as_mut_ptr(), size) };
            let written = self.in_old_numbers(record, word);
            self.out.write_all(&written.to_le_bytes())?;
            self.out.write_all(&buffer)?;
            if size == SPACE {
                self.tell(record, word);
            }
        }
        Ok(())
    }

    /// The word, with 2 where it has 33 at a number that is too long. 33 anywhere else stays, and then the bytes differ.
    fn in_old_numbers(&mut self, record: &[u8], word: u64) -> u64 {
        let (case, number, place) = (word % 256, word / 256 % 256, (word >> 16) as usize);
        let too_long = record.get(place..place + 2).is_some_and(|bytes| bytes.iter().all(|&byte| byte >= 128));
        match (case, number) {
            (2, 2) if too_long => self.too_long[0] += 1,
            (2, 33) if too_long => {
                self.too_long[1] += 1;
                return word - 256 * 31;
            }
            _ => {}
        }
        word
    }

    /// Counts by the archive's own answer: where two archives differ, so do the bytes.
    fn tell(&mut self, record: &[u8], word: u64) {
        match read_plan(record) {
            Ok(plan) if word % 256 == 1 => {
                self.grades[word as usize / 256 % 4] += 1;
                self.doubles += (plan != plan.simple()) as u64;
                self.largest = self.largest.max(plan.n);
            }
            _ => self.refused += 1,
        }
    }
}
