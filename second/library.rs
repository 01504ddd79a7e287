// The library under test, linked as a C static library, and the buffers that are lent to it.
use crate::reference::{Answer, Random};

mod foreign {
    extern "C" {
        pub fn fikzarn_plan(plan: *const u8, plan_len: usize, out: *mut u8, out_len: usize) -> u64;
        pub fn fikzarn_check(plan: *const u8, plan_len: usize, cert: *const u8, cert_len: usize) -> u64;
        pub fn fikzarn_certify(plan: *const u8, plan_len: usize, out: *mut u8, out_len: usize) -> u64;
        pub fn fikzarn_certificate_length(plan: *const u8, plan_len: usize) -> u64;
        pub fn fikzarn_session(script: *const u8, script_len: usize, out: *mut u8, out_len: usize) -> u64;
        pub fn fikzarn_count(size: u64, grade: u64) -> u64;
        pub fn fikzarn_mend(
            plan: *const u8,
            plan_len: usize,
            list: *mut u8,
            list_len: usize,
            mended: *mut u8,
            mended_len: usize,
            certificate: *mut u8,
            certificate_len: usize,
        ) -> u64;
    }
}

/// Reads a whole plan record; where it is accepted and fits, writes it again into `out`.
pub fn plan(record: &[u8], out: &mut [u8]) -> u64 {
    unsafe { foreign::fikzarn_plan(record.as_ptr(), record.len(), out.as_mut_ptr(), out.len()) }
}

pub fn check(plan: &[u8], certificate: &[u8]) -> u64 {
    unsafe { foreign::fikzarn_check(plan.as_ptr(), plan.len(), certificate.as_ptr(), certificate.len()) }
}

/// Writes a certificate of the plan into `out`. The answer, and the certificate's length.
pub fn certify(plan: &[u8], out: &mut [u8]) -> (u64, usize) {
    parted(unsafe { foreign::fikzarn_certify(plan.as_ptr(), plan.len(), out.as_mut_ptr(), out.len()) })
}

/// The answer and the length that `certify` gives with room enough.
pub fn certificate_length(plan: &[u8]) -> (u64, usize) {
    parted(unsafe { foreign::fikzarn_certificate_length(plan.as_ptr(), plan.len()) })
}

/// Beside a grade the word has a length as its place, which is handed back by itself.
fn parted(word: u64) -> (u64, usize) {
    match word % 256 {
        1 => (word % (1 << 16), (word >> 16) as usize),
        _ => (word, 0),
    }
}

/// Replays a script: how it ended, and how many answers of eight bytes are in `out`.
pub fn session(script: &[u8], out: &mut [u8]) -> (u64, usize) {
    let word = unsafe { foreign::fikzarn_session(script.as_ptr(), script.len(), out.as_mut_ptr(), out.len()) };
    (word % 65536, (word >> 16) as usize)
}

/// How many plans of that size have that grade: a number, no answer's word.
pub fn count(size: u64, grade: u64) -> u64 {
    unsafe { foreign::fikzarn_count(size, grade) }
}

/// Writes the list, the mended plan and its certificate, each into its buffer: the whole word, which has three lengths.
pub fn mend(plan: &[u8], [list, mended, certificate]: [&mut [u8]; 3]) -> u64 {
    unsafe {
        foreign::fikzarn_mend(
            plan.as_ptr(),
            plan.len(),
            list.as_mut_ptr(),
            list.len(),
            mended.as_mut_ptr(),
            mended.len(),
            certificate.as_mut_ptr(),
            certificate.len(),
        )
    }
}

/// The word for an answer: case + 256 * number + 65536 * place.
pub fn word(answer: Answer) -> u64 {
    let (case, number, place) = match answer {
        Answer::Accepted => (0, 0, 0),
        Answer::Grade(grade) => (1, grade, 0),
        Answer::PlanFault(number, place) => (2, number, place),
        Answer::CertificateFault(number, place) => (3, number, place),
    };
    case + 256 * number as u64 + 65536 * place as u64
}

/// A word as the programs print it; what no answer has is told as well.
pub fn told(word: u64) -> String {
    let (case, number, place) = (word % 256, word / 256 % 256, word / 65536);
    match (case, number, place) {
        (0, 0, 0) => "accepted".to_string(),
        (1, _, 0) => format!("grade {number}"),
        (2, ..) => format!("plan refused {number} at {place}"),
        (3, ..) => format!("certificate refused {number} at {place}"),
        _ => format!("no answer: case {case}, number {number}, place {place}"),
    }
}

/// A buffer with bytes before it and behind it that no call may touch; all of them are random.
pub struct Lent {
    now: Vec<u8>,
    before: Vec<u8>,
    size: usize,
}

const GUARD: usize = 64;

impl Lent {
    pub fn new(size: usize, random: &mut Random) -> Lent {
        let before: Vec<u8> = (0..size + 2 * GUARD).map(|_| random.next() as u8).collect();
        Lent { now: before.clone(), before, size }
    }

    pub fn buffer(&mut self) -> &mut [u8] {
        &mut self.now[GUARD..GUARD + self.size]
    }

    /// The first bytes of the buffer, as many as were written.
    pub fn written(&self, length: usize) -> &[u8] {
        &self.now[GUARD..GUARD + length.min(self.size)]
    }

    /// What is wrong where only the first `length` bytes of the buffer may have changed.
    pub fn touched(&self, length: usize) -> Option<String> {
        if length > self.size {
            return Some(format!("a length of {length} in a buffer of {} bytes", self.size));
        }
        let kept = |&i: &usize| (GUARD..GUARD + length).contains(&i) || self.now[i] == self.before[i];
        let at = (0..self.now.len()).find(|i| !kept(i))?;
        let (at, size) = (at as isize - GUARD as isize, self.size);
        Some(format!("byte {at} has changed, of a buffer of {size} bytes with a length of {length} in it"))
    }
}
