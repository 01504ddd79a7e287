//! Grades of plans of cabled boxes: safe calls of the proved library `libfikzarn.a`.
//!
//! A plan record lists boxes and cables, a certificate record shows the plan's grade; docs/USERS.md lays both out byte by byte. A call
//! ends for all bytes and keeps nothing, so calls may run at once in any threads. A function here panics only where the archive
//! that was linked is not Fikzarn's.
//!
//! ```
//! use fikzarn::{certify, check, Answer, CERTIFICATE_ROOM};
//!
//! // Four boxes, and cables 0 1, 0 2, 0 3, 1 2, 1 3: losing 0 and 1 parts 2 from 3.
//! let plan = [4, 5, 0, 1, 0, 2, 0, 3, 1, 2, 1, 3];
//! let mut room = [0; CERTIFICATE_ROOM];
//! let made = certify(&plan, &mut room)?;
//! assert_eq!(made.grade, 2);
//! assert_eq!(check(&plan, made.certificate), Answer::Grade(2));
//! # Ok::<(), Answer>(())
//! ```
#![no_std]
#![warn(missing_docs)]

use core::fmt;

mod foreign {
    extern "C" {
        pub fn fikzarn_plan(plan: *const u8, plan_len: usize, out: *mut u8, out_len: usize) -> u64;
        pub fn fikzarn_check(plan: *const u8, plan_len: usize, certificate: *const u8, certificate_len: usize) -> u64;
        pub fn fikzarn_certify(plan: *const u8, plan_len: usize, out: *mut u8, out_len: usize) -> u64;
        pub fn fikzarn_certificate_length(plan: *const u8, plan_len: usize) -> u64;
        pub fn fikzarn_session(script: *const u8, script_len: usize, out: *mut u8, out_len: usize) -> u64;
        pub fn fikzarn_count(size: u64, grade: u64) -> u64;
        pub fn fikzarn_mend(
            plan: *const u8,
            plan_len: usize,
            list: *mut u8,
            list_len: usize,
            mended: *mut u8,
            mended_len: usize,
            certificate: *mut u8,
            certificate_len: usize,
        ) -> u64;
        pub fn fikzarn_edition() -> u64;
        pub fn fikzarn_min_boxes() -> u64;
        pub fn fikzarn_max_boxes() -> u64;
        pub fn fikzarn_max_cables() -> u64;
        pub fn fikzarn_certificate_room() -> u64;
    }
}

/// What a call answers. It prints as the programs print it.
///
/// ```
/// let answer = fikzarn::check(&[4, 0], &[0, 0]);
/// assert_eq!(answer, fikzarn::Answer::CertificateFault(22, 1));
/// assert_eq!(answer.to_string(), "certificate refused 22 at 1");
/// ```
#[derive(Clone, Copy, Debug, PartialEq, Eq, Hash)]
pub enum Answer {
    /// Accepted, without a grade: a plan alone, an opening, a start, a path or taking it back.
    Accepted,
    /// Accepted, with the grade, 0 to 3.
    Grade(u8),
    /// The plan is refused: the refusal's number, and the offset in the plan's bytes.
    PlanFault(u8, usize),
    /// The certificate, start or path is refused: the refusal's number, and the offset in its bytes; or another call of a session, at 0.
    CertificateFault(u8, usize),
}

impl Answer {
    fn of(word: u64) -> Answer {
        let (number, place) = ((word >> 8) as u8, (word >> 16) as usize);
        match word & 255 {
            0 => Answer::Accepted,
            1 => Answer::Grade(number),
            2 => Answer::PlanFault(number, place),
            3 => Answer::CertificateFault(number, place),
            _ => unreachable!("{word} is no answer"),
        }
    }
}

impl fmt::Display for Answer {
    fn fmt(&self, f: &mut fmt::Formatter) -> fmt::Result {
        match self {
            Answer::Accepted => write!(f, "accepted"),
            Answer::Grade(grade) => write!(f, "grade {grade}"),
            Answer::PlanFault(number, place) => write!(f, "plan refused {number} at {place}"),
            Answer::CertificateFault(number, place) => write!(f, "certificate refused {number} at {place}"),
        }
    }
}

/// Reads a whole plan record. Where it is accepted and `out` has room for it, `out` begins with the record, written again from the
/// plan that was read, doubled cables as often as they were there; every other byte, or else every byte, keeps its value.
///
/// ```
/// use fikzarn::{plan, Answer};
///
/// // Four boxes, and two cables between 0 and 1.
/// let mut out = [7; 7];
/// assert_eq!(plan(&[4, 2, 0, 1, 0, 1], &mut out), Answer::Accepted);
/// assert_eq!(out, [4, 2, 0, 1, 0, 1, 7]);
/// assert_eq!(plan(&[4, 2, 0, 2, 0, 1], &mut out), Answer::PlanFault(6, 4));
/// // A number's second byte is 0, or is 128 or more: padded, or too long.
/// assert_eq!(plan(&[132, 0], &mut out), Answer::PlanFault(2, 0));
/// assert_eq!(plan(&[132, 128], &mut out), Answer::PlanFault(33, 0));
/// ```
pub fn plan(plan: &[u8], out: &mut [u8]) -> Answer {
    Answer::of(unsafe { foreign::fikzarn_plan(plan.as_ptr(), plan.len(), out.as_mut_ptr(), out.len()) })
}

/// Checks a certificate record beside a plan record.
///
/// ```
/// use fikzarn::{check, Answer};
///
/// // Four boxes and no cable: box 0 is parted from the others with nothing lost.
/// assert_eq!(check(&[4, 0], &[0, 1, 0]), Answer::Grade(0));
/// ```
pub fn check(plan: &[u8], certificate: &[u8]) -> Answer {
    Answer::of(unsafe { foreign::fikzarn_check(plan.as_ptr(), plan.len(), certificate.as_ptr(), certificate.len()) })
}

/// No certificate that [`certify`] makes is longer: a buffer of this many bytes has room for that of any plan.
pub const CERTIFICATE_ROOM: usize = 1536;

/// What [`certify`] made.
#[derive(Clone, Copy, Debug, PartialEq, Eq)]
pub struct Certified<'a> {
    /// The plan's grade, 0 to 3.
    pub grade: u8,
    /// A certificate that [`check`] accepts with that grade: the first bytes of the buffer.
    pub certificate: &'a [u8],
}

/// Makes a certificate at the start of `out`; the bytes behind it keep their values. Refused, with no byte changed, where the plan
/// is, or else with 30 at 0 where `out` is shorter than the certificate. The same plan gets the same certificate, however long `out`
/// is.
///
/// ```
/// use fikzarn::{certify, Answer, CERTIFICATE_ROOM};
///
/// let mut room = [0; CERTIFICATE_ROOM];
/// assert_eq!(certify(&[4, 3, 0, 1, 1, 2, 2, 3], &mut room)?.grade, 1);
/// // Four boxes and no cable: three bytes are enough.
/// assert_eq!(certify(&[4, 0], &mut [0; 3])?.certificate, [0, 1, 0]);
/// assert_eq!(certify(&[4, 0], &mut [0; 2]), Err(Answer::PlanFault(30, 0)));
/// # Ok::<(), Answer>(())
/// ```
pub fn certify<'a>(plan: &[u8], out: &'a mut [u8]) -> Result<Certified<'a>, Answer> {
    let word = unsafe { foreign::fikzarn_certify(plan.as_ptr(), plan.len(), out.as_mut_ptr(), out.len()) };
    match Answer::of(word) {
        Answer::Grade(grade) => Ok(Certified { grade, certificate: &out[..(word >> 16) as usize] }),
        refused => Err(refused),
    }
}

/// What [`certificate_length`] answers.
#[derive(Clone, Copy, Debug, PartialEq, Eq, Hash)]
pub struct CertificateLength {
    /// The plan's grade, 0 to 3.
    pub grade: u8,
    /// How many bytes the certificate that [`certify`] makes has; at most [`CERTIFICATE_ROOM`].
    pub length: usize,
}

/// The grade of a plan, and the length of the certificate that [`certify`] makes of it; nothing is written. Refused where the plan is.
///
/// ```
/// use fikzarn::{certificate_length, certify, Answer};
///
/// // Certificates side by side, each in just the bytes that it needs.
/// let plans = [&[4, 3, 0, 1, 1, 2, 2, 3][..], &[4, 0]];
/// let mut store = Vec::new();
/// for plan in plans {
///     let from = store.len();
///     store.resize(from + certificate_length(plan)?.length, 0);
///     certify(plan, &mut store[from..])?;
/// }
/// assert_eq!(store, [1, 1, 0, 1, 0, 2, 1, 3, 2, 1, 0, 0, 1, 0]);
/// # Ok::<(), Answer>(())
/// ```
pub fn certificate_length(plan: &[u8]) -> Result<CertificateLength, Answer> {
    let word = unsafe { foreign::fikzarn_certificate_length(plan.as_ptr(), plan.len()) };
    match Answer::of(word) {
        Answer::Grade(grade) => Ok(CertificateLength { grade, length: (word >> 16) as usize }),
        refused => Err(refused),
    }
}

/// No plan record is longer: a buffer of this many bytes has room for any plan, and for any list of [`mend`].
pub const PLAN_ROOM: usize = 1028;

/// What [`mend`] made: three records, each the first bytes of its buffer.
#[derive(Clone, Copy, Debug, PartialEq, Eq)]
pub struct Mended<'a> {
    /// The cables to lay, written like a plan record; [`cables`](Mended::cables) reads them.
    pub list: &'a [u8],
    /// The plan with its own cables, doubles too, and those of the list. Its grade is 3.
    pub mended: &'a [u8],
    /// The certificate that [`certify`] makes of the mended plan.
    pub certificate: &'a [u8],
}

impl<'a> Mended<'a> {
    /// The cables to lay, in order, each with its lower box first.
    pub fn cables(&self) -> impl ExactSizeIterator<Item = (u8, u8)> + 'a {
        // The number of boxes and that of cables stand before them. A box is one byte.
        behind_number(behind_number(self.list)).chunks_exact(2).map(|ends| (ends[0], ends[1]))
    }
}

fn behind_number(bytes: &[u8]) -> &[u8] {
    match bytes {
        [128..=255, _, rest @ ..] | [_, rest @ ..] => rest,
        [] => &[],
    }
}

/// Which cables to lay so that a plan gets grade 3. Every two boxes with no cable between them are proposed; from the last of these
/// pairs to the first, one is struck out where the grade is still 3 without it and those struck out before; what remains is the list.
/// So with all of it the grade is 3, and with any one left out below 3. The list of a plan of grade 3 is empty.
///
/// The bytes of a buffer behind its record keep their values. Refused, with no byte changed, where the plan is; or with 32 at 0 where
/// plan and list together have more than 512 cables, each cable of a double counted; or else with 30 at 0 where a buffer is shorter
/// than its record. The same plan gets the same records, however long the buffers are.
///
/// ```
/// use fikzarn::{check, mend, Answer, CERTIFICATE_ROOM, PLAN_ROOM};
///
/// // Two barns with three boxes each, and one cable between them.
/// let plan = [6, 7, 0, 1, 0, 2, 1, 2, 2, 3, 3, 4, 3, 5, 4, 5];
/// let (mut list, mut mended, mut certificate) = ([0; PLAN_ROOM], [0; PLAN_ROOM], [0; CERTIFICATE_ROOM]);
/// let made = mend(&plan, &mut list, &mut mended, &mut certificate)?;
/// assert!(made.cables().eq([(0, 5), (1, 4)]));
/// assert_eq!(made.list, [6, 2, 0, 5, 1, 4]);
/// assert_eq!(made.mended, [6, 9, 0, 1, 0, 2, 0, 5, 1, 2, 1, 4, 2, 3, 3, 4, 3, 5, 4, 5]);
/// assert_eq!(check(made.mended, made.certificate), Answer::Grade(3));
/// // The list has six bytes.
/// assert_eq!(mend(&plan, &mut list[..5], &mut mended, &mut certificate), Err(Answer::PlanFault(30, 0)));
/// # Ok::<(), Answer>(())
/// ```
pub fn mend<'a>(plan: &[u8], list: &'a mut [u8], mended: &'a mut [u8], certificate: &'a mut [u8]) -> Result<Mended<'a>, Answer> {
    let word = unsafe {
        foreign::fikzarn_mend(
            plan.as_ptr(),
            plan.len(),
            list.as_mut_ptr(),
            list.len(),
            mended.as_mut_ptr(),
            mended.len(),
            certificate.as_mut_ptr(),
            certificate.len(),
        )
    };
    let [first, second, third] = [16, 32, 48].map(|from| (word >> from & 65535) as usize);
    match Answer::of(word) {
        Answer::Grade(_) => Ok(Mended { list: &list[..first], mended: &mended[..second], certificate: &certificate[..third] }),
        refused => Err(refused),
    }
}

/// How the replay of a script ended.
#[derive(Clone, Copy, Debug, PartialEq, Eq, Hash)]
pub enum End {
    /// Every call was made.
    Replayed,
    /// The script ends inside the next call.
    Cut,
    /// The next call is none of `s`, `p`, `b`, `c`.
    UnknownCall,
    /// The next call is whole, but the buffer has no room for its answer.
    NoRoom,
}

/// What [`session`] made.
#[derive(Clone, Copy, Debug, PartialEq, Eq)]
pub struct Replay<'a> {
    /// How it ended.
    pub end: End,
    words: &'a [u8],
}

impl<'a> Replay<'a> {
    /// The answer to each call that was made, the opening first.
    pub fn answers(&self) -> impl ExactSizeIterator<Item = Answer> + 'a {
        self.words.chunks_exact(8).map(|bytes| Answer::of(bytes.iter().rev().fold(0, |word, &byte| word << 8 | byte as u64)))
    }
}

/// Replays a session script: a plan record, then calls, `s` (start) or `p` (path) with a part, `b` (back) or `c` (close); the record and
/// each part have their length before them, two bytes, the lower first. `b` takes the last path back: the session is then as it was
/// before that path. `out` takes eight bytes for each answer, so eight times the script's length is always enough; the bytes behind the
/// answers keep their values.
///
/// ```
/// use fikzarn::{session, Answer, End};
///
/// // Four boxes, each cabled to every other: opened, started, closed.
/// let plan = [4, 6, 0, 1, 0, 2, 0, 3, 1, 2, 1, 3, 2, 3];
/// let start = [0, 1, 2, 3, 2, 0, 1, 2, 0, 2, 2, 0, 3, 2, 1, 2, 2, 1, 3, 2, 2, 3];
/// let script = [&[14, 0][..], &plan, b"s", &[22, 0], &start, b"c"].concat();
/// let mut out = [0; 24];
/// let replay = session(&script, &mut out);
/// assert_eq!(replay.end, End::Replayed);
/// assert!(replay.answers().eq([Answer::Accepted, Answer::Accepted, Answer::Grade(3)]));
/// // There is no path to take back, and the start stays.
/// let (longer, mut out) = ([&script[..], b"bc"].concat(), [0; 40]);
/// let replay = session(&longer, &mut out);
/// assert!(replay.answers().skip(3).eq([Answer::CertificateFault(31, 0), Answer::Grade(3)]));
/// ```
pub fn session<'a>(script: &[u8], out: &'a mut [u8]) -> Replay<'a> {
    let word = unsafe { foreign::fikzarn_session(script.as_ptr(), script.len(), out.as_mut_ptr(), out.len()) };
    let end = match word & 65535 {
        0 => End::Replayed,
        1 => End::Cut,
        2 => End::UnknownCall,
        3 => End::NoRoom,
        _ => unreachable!("{word} is no end of a replay"),
    };
    Replay { end, words: &out[..8 * (word >> 16) as usize] }
}

/// How many ways of cabling `size` numbered boxes, with one cable or none between each two, give that grade; 0 for any size but 4, 5 and 6
/// and for any grade above 3. Each call counts anew, for 6 boxes in some hundredths of a second.
///
/// ```
/// use fikzarn::count;
///
/// assert_eq!([0, 1, 2, 3].map(|grade| count(4, grade)), [26, 28, 9, 1]);
/// assert_eq!(count(4, 4), 0);
/// ```
pub fn count(size: u64, grade: u64) -> u64 {
    unsafe { foreign::fikzarn_count(size, grade) }
}

/// Which edition of the records the library reads.
pub fn edition() -> u64 {
    unsafe { foreign::fikzarn_edition() }
}

/// The least number of boxes in a plan.
pub fn min_boxes() -> u64 {
    unsafe { foreign::fikzarn_min_boxes() }
}

/// The largest number of boxes in a plan.
pub fn max_boxes() -> u64 {
    unsafe { foreign::fikzarn_max_boxes() }
}

/// The largest number of cables in a plan, each cable of a double counted.
pub fn max_cables() -> u64 {
    unsafe { foreign::fikzarn_max_cables() }
}

/// [`CERTIFICATE_ROOM`], as the library has it.
pub fn certificate_room() -> u64 {
    unsafe { foreign::fikzarn_certificate_room() }
}
