// What is timed on a graph: the libraries and the search, with every answer tested.
use crate::reference::*;
use crate::timing::*;

type Check = unsafe extern "C" fn(*const u8, usize, *const u8, usize) -> u64;
type Certify = unsafe extern "C" fn(*const u8, usize, *mut u8, usize) -> u64;

extern "C" {
    fn fikzarn_check(plan: *const u8, plan_len: usize, cert: *const u8, cert_len: usize) -> u64;
    fn fikzarn_certify(plan: *const u8, plan_len: usize, out: *mut u8, out_len: usize) -> u64;
    fn bench_search(first: *const u32, neighbours: *const u32, n: u32, root: u32, distance: *mut u32) -> u32;
}

#[cfg(lengths)]
extern "C" {
    fn fikzarn_certificate_length(plan: *const u8, plan_len: usize) -> u64;
}

#[cfg(old)]
extern "C" {
    fn old_fikzarn_check(plan: *const u8, plan_len: usize, cert: *const u8, cert_len: usize) -> u64;
    fn old_fikzarn_certify(plan: *const u8, plan_len: usize, out: *mut u8, out_len: usize) -> u64;
}

pub struct Library {
    pub name: &'static str,
    check: Check,
    certify: Certify,
}

/// The new library is the last; before it stands the old one, where bench/run was given one.
pub const LIBRARIES: &[Library] = &[
    #[cfg(old)]
    Library { name: "old", check: old_fikzarn_check, certify: old_fikzarn_certify },
    Library { name: "new", check: fikzarn_check, certify: fikzarn_certify },
];
pub const NEW: &Library = &LIBRARIES[LIBRARIES.len() - 1];

/// The buffer that the certifier is lent.
const SPACE: usize = 1536;

/// A graph as check and certify have it, plan record and certificate, and as the search has it, adjacency lists.
#[derive(Clone)]
pub struct Case {
    pub plan: Vec<u8>,
    pub certificate: Vec<u8>,
    pub grade: u8,
    pub n: usize,
    pub m: usize,
    first: Vec<u32>,
    neighbours: Vec<u32>,
}

impl Case {
    /// Every library's certificate must be accepted by every library.
    pub fn new(plan: &Plan, grade: u8, certificate: Vec<u8>) -> Case {
        let lists = plan.neighbours();
        let ends = lists.iter().scan(0, |end, list| {
            *end += list.len() as u32;
            Some(*end)
        });
        let case = Case {
            plan: encode_plan(plan),
            certificate,
            grade,
            n: plan.n,
            m: plan.edges.len(),
            first: [0].into_iter().chain(ends).collect(),
            neighbours: lists.concat().into_iter().map(|v| v as u32).collect(),
        };
        for maker in LIBRARIES {
            let mut out = [0; SPACE];
            let made = case.certify(maker, &mut out);
            LIBRARIES.iter().for_each(|library| case.check(library, &out[..made]));
        }
        case
    }

    fn search(&self, distance: &mut [u32]) {
        let n = self.n as u32;
        let reached = unsafe { bench_search(self.first.as_ptr(), self.neighbours.as_ptr(), n, 0, distance.as_mut_ptr()) };
        demand(reached == n, "the search reaches every vertex");
    }

    fn check(&self, library: &Library, certificate: &[u8]) {
        let word = unsafe { (library.check)(self.plan.as_ptr(), self.plan.len(), certificate.as_ptr(), certificate.len()) };
        demand(word == self.graded(), "the check answers the grade");
    }

    fn certify(&self, library: &Library, out: &mut [u8]) -> usize {
        let word = unsafe { (library.certify)(self.plan.as_ptr(), self.plan.len(), out.as_mut_ptr(), out.len()) };
        demand(word % (1 << 16) == self.graded(), "the certifier answers the grade");
        (word >> 16) as usize
    }

    /// The library's word for the grade; the certifier's has the length above it.
    fn graded(&self) -> u64 {
        1 + 256 * self.grade as u64
    }

    /// The length of the library's certificate.
    pub fn made(&self, library: &Library) -> usize {
        self.certify(library, &mut [0; SPACE])
    }

    pub fn time_search(&self, times: u32) -> f64 {
        let mut distance = [0; MOST_VERTICES];
        microseconds(times, || self.search(&mut distance))
    }

    pub fn time_check(&self, library: &Library, times: u32) -> f64 {
        microseconds(times, || self.check(library, &self.certificate))
    }

    pub fn time_certify(&self, library: &Library, times: u32) -> f64 {
        self.time_lent(library, &mut [0; SPACE], times)
    }

    /// The new library's certifier, lent just as many bytes as its certificate has.
    pub fn time_exact(&self, times: u32) -> f64 {
        let length = self.made(NEW);
        self.time_lent(NEW, &mut [0; SPACE][..length], times)
    }

    fn time_lent(&self, library: &Library, out: &mut [u8], times: u32) -> f64 {
        let made = self.certify(library, out);
        microseconds(times, || demand(self.certify(library, out) == made, "the certifier answers the same length"))
    }

    /// The new library's answer without a buffer.
    #[cfg(lengths)]
    pub fn time_length(&self, times: u32) -> f64 {
        let due = self.graded() + 65536 * self.made(NEW) as u64;
        microseconds(times, || {
            let word = unsafe { fikzarn_certificate_length(self.plan.as_ptr(), self.plan.len()) };
            demand(word == due, "the length is the certificate's");
        })
    }
}
