// The second implementation: plans, certificates, building sessions and a certifier, written from document 01 and requests 1, 2, 4 and
// 7 of document 02 alone (request 3 changes no answer, request 5 is in counts.rs, request 6 in mend.rs).
// A box is a vertex here, a cable an edge, a lost box a removed vertex, a further path a BG-path.
// Nothing is tuned: sets are vectors, and each test stands beside the sentence that asks for it.

/// "An answer is a grade, or the record at fault with a number and a place. An accepted opening, start or path has a case of its own,
/// without a grade." Request 4: accepted, taking back "has the case of an accepted path, and its record at fault is the certificate".
#[derive(Debug, PartialEq, Eq, Clone, Copy)]
pub enum Answer {
    Accepted,
    Grade(u8),
    PlanFault(u8, usize),
    CertificateFault(u8, usize),
}

/// A refusal: its number and its place.
pub type Fault = (u8, usize);

pub const LEAST_VERTICES: usize = 4;
pub const MOST_VERTICES: usize = 128;
pub const MOST_EDGES: usize = 512;
pub const MOST_INPUT: usize = 4096;

#[derive(Debug, PartialEq, Eq, Clone)]
pub struct Plan {
    pub n: usize,
    /// Each edge as (lower, higher), ascending. Request 1: "A cable equal to its predecessor is to be allowed."
    pub edges: Vec<(usize, usize)>,
}

impl Plan {
    /// A plan from edges in any order, either end first, each of them once.
    pub fn new(n: usize, edges: impl IntoIterator<Item = (usize, usize)>) -> Plan {
        Plan::with_doubles(n, edges).simple()
    }

    /// A plan from edges in any order, either end first; one that comes again is a double.
    pub fn with_doubles(n: usize, edges: impl IntoIterator<Item = (usize, usize)>) -> Plan {
        let mut edges: Vec<_> = edges.into_iter().map(|(a, b)| (a.min(b), a.max(b))).collect();
        edges.sort();
        Plan { n, edges }
    }

    /// The "different pairs of boxes with at least one cable between them".
    pub fn pairs(&self) -> Vec<(usize, usize)> {
        let mut pairs = self.edges.clone();
        pairs.dedup();
        pairs
    }

    /// The plan with each double written once.
    pub fn simple(&self) -> Plan {
        Plan { n: self.n, edges: self.pairs() }
    }

    pub fn adjacent(&self, a: usize, b: usize) -> bool {
        self.edges.binary_search(&(a.min(b), a.max(b))).is_ok()
    }

    /// The vertices that each vertex is joined to, each once.
    pub fn neighbours(&self) -> Vec<Vec<usize>> {
        let mut lists = vec![Vec::new(); self.n];
        for (a, b) in self.pairs() {
            lists[a].push(b);
            lists[b].push(a);
        }
        lists
    }

    /// "then exactly m−n−2 further paths"; none where m is below n+2 (29). Request 1: "wherever 01 counts cables in the rules of
    /// kind 3, in the session and in the test against n+2, m becomes the number of cabled pairs".
    pub fn further_paths(&self) -> Option<usize> {
        self.pairs().len().checked_sub(self.n + 2)
    }
}

// ---------------------------------------------------------------- reading numbers

/// A record and the place of its next byte.
pub struct Reader<'a> {
    bytes: &'a [u8],
    place: usize,
}

impl<'a> Reader<'a> {
    pub fn new(bytes: &'a [u8]) -> Self {
        Reader { bytes, place: 0 }
    }

    /// "A number is written in groups of seven bits, lowest group first. A byte of 128 or more says that another follows."
    fn number(&mut self) -> Result<usize, Fault> {
        // 1: "The record ends inside a number or before one that is due. Place: its length."
        let ended = Err((1, self.bytes.len()));
        let Some(&first) = self.bytes.get(self.place) else { return ended };
        if first < 128 {
            self.place += 1;
            return Ok(first as usize);
        }
        let Some(&second) = self.bytes.get(self.place + 1) else { return ended };
        // Request 7: "Number 2 stays with a second byte of 0, and number 33 takes a second byte of 128 or more, in the same turn and at
        // the same place." That is, as document 01 has it for both, "the number's first byte".
        match second {
            0 => return Err((2, self.place)),
            128.. => return Err((33, self.place)),
            _ => self.place += 2,
        }
        Ok((first as usize - 128) + 128 * second as usize)
    }

    /// "Numbers are read in order, with 1, 2, then the range." 33 has the turn of 2.
    fn number_within(&mut self, least: usize, most: usize, refusal: u8) -> Result<usize, Fault> {
        let place = self.place;
        let value = self.number()?;
        if value < least || value > most {
            return Err((refusal, place));
        }
        Ok(value)
    }

    /// 9: "a box not below n".
    fn vertex(&mut self, n: usize) -> Result<usize, Fault> {
        self.number_within(0, n - 1, 9)
    }

    /// "A path is written as a length L and then L boxes". 9: "a length above n or below the least named for that path".
    fn path(&mut self, n: usize, least: usize) -> Result<Vec<usize>, Fault> {
        let length = self.number_within(least, n, 9)?;
        (0..length).map(|_| self.vertex(n)).collect()
    }

    /// 20: "A box of a side, of the lost pair or of the four not above its predecessor", tested when it is read.
    fn vertex_above(&mut self, n: usize, before: Option<usize>) -> Result<usize, Fault> {
        let place = self.place;
        let vertex = self.vertex(n)?;
        if before.is_some_and(|before| vertex <= before) {
            return Err((20, place));
        }
        Ok(vertex)
    }

    /// 7: "A byte after the last number. Place: that byte."
    fn ended(&self) -> Result<(), Fault> {
        if self.place < self.bytes.len() {
            return Err((7, self.place));
        }
        Ok(())
    }
}

// ---------------------------------------------------------------- plans

fn plan_from(reader: &mut Reader) -> Result<Plan, Fault> {
    let n = reader.number_within(LEAST_VERTICES, MOST_VERTICES, 3)?;
    let m = reader.number_within(0, MOST_EDGES, 4)?;
    let mut edges: Vec<(usize, usize)> = Vec::new();
    for _ in 0..m {
        // "A cable is read whole, then tested for 5, 6." Both: "Place: lower box."
        let place = reader.place;
        let lower = reader.number()?;
        let higher = reader.number()?;
        if lower >= higher || higher >= n {
            return Err((5, place));
        }
        // Request 1: 6 "is from now on given only to a cable that comes before its predecessor".
        if edges.last().is_some_and(|&before| (lower, higher) < before) {
            return Err((6, place));
        }
        edges.push((lower, higher));
    }
    Ok(Plan { n, edges })
}

/// A whole plan record; a byte left over is 7.
pub fn read_plan(bytes: &[u8]) -> Result<Plan, Fault> {
    let mut reader = Reader::new(bytes);
    let plan = plan_from(&mut reader)?;
    reader.ended()?;
    Ok(plan)
}

/// "Here the plan ends with its last cable": the plan, and how many bytes it took.
pub fn read_plan_prefix(bytes: &[u8]) -> Result<(Plan, usize), Fault> {
    let mut reader = Reader::new(bytes);
    let plan = plan_from(&mut reader)?;
    Ok((plan, reader.place))
}

// ---------------------------------------------------------------- certificates

/// "Plan faults come before certificate faults".
pub fn check(plan: &[u8], certificate: &[u8]) -> Answer {
    match read_plan(plan) {
        Err((number, place)) => Answer::PlanFault(number, place),
        Ok(plan) => check_beside(&plan, certificate),
    }
}

/// The answer for a certificate beside an accepted plan.
pub fn check_beside(plan: &Plan, certificate: &[u8]) -> Answer {
    match check_kind(plan, &mut Reader::new(certificate)) {
        Ok(kind) => Answer::Grade(kind),
        Err((number, place)) => Answer::CertificateFault(number, place),
    }
}

fn check_kind(plan: &Plan, reader: &mut Reader) -> Result<u8, Fault> {
    // 8: "Kind above 3."
    let kind = reader.number_within(0, 3, 8)?;
    match kind {
        0 => check_side(plan, reader, &[])?,
        1 => check_tree(plan, reader)?,
        2 => check_ears(plan, reader)?,
        _ => check_build(plan, reader)?,
    }
    reader.ended()?;
    Ok(kind as u8)
}

/// The side of kinds 0 to 2, and what must hold of it and the rest.
fn check_side(plan: &Plan, reader: &mut Reader, removed: &[usize]) -> Result<(), Fault> {
    let n = plan.n;
    let count_place = reader.place;
    // 9: "a side count above n".
    let count = reader.number_within(0, n, 9)?;
    let mut side: Vec<usize> = Vec::new();
    for _ in 0..count {
        let place = reader.place;
        let vertex = reader.vertex_above(n, side.last().copied())?;
        // 21: "A side box that is lost."
        if removed.contains(&vertex) {
            return Err((21, place));
        }
        side.push(vertex);
    }
    // "the rest is every box neither lost nor in the side".
    let rest: Vec<usize> = (0..n).filter(|v| !removed.contains(v) && !side.contains(v)).collect();
    // 22: "Side or rest empty. Place: side count."
    if side.is_empty() || rest.is_empty() {
        return Err((22, count_place));
    }
    // 23: "A cable between side and rest. Place: side count."
    for &(a, b) in &plan.edges {
        if side.contains(&a) && rest.contains(&b) || rest.contains(&a) && side.contains(&b) {
            return Err((23, count_place));
        }
    }
    Ok(())
}

/// Kind 1: "a box c; a first box; n−1 pairs (new box, a box named before as first box or new box) with a cable between the two; a side.
/// c is lost."
fn check_tree(plan: &Plan, reader: &mut Reader) -> Result<(), Fault> {
    let n = plan.n;
    let removed = reader.vertex(n)?;
    let mut named = vec![reader.vertex(n)?];
    for _ in 0..n - 1 {
        // "A path or a pair of kind 1 is read whole, then tested for 24, 25, 26, 27." The place is "for a pair of kind 1 its new box's".
        let place = reader.place;
        let new = reader.vertex(n)?;
        let old = reader.vertex(n)?;
        if !plan.adjacent(new, old) {
            return Err((24, place));
        }
        if !named.contains(&old) {
            return Err((25, place));
        }
        if named.contains(&new) {
            return Err((26, place));
        }
        named.push(new);
    }
    check_side(plan, reader, &[removed])
}

/// Kind 2: "two boxes, ascending, which are lost; an ear count of 1 to n−2; the ears; a side."
fn check_ears(plan: &Plan, reader: &mut Reader) -> Result<(), Fault> {
    let n = plan.n;
    let lower = reader.vertex_above(n, None)?;
    let higher = reader.vertex_above(n, Some(lower))?;
    let count = reader.number_within(1, n - 2, 9)?;
    let mut reached = vec![false; n];
    for index in 0..count {
        let place = reader.place;
        let ear = reader.path(n, 3)?;
        let number = if index == 0 { first_ear_fault(plan, &ear) } else { later_ear_fault(plan, &reached, &ear) };
        if let Some(number) = number {
            return Err((number, place));
        }
        for &vertex in &ear {
            reached[vertex] = true;
        }
    }
    // 28: "A box that isn't in after a certificate's last ear"; "Place: after it"; "28 comes before the side".
    if reached.contains(&false) {
        return Err((28, reader.place));
    }
    check_side(plan, reader, &[lower, higher])
}

/// "The first ear has L of 3 or more, all its boxes differ and a cable joins last to first."
fn first_ear_fault(plan: &Plan, ear: &[usize]) -> Option<u8> {
    if !neighbours_adjacent(plan, ear) || !plan.adjacent(ear[ear.len() - 1], ear[0]) {
        return Some(24);
    }
    repeated(ear).then_some(26)
}

/// "A later ear has L of 3 or more, two different ends already in, and all inner boxes new."
fn later_ear_fault(plan: &Plan, reached: &[bool], ear: &[usize]) -> Option<u8> {
    if !neighbours_adjacent(plan, ear) {
        return Some(24);
    }
    if !reached[ear[0]] || !reached[ear[ear.len() - 1]] {
        return Some(25);
    }
    (inner(ear).iter().any(|&v| reached[v]) || repeated(ear)).then_some(26)
}

/// Kind 3: the start, "then exactly m−n−2 further paths, a count that isn't written".
fn check_build(plan: &Plan, reader: &mut Reader) -> Result<(), Fault> {
    // 29: "Kind 3, or opening a session, with m below n+2. Place: 0." "For a certificate 29 comes right after the kind".
    let Some(further) = plan.further_paths() else { return Err((29, 0)) };
    let mut build = read_start(plan, reader)?;
    for _ in 0..further {
        let path = read_bg_path(plan, &build, reader)?;
        build.take(path);
    }
    // 28: "a box that is no branch box after its last path (the sixth, where none follows)"; "Place: after it".
    if !build.complete() {
        return Err((28, reader.place));
    }
    Ok(())
}

/// 24: "Two neighbours without a cable", within a path.
fn neighbours_adjacent(plan: &Plan, path: &[usize]) -> bool {
    path.windows(2).all(|pair| plan.adjacent(pair[0], pair[1]))
}

/// 26: "any box, an end too, is twice on a path".
fn repeated(path: &[usize]) -> bool {
    (1..path.len()).any(|i| path[..i].contains(&path[i]))
}

pub fn inner(path: &[usize]) -> &[usize] {
    &path[1..path.len() - 1]
}

// ---------------------------------------------------------------- lengths and lent buffers

/// Every number of a record.
pub fn numbers(record: &[u8]) -> Result<Vec<usize>, Fault> {
    let mut reader = Reader::new(record);
    let mut numbers = Vec::new();
    while reader.place < record.len() {
        numbers.push(reader.number()?);
    }
    Ok(numbers)
}

/// Request 2: "With d cabled pairs, a side of s boxes and k ears, the maker's certificate has 2+s numbers for kind 0, 2n+2+s for kind
/// 1, n+3k+3+s for kind 2 and 3d−2n+13 for kind 3." The same rules count the numbers of every accepted certificate.
pub fn number_count(plan: &Plan, numbers: &[usize]) -> usize {
    let (n, d) = (plan.n, plan.pairs().len());
    match numbers[0] {
        0 => 2 + numbers[1],
        1 => 2 * n + 2 + numbers[2 * n + 1],
        2 => {
            let k = numbers[3];
            let side = (0..k).fold(4, |ear, _| ear + 1 + numbers[ear]);
            n + 3 * k + 3 + numbers[side]
        }
        _ => 3 * d + 13 - 2 * n,
    }
}

/// How many numbers of an accepted certificate take two bytes, where it is as long as request 2 says; else what is wrong. "A number
/// costs one byte below 128, else two."
pub fn long_numbers(plan: &Plan, certificate: &[u8]) -> Result<usize, String> {
    let numbers = numbers(certificate).map_err(|fault| format!("no numbers: {fault:?}"))?;
    let long = numbers.iter().filter(|&&value| value >= 128).count();
    let count = number_count(plan, &numbers);
    let given = (numbers.len(), certificate.len());
    match given == (count, count + long) {
        true => Ok(long),
        false => Err(format!("{given:?} numbers and bytes, expected {:?}", (count, count + long))),
    }
}

/// What the maker answers, and the bytes that it writes, where it is lent so many bytes: from the plan's fault, or the grade and the
/// certificate that it makes. "Plan faults come before certificate faults, and for the maker before 30."
pub fn lent(room: usize, made: Result<(u8, &[u8]), Fault>) -> (Answer, &[u8]) {
    match made {
        Err((number, place)) => (Answer::PlanFault(number, place), &[]),
        // Request 2: "Number 30 now means that the buffer is shorter than that certificate, and is given for nothing else."
        Ok((_, certificate)) if room < certificate.len() => (Answer::PlanFault(30, 0), &[]),
        Ok((grade, certificate)) => (Answer::Grade(grade), certificate),
    }
}

// ---------------------------------------------------------------- building for grade 3

/// "A box of the build is either a branch box or an inner box of just one link".
#[derive(Debug, PartialEq, Eq, Clone)]
pub struct Build {
    pub inside: Vec<bool>,
    pub branch: Vec<bool>,
    pub links: Vec<Vec<usize>>,
}

impl Build {
    /// "The four branch boxes are in from the first".
    pub fn new(n: usize, four: &[usize]) -> Build {
        let mut build = Build { inside: vec![false; n], branch: vec![false; n], links: Vec::new() };
        for &vertex in four {
            build.inside[vertex] = true;
            build.branch[vertex] = true;
        }
        build
    }

    /// 27: "One link holds both ends", "the link's own ends counted".
    pub fn one_link_holds(&self, a: usize, b: usize) -> bool {
        self.links.iter().any(|link| link.contains(&a) && link.contains(&b))
    }

    /// "Taking it in makes each end a branch box, splits any link that had that end inside, and adds the path as a link."
    pub fn take(&mut self, path: Vec<usize>) {
        for end in [path[0], path[path.len() - 1]] {
            if !self.branch[end] {
                self.branch[end] = true;
                self.split(end);
            }
        }
        for &vertex in &path {
            self.inside[vertex] = true;
        }
        self.links.push(path);
    }

    fn split(&mut self, vertex: usize) {
        for index in 0..self.links.len() {
            if let Some(at) = self.links[index].iter().position(|&v| v == vertex) {
                let tail = self.links[index][at..].to_vec();
                self.links[index].truncate(at + 1);
                self.links.push(tail);
                return;
            }
        }
    }

    /// "At the end every box is a branch box; being inside a link isn't enough."
    pub fn complete(&self) -> bool {
        self.branch.iter().all(|&branch| branch)
    }
}

/// "four ascending branch boxes p, q, r, s; six paths for pq, pr, ps, qr, qs, rs in that order, written from the first to the second,
/// with L of 2 or more".
pub fn read_start(plan: &Plan, reader: &mut Reader) -> Result<Build, Fault> {
    let n = plan.n;
    let mut four: Vec<usize> = Vec::new();
    for _ in 0..4 {
        four.push(reader.vertex_above(n, four.last().copied())?);
    }
    let mut build = Build::new(n, &four);
    for (first, second) in [(0, 1), (0, 2), (0, 3), (1, 2), (1, 3), (2, 3)] {
        let place = reader.place;
        let path = reader.path(n, 2)?;
        if let Some(number) = start_path_fault(plan, &build, &path, four[first], four[second]) {
            return Err((number, place));
        }
        build.take(path);
    }
    Ok(build)
}

fn start_path_fault(plan: &Plan, build: &Build, path: &[usize], first: usize, second: usize) -> Option<u8> {
    if !neighbours_adjacent(plan, path) {
        return Some(24);
    }
    // 25: "a start path has a wrong end".
    if path[0] != first || path[path.len() - 1] != second {
        return Some(25);
    }
    // "every inner box of a start path must be new, so the six meet only at their ends".
    (inner(path).iter().any(|&v| build.inside[v]) || repeated(path)).then_some(26)
}

/// A further path, "read whole, then tested for 24, 25, 26, 27"; the place is "for a path its length's".
pub fn read_bg_path(plan: &Plan, build: &Build, reader: &mut Reader) -> Result<Vec<usize>, Fault> {
    let place = reader.place;
    let path = reader.path(plan.n, 2)?;
    match bg_path_fault(plan, build, &path) {
        Some(number) => Err((number, place)),
        None => Ok(path),
    }
}

/// "A further path has L of 2 or more, two different ends in the build and all inner boxes new. No link may hold both its ends, the
/// link's own ends counted."
fn bg_path_fault(plan: &Plan, build: &Build, path: &[usize]) -> Option<u8> {
    let (first, last) = (path[0], path[path.len() - 1]);
    if !neighbours_adjacent(plan, path) {
        return Some(24);
    }
    if !build.inside[first] || !build.inside[last] {
        return Some(25);
    }
    if inner(path).iter().any(|&v| build.inside[v]) || repeated(path) {
        return Some(26);
    }
    build.one_link_holds(first, last).then_some(27)
}

// ---------------------------------------------------------------- sessions

/// "A building session carries its plan." Without a plan it was never opened, without a build it was not yet given its start. The
/// accepted parts, as far as they were read, are the start and then the paths.
#[derive(Debug, PartialEq, Eq, Clone)]
pub struct Session {
    pub plan: Option<Plan>,
    pub build: Option<Build>,
    pub parts: Vec<Vec<u8>>,
}

/// "A refused opening gives a session never opened". 29 is the plan's here, and comes "after all plan faults".
pub fn open(bytes: &[u8]) -> (Answer, Session) {
    let never = Session { plan: None, build: None, parts: Vec::new() };
    match read_plan(bytes) {
        Err((number, place)) => (Answer::PlanFault(number, place), never),
        Ok(plan) if plan.further_paths().is_none() => (Answer::PlanFault(29, 0), never),
        Ok(plan) => (Answer::Accepted, Session { plan: Some(plan), ..never }),
    }
}

impl Session {
    /// The number is the count of unread bytes. "On refusal a session, its unread record and a buffer are as before."
    pub fn start(mut self, part: &[u8]) -> (Answer, Session, usize) {
        // 31: "a second start", or a session never opened. "A session call gives 31 before reading."
        let (Some(plan), None) = (&self.plan, &self.build) else { return self.refuse((31, 0), part) };
        let mut reader = Reader::new(part);
        match read_start(plan, &mut reader) {
            Err(fault) => self.refuse(fault, part),
            Ok(build) => {
                self.build = Some(build);
                self.accept(part, reader.place)
            }
        }
    }

    pub fn path(mut self, part: &[u8]) -> (Answer, Session, usize) {
        // 31: "a path before the start or after m−n−2 paths".
        let all_in = self.all_in();
        let (Some(plan), Some(build), false) = (&self.plan, &mut self.build, all_in) else { return self.refuse((31, 0), part) };
        let mut reader = Reader::new(part);
        match read_bg_path(plan, build, &mut reader) {
            Err(fault) => self.refuse(fault, part),
            Ok(path) => {
                build.take(path);
                self.accept(part, reader.place)
            }
        }
    }

    /// Request 4: "After taking back, the session equals the one before that path". So it is built once more from the opening, without
    /// the last part.
    pub fn back(mut self) -> (Answer, Session) {
        // 31: "at place 0 when no path is there to take back". "The start itself can't be taken back."
        if self.parts.len() < 2 {
            return (Answer::CertificateFault(31, 0), self);
        }
        self.parts.pop();
        let mut before = Session { plan: self.plan, build: None, parts: Vec::new() };
        for (index, part) in self.parts.iter().enumerate() {
            let answer;
            (answer, before, _) = if index == 0 { before.start(part) } else { before.path(part) };
            assert_eq!(answer, Answer::Accepted);
        }
        (Answer::Accepted, before)
    }

    /// "Closing hands back grade 3 and the session unaltered."
    pub fn close(self) -> (Answer, Session) {
        let answer = match &self.build {
            // 31: "closing before the start and all m−n−2 paths are in".
            Some(build) if self.all_in() => {
                // 28: a box that is no branch box; "0 at closing".
                if build.complete() {
                    Answer::Grade(3)
                } else {
                    Answer::CertificateFault(28, 0)
                }
            }
            _ => Answer::CertificateFault(31, 0),
        };
        (answer, self)
    }

    /// Whether the start and m−n−2 paths are in.
    fn all_in(&self) -> bool {
        let due = self.plan.as_ref().and_then(Plan::further_paths);
        due.is_some_and(|due| self.parts.len() == 1 + due)
    }

    fn accept(mut self, part: &[u8], read: usize) -> (Answer, Session, usize) {
        self.parts.push(part[..read].to_vec());
        (Answer::Accepted, self, part.len() - read)
    }

    fn refuse(self, (number, place): Fault, part: &[u8]) -> (Answer, Session, usize) {
        (Answer::CertificateFault(number, place), self, part.len())
    }
}

// ---------------------------------------------------------------- scripts of session calls

/// How the replay of a script ended: every call was made; it ends inside the next one; the next one is none of s, p, b, c.
#[derive(Debug, PartialEq, Eq, Clone, Copy)]
pub enum End {
    Replayed,
    Cut,
    UnknownCall,
}

/// Replays a script as include/fikzarn.h lays it out: a plan record, then calls. The answer to each call, the opening first, a
/// start's or path's with the number of unread bytes; and how it ended.
pub fn replay(script: &[u8]) -> (Vec<(Answer, Option<usize>)>, End) {
    replay_seen(script, |_| {})
}

/// One call of a replay: its letter, its part, the answer, and the session after it.
pub struct Seen<'a> {
    pub call: u8,
    pub part: &'a [u8],
    pub answer: Answer,
    pub session: &'a Session,
}

/// The same, and each call behind the opening is shown.
pub fn replay_seen(script: &[u8], mut see: impl FnMut(Seen)) -> (Vec<(Answer, Option<usize>)>, End) {
    let mut rest = script;
    let Some(plan) = next_part(&mut rest) else { return (Vec::new(), End::Cut) };
    let (opened, mut session) = open(plan);
    let mut answers = vec![(opened, None)];
    while let Some((&call, after)) = rest.split_first() {
        rest = after;
        let (answer, unread);
        let mut part: &[u8] = &[];
        match call {
            b'c' => ((answer, session), unread) = (session.close(), None),
            b'b' => ((answer, session), unread) = (session.back(), None),
            b's' | b'p' => {
                let Some(next) = next_part(&mut rest) else { return (answers, End::Cut) };
                let left;
                part = next;
                (answer, session, left) = if call == b's' { session.start(part) } else { session.path(part) };
                unread = Some(left);
            }
            _ => return (answers, End::UnknownCall),
        }
        see(Seen { call, part, answer, session: &session });
        answers.push((answer, unread));
    }
    (answers, End::Replayed)
}

/// Takes a length, two bytes, the lower first, and as many bytes off the front, if they are there.
pub fn next_part<'a>(rest: &mut &'a [u8]) -> Option<&'a [u8]> {
    let (length, after) = rest.split_first_chunk::<2>()?;
    let (part, after) = after.split_at_checked(u16::from_le_bytes(*length) as usize)?;
    *rest = after;
    Some(part)
}

// ---------------------------------------------------------------- the checking program

/// The line that the checking program prints, without its newline.
pub fn program_line(input: &[u8]) -> String {
    if input.len() > MOST_INPUT {
        return "input too long".to_string();
    }
    let (plan, end) = match read_plan_prefix(input) {
        Err((number, place)) => return format!("plan refused {number} at {place}"),
        Ok(read) => read,
    };
    match check_beside(&plan, &input[end..]) {
        // Request 1: "The program still prints all cables."
        Answer::Grade(grade) => format!("boxes {} cables {} grade {}", plan.n, plan.edges.len(), grade),
        Answer::CertificateFault(number, place) => format!("certificate refused {number} at {place}"),
        other => unreachable!("{other:?}"),
    }
}

// ---------------------------------------------------------------- vertex connectivity, capped at 3

/// The loss figure as document 01 words it: removal of 0, 1, 2 vertices.
pub fn connectivity(plan: &Plan) -> u8 {
    let neighbours = plan.neighbours();
    if !all_connected(&neighbours, &[]) {
        return 0;
    }
    if (0..plan.n).any(|a| !all_connected(&neighbours, &[a])) {
        return 1;
    }
    if (0..plan.n).any(|a| (0..a).any(|b| !all_connected(&neighbours, &[a, b]))) {
        return 2;
    }
    3
}

/// Whether walks outside `removed` join all the vertices outside it.
fn all_connected(neighbours: &[Vec<usize>], removed: &[usize]) -> bool {
    let mut seen: Vec<bool> = (0..neighbours.len()).map(|v| removed.contains(&v)).collect();
    let Some(root) = seen.iter().position(|&seen| !seen) else { return true };
    seen[root] = true;
    let mut stack = vec![root];
    while let Some(vertex) = stack.pop() {
        for &next in &neighbours[vertex] {
            if !seen[next] {
                seen[next] = true;
                stack.push(next);
            }
        }
    }
    !seen.contains(&false)
}

/// The same figure by low points (Tarjan), for large plans: cut vertices of the graph and of the graph less each vertex.
pub fn connectivity_by_low_points(plan: &Plan) -> u8 {
    let neighbours = plan.neighbours();
    if !all_connected(&neighbours, &[]) {
        return 0;
    }
    if has_cut_vertex(&neighbours, None) {
        return 1;
    }
    if (0..plan.n).any(|removed| has_cut_vertex(&neighbours, Some(removed))) {
        return 2;
    }
    3
}

/// Whether a connected graph, less one vertex perhaps, has a cut vertex.
fn has_cut_vertex(neighbours: &[Vec<usize>], removed: Option<usize>) -> bool {
    struct Walk<'a> {
        neighbours: &'a [Vec<usize>],
        removed: Option<usize>,
        order: Vec<usize>,
        count: usize,
        found: bool,
    }
    impl Walk<'_> {
        /// The lowest order reached from the subtree of `vertex`.
        fn visit(&mut self, vertex: usize, parent: Option<usize>) -> usize {
            self.count += 1;
            let order = self.count;
            self.order[vertex] = order;
            let mut low = order;
            let mut children = 0;
            for &next in &self.neighbours[vertex] {
                if Some(next) == self.removed || Some(next) == parent {
                    continue;
                }
                if self.order[next] > 0 {
                    low = low.min(self.order[next]);
                    continue;
                }
                children += 1;
                let reached = self.visit(next, Some(vertex));
                low = low.min(reached);
                if parent.is_some() && reached >= order || parent.is_none() && children > 1 {
                    self.found = true;
                }
            }
            low
        }
    }
    let root = if removed == Some(0) { 1 } else { 0 };
    let mut walk = Walk { neighbours, removed, order: vec![0; neighbours.len()], count: 0, found: false };
    walk.visit(root, None);
    walk.found
}

// ---------------------------------------------------------------- writing

/// The shortest form of a number below 16,384.
pub fn encode_number(value: usize) -> Vec<u8> {
    assert!(value < 128 * 128);
    if value < 128 {
        vec![value as u8]
    } else {
        vec![(value % 128) as u8 + 128, (value / 128) as u8]
    }
}

pub fn encode_numbers(numbers: &[usize]) -> Vec<u8> {
    numbers.iter().flat_map(|&value| encode_number(value)).collect()
}

/// n, m and the edges, whatever they are.
pub fn encode_edges(n: usize, edges: &[(usize, usize)]) -> Vec<u8> {
    encode_numbers(&plan_numbers(n, edges))
}

pub fn plan_numbers(n: usize, edges: &[(usize, usize)]) -> Vec<usize> {
    let mut numbers = vec![n, edges.len()];
    edges.iter().for_each(|&(lower, higher)| numbers.extend([lower, higher]));
    numbers
}

pub fn encode_plan(plan: &Plan) -> Vec<u8> {
    encode_edges(plan.n, &plan.edges)
}

/// A certificate as data, one case a kind.
#[derive(Debug, PartialEq, Eq, Clone)]
pub enum Certificate {
    Side { side: Vec<usize> },
    Tree { removed: usize, root: usize, pairs: Vec<(usize, usize)>, side: Vec<usize> },
    Ears { removed: [usize; 2], ears: Vec<Vec<usize>>, side: Vec<usize> },
    Build { four: [usize; 4], paths: Vec<Vec<usize>> },
}

impl Certificate {
    /// The numbers of the record, item by item: kind, vertices, pairs, counts, paths and sides (each with its length).
    pub fn items(&self) -> Vec<Vec<usize>> {
        let counted = |list: &Vec<usize>| [vec![list.len()], list.clone()].concat();
        match self {
            Certificate::Side { side } => vec![vec![0], counted(side)],
            Certificate::Tree { removed, root, pairs, side } => {
                let mut items = vec![vec![1], vec![*removed], vec![*root]];
                items.extend(pairs.iter().map(|&(new, old)| vec![new, old]));
                items.push(counted(side));
                items
            }
            Certificate::Ears { removed, ears, side } => {
                let mut items = vec![vec![2], removed.to_vec(), vec![ears.len()]];
                items.extend(ears.iter().map(counted));
                items.push(counted(side));
                items
            }
            Certificate::Build { four, paths } => {
                let mut items = vec![vec![3], four.to_vec()];
                items.extend(paths.iter().map(counted));
                items
            }
        }
    }
}

pub fn encode_items(items: &[Vec<usize>]) -> Vec<u8> {
    encode_numbers(&items.concat())
}

pub fn encode_certificate(certificate: &Certificate) -> Vec<u8> {
    encode_items(&certificate.items())
}

// ---------------------------------------------------------------- seeded choices

/// Numbers from a seed (splitmix64).
#[derive(Clone)]
pub struct Random(u64);

impl Random {
    pub fn new(seed: u64) -> Random {
        Random(seed)
    }

    pub fn next(&mut self) -> u64 {
        self.0 = self.0.wrapping_add(0x9e37_79b9_7f4a_7c15);
        let mut z = self.0;
        z = (z ^ (z >> 30)).wrapping_mul(0xbf58_476d_1ce4_e5b9);
        z = (z ^ (z >> 27)).wrapping_mul(0x94d0_49bb_1331_11eb);
        z ^ (z >> 31)
    }

    /// A number from 0 to `bound`-1.
    pub fn below(&mut self, bound: usize) -> usize {
        (self.next() % bound as u64) as usize
    }

    /// A number from `least` to `most`.
    pub fn within(&mut self, least: usize, most: usize) -> usize {
        least + self.below(most - least + 1)
    }

    /// True `percent` times in a hundred.
    pub fn chance(&mut self, percent: usize) -> bool {
        self.below(100) < percent
    }

    pub fn pick<'a, T>(&mut self, list: &'a [T]) -> &'a T {
        &list[self.below(list.len())]
    }

    pub fn shuffle<T>(&mut self, list: &mut [T]) {
        for i in (1..list.len()).rev() {
            list.swap(i, self.below(i + 1));
        }
    }
}

// ---------------------------------------------------------------- the certifier

/// A certificate that the checker accepts, always the same for the same plan.
pub fn certify(plan: &Plan) -> Vec<u8> {
    encode_certificate(&certify_with(plan, &mut Random::new(1)))
}

/// A certificate that the checker accepts; which one, the generator decides.
pub fn certify_with(plan: &Plan, random: &mut Random) -> Certificate {
    let neighbours = plan.neighbours();
    let (root, pairs) = tree(&neighbours, random);
    if pairs.len() + 1 < plan.n {
        return Certificate::Side { side: side_without(&neighbours, &[], random) };
    }
    let ears = match ears(&neighbours, random) {
        Ok(ears) => ears,
        Err(removed) => {
            let side = side_without(&neighbours, &[removed], random);
            return Certificate::Tree { removed, root, pairs, side };
        }
    };
    match build(plan, random) {
        Ok((four, paths)) => Certificate::Build { four, paths },
        Err((a, b)) => {
            let side = side_without(&neighbours, &[a, b], random);
            Certificate::Ears { removed: [a.min(b), a.max(b)], ears, side }
        }
    }
}

/// A path from a seed to a goal with no seed or goal strictly inside and no removed vertex on it, or the closed set that was reached.
pub fn search(
    neighbours: &[Vec<usize>],
    seeds: &[usize],
    goal: &[bool],
    removed: &[bool],
    random: &mut Random,
) -> Result<Vec<usize>, Vec<bool>> {
    let deep = random.chance(50);
    let mut parent = vec![usize::MAX; neighbours.len()];
    let mut open: Vec<(usize, usize)> = seeds.iter().map(|&seed| (seed, seed)).collect();
    random.shuffle(&mut open);
    let mut is_seed = vec![false; neighbours.len()];
    for &seed in seeds {
        is_seed[seed] = true;
    }
    while !open.is_empty() {
        // Depth first gives long paths, any other order gives the others.
        let at = if deep { open.len() - 1 } else { random.below(open.len()) };
        let (vertex, from) = open.swap_remove(at);
        if parent[vertex] != usize::MAX {
            continue;
        }
        parent[vertex] = from;
        if goal[vertex] {
            return Ok(trace(&parent, vertex));
        }
        let first = open.len();
        open.extend(neighbours[vertex].iter().filter(|&&v| !removed[v] && !is_seed[v]).map(|&v| (v, vertex)));
        random.shuffle(&mut open[first..]);
    }
    Err(parent.iter().map(|&parent| parent != usize::MAX).collect())
}

fn trace(parent: &[usize], goal: usize) -> Vec<usize> {
    let mut path = vec![goal];
    let mut vertex = goal;
    while parent[vertex] != vertex {
        vertex = parent[vertex];
        path.push(vertex);
    }
    path.reverse();
    path
}

pub fn marks(n: usize, members: &[usize]) -> Vec<bool> {
    let mut marks = vec![false; n];
    for &vertex in members {
        marks[vertex] = true;
    }
    marks
}

/// A root and pairs (new, named before), for every vertex that the root is connected to.
pub fn tree(neighbours: &[Vec<usize>], random: &mut Random) -> (usize, Vec<(usize, usize)>) {
    let root = random.below(neighbours.len());
    let mut named = marks(neighbours.len(), &[root]);
    let mut open: Vec<(usize, usize)> = neighbours[root].iter().map(|&v| (v, root)).collect();
    let mut pairs = Vec::new();
    while !open.is_empty() {
        let at = random.below(open.len());
        let (new, old) = open.swap_remove(at);
        if !named[new] {
            named[new] = true;
            pairs.push((new, old));
            open.extend(neighbours[new].iter().map(|&v| (v, new)));
        }
    }
    (root, pairs)
}

/// Some of the components that `removed` leaves, ascending: at least one and, where there are two or more, not all.
pub fn side_without(neighbours: &[Vec<usize>], removed: &[usize], random: &mut Random) -> Vec<usize> {
    let n = neighbours.len();
    let away = marks(n, removed);
    let mut left: Vec<usize> = (0..n).filter(|&v| !away[v]).collect();
    let mut components: Vec<Vec<usize>> = Vec::new();
    while let Some(&vertex) = left.first() {
        let reached = search(neighbours, &[vertex], &vec![false; n], &away, random).unwrap_err();
        components.push(left.iter().copied().filter(|&v| reached[v]).collect());
        left.retain(|&v| !reached[v]);
    }
    random.shuffle(&mut components);
    let most = components.len().saturating_sub(1).max(1);
    let count = random.within(1, most);
    let mut side = components[..count].concat();
    side.sort();
    side
}

/// Ears that reach every vertex of a connected graph, or a cut vertex.
fn ears(neighbours: &[Vec<usize>], random: &mut Random) -> Result<Vec<Vec<usize>>, usize> {
    let n = neighbours.len();
    // First a cycle: from one neighbour of the root to another, avoiding the root.
    let root = random.below(n);
    let first = *random.pick(&neighbours[root]);
    let mut goal = marks(n, &neighbours[root]);
    goal[first] = false;
    let cycle = match search(neighbours, &[first], &goal, &marks(n, &[root]), random) {
        Ok(path) => [vec![root], path].concat(),
        Err(_) => return Err(if neighbours[root].len() == 1 { first } else { root }),
    };
    let mut reached = marks(n, &cycle);
    let mut ears = vec![cycle];
    // Then, while a vertex is out: an edge from in to out, and back to another vertex that is in.
    while reached.contains(&false) {
        let (u, w) = edge_outwards(neighbours, &reached, random);
        let mut goal = reached.clone();
        goal[u] = false;
        let Ok(path) = search(neighbours, &[w], &goal, &marks(n, &[u]), random) else { return Err(u) };
        for &vertex in &path {
            reached[vertex] = true;
        }
        ears.push([vec![u], path].concat());
    }
    Ok(ears)
}

/// An edge from a vertex that is in to one that is out; the graph is connected and both exist.
pub fn edge_outwards(neighbours: &[Vec<usize>], inside: &[bool], random: &mut Random) -> (usize, usize) {
    let mut list = Vec::new();
    for u in (0..neighbours.len()).filter(|&u| inside[u]) {
        list.extend(neighbours[u].iter().filter(|&&w| !inside[w]).map(|&w| (u, w)));
    }
    *random.pick(&list)
}

type Whole = ([usize; 4], Vec<Vec<usize>>);

/// Branch vertices and paths for a 3-connected plan, or a separation pair of a 2-connected one.
fn build(plan: &Plan, random: &mut Random) -> Result<Whole, (usize, usize)> {
    let neighbours = plan.neighbours();
    let (four, mut paths) = start(&neighbours, random)?;
    let mut build = Build::new(plan.n, &four);
    for path in &paths {
        build.take(path.clone());
    }
    let eager = *random.pick(&[0, 10, 50, 90]);
    let detour = *random.pick(&[0, 10, 50]);
    loop {
        let early = if random.chance(eager) { any_bg_path(&neighbours, &build, random) } else { None };
        if early.is_none() && random.chance(detour) && reroute_somewhere(&neighbours, &mut build, &mut paths, random) {
            continue;
        }
        let path = if early.is_some() { early } else { due_path(&neighbours, &build, random)? };
        let Some(path) = path else { break };
        // Where one link holds both ends, that link is an edge, and is led over the path.
        if build.one_link_holds(path[0], path[path.len() - 1]) {
            reroute(&mut build, &mut paths, &path);
        } else {
            build.take(path.clone());
            paths.push(path);
        }
    }
    // Only edges are left.
    let mut unused: Vec<(usize, usize)> = plan.pairs().into_iter().filter(|&(a, b)| !build.one_link_holds(a, b)).collect();
    random.shuffle(&mut unused);
    paths.extend(unused.into_iter().map(|(a, b)| if random.chance(50) { vec![a, b] } else { vec![b, a] }));
    Ok((four, paths))
}

/// A path from inside a link; where all links are edges, one through a vertex outside the build; none where no vertex is outside. Or
/// the ends of a link, where they separate its inner vertices from the rest.
fn due_path(neighbours: &[Vec<usize>], build: &Build, random: &mut Random) -> Result<Option<Vec<usize>>, (usize, usize)> {
    let long: Vec<&Vec<usize>> = build.links.iter().filter(|link| link.len() > 2).collect();
    if !long.is_empty() {
        let link = *random.pick(&long);
        return path_from_inside(neighbours, build, link, random).map(Some);
    }
    if build.inside.contains(&false) {
        return Ok(Some(path_out_and_back(neighbours, build, random)));
    }
    Ok(None)
}

/// From an inner vertex of a link to the rest of the build, avoiding the link's ends; or these, where there is no such path.
fn path_from_inside(
    neighbours: &[Vec<usize>],
    build: &Build,
    link: &[usize],
    random: &mut Random,
) -> Result<Vec<usize>, (usize, usize)> {
    let (a, b) = (link[0], link[link.len() - 1]);
    let mut goal = build.inside.clone();
    link.iter().for_each(|&v| goal[v] = false);
    search(neighbours, inner(link), &goal, &marks(neighbours.len(), &[a, b]), random).map_err(|_| (a, b))
}

/// From a vertex of the build to one outside, and back to another vertex of the build.
fn path_out_and_back(neighbours: &[Vec<usize>], build: &Build, random: &mut Random) -> Vec<usize> {
    let (x, c) = edge_outwards(neighbours, &build.inside, random);
    let mut goal = build.inside.clone();
    goal[x] = false;
    let back = search(neighbours, &[c], &goal, &marks(neighbours.len(), &[x]), random).expect("2-connected");
    [vec![x], back].concat()
}

/// Four branch vertices and six links between them, or a separation pair.
pub fn start(neighbours: &[Vec<usize>], random: &mut Random) -> Result<Whole, (usize, usize)> {
    let n = neighbours.len();
    let u = random.below(n);
    let mut near = neighbours[u].clone();
    random.shuffle(&mut near);
    if near.len() == 2 {
        return Err((near[0], near[1]));
    }
    let (w, mut links) = three_links(neighbours, u, &near, random);
    random.shuffle(&mut links);
    // From inside one link to inside another, avoiding u and w.
    let from = links.iter().position(|link| link.len() > 2).expect("at most one link is an edge");
    let others: Vec<usize> = (0..3).filter(|&i| i != from).flat_map(|i| inner(&links[i]).to_vec()).collect();
    let path = search(neighbours, inner(&links[from]), &marks(n, &others), &marks(n, &[u, w]), random).map_err(|_| (u, w))?;
    let (x, y) = (path[0], path[path.len() - 1]);
    let mut pieces = vec![path];
    for link in links {
        match link.iter().position(|&v| v == x || v == y) {
            Some(at) => pieces.extend([link[..=at].to_vec(), link[at..].to_vec()]),
            None => pieces.push(link),
        }
    }
    Ok(in_order([u, w, x, y], pieces))
}

/// A vertex w and three links from u to it: a path between two neighbours of u, and one from a third neighbour to that path.
fn three_links(neighbours: &[Vec<usize>], u: usize, near: &[usize], random: &mut Random) -> (usize, [Vec<usize>; 3]) {
    let n = neighbours.len();
    let without_u = marks(n, &[u]);
    let across = search(neighbours, &[near[0]], &marks(n, &[near[1]]), &without_u, random).expect("2-connected");
    let third = search(neighbours, &[near[2]], &marks(n, &across), &without_u, random).expect("2-connected");
    let w = third[third.len() - 1];
    let at = across.iter().position(|&v| v == w).expect("on the path");
    let back: Vec<usize> = across[at..].iter().rev().copied().collect();
    (w, [across[..=at].to_vec(), back, third].map(|tail| [vec![u], tail].concat()))
}

/// The four ascending, and the six links between them in the order and the direction of a start.
fn in_order(mut four: [usize; 4], mut links: Vec<Vec<usize>>) -> Whole {
    four.sort();
    let mut paths = Vec::new();
    for (i, j) in [(0, 1), (0, 2), (0, 3), (1, 2), (1, 3), (2, 3)] {
        let (first, second) = (four[i], four[j]);
        let link = links.iter_mut().find(|link| link.contains(&first) && link.contains(&second)).expect("a link");
        if link[0] == second {
            link.reverse();
        }
        paths.push(link.clone());
    }
    (four, paths)
}

/// A BG-path from a vertex of the build, if that vertex has one.
pub fn any_bg_path(neighbours: &[Vec<usize>], build: &Build, random: &mut Random) -> Option<Vec<usize>> {
    let inside: Vec<usize> = (0..neighbours.len()).filter(|&v| build.inside[v]).collect();
    let from = *random.pick(&inside);
    let mut goal = build.inside.clone();
    for link in build.links.iter().filter(|link| link.contains(&from)) {
        link.iter().for_each(|&v| goal[v] = false);
    }
    let removed: Vec<bool> = (0..neighbours.len()).map(|v| build.inside[v] && !goal[v]).collect();
    search(neighbours, &[from], &goal, &removed, random).ok()
}

/// Leads a link that is one edge through vertices outside the build, if there is such a way.
fn reroute_somewhere(neighbours: &[Vec<usize>], build: &mut Build, paths: &mut [Vec<usize>], random: &mut Random) -> bool {
    let n = neighbours.len();
    let link = random.pick(&build.links).clone();
    if link.len() > 2 || !build.inside.contains(&false) {
        return false;
    }
    let (x, y) = (link[0], link[1]);
    let outside: Vec<usize> = neighbours[x].iter().copied().filter(|&v| !build.inside[v]).collect();
    let mut removed = build.inside.clone();
    removed[y] = false;
    match search(neighbours, &outside, &marks(n, &[y]), &removed, random) {
        Ok(path) => reroute(build, paths, &[vec![x], path].concat()),
        Err(_) => return false,
    }
    true
}

/// Puts the inner vertices of `path` between its two ends, which are neighbours in one of the recorded paths.
fn reroute(build: &mut Build, paths: &mut [Vec<usize>], path: &[usize]) {
    let ends = (path[0], path[path.len() - 1]);
    for list in [paths, &mut build.links[..]] {
        for record in list.iter_mut() {
            if let Some(at) = record.windows(2).position(|pair| (pair[0], pair[1]) == ends) {
                record.splice(at + 1..at + 1, inner(path).iter().copied());
            } else if let Some(at) = record.windows(2).position(|pair| (pair[1], pair[0]) == ends) {
                record.splice(at + 1..at + 1, inner(path).iter().rev().copied());
            }
        }
    }
    for &vertex in path {
        build.inside[vertex] = true;
    }
}
