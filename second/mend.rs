// Cables that would mend a plan, from request 6 of document 02 alone: the list, what is refused, and what each buffer gets. Which
// certificate is the maker's choice, so the caller hands in a maker.
use crate::reference::*;

/// List, mended plan and certificate, "each of the three in its own buffer".
pub type Records = [Vec<u8>; 3];

/// Up to here the figure is found as document 01 words it, above by routes, since it is asked for thousands of pairs.
pub const MOST_BY_REMOVAL: usize = 10;

/// What is written where all three buffers have room. "the mended plan as a record with the maker's certificate".
pub fn mend(record: &[u8], maker: impl FnOnce(&[u8]) -> Vec<u8>) -> Result<Records, Fault> {
    let plan = read_plan(record)?;
    let list = list(&plan);
    // 32: "When plan and list together exceed 512 cables, number 32 at place 0 is given after all plan faults".
    if plan.edges.len() + list.len() > MOST_EDGES {
        return Err((32, 0));
    }
    let mended = encode_plan(&with(&plan, &list));
    let certificate = maker(&mended);
    // "The list is written like a plan record (n, its size, its pairs)".
    Ok([encode_edges(plan.n, &list), mended, certificate])
}

/// The plan with all its cables, doubles too, and those of the list.
pub fn with(plan: &Plan, list: &[(usize, usize)]) -> Plan {
    Plan::with_doubles(plan.n, plan.edges.iter().chain(list).copied())
}

/// What the call writes where it is lent so many bytes each, or its refusal, with which "no refusal writes a byte".
pub fn lent(rooms: [usize; 3], made: &Result<Records, Fault>) -> Result<&Records, Fault> {
    let records = made.as_ref().map_err(|&fault| fault)?;
    // 30: "a buffer too short for any of the three records is number 30, after it".
    match rooms.iter().zip(records).any(|(&room, record)| room < record.len()) {
        true => Err((30, 0)),
        false => Ok(records),
    }
}

/// The word of an answer: grade 3 and "the length written in each buffer, in the order named"; or the plan's fault.
pub fn word(answer: Result<&Records, Fault>) -> u64 {
    match answer {
        Ok(records) => (0..3).map(|i| (records[i].len() as u64) << (16 * (i + 1))).sum::<u64>() + 1 + 256 * 3,
        Err((number, place)) => 2 + 256 * number as u64 + 65536 * place as u64,
    }
}

/// What the program prints: the records one after the other, or a line.
pub fn printed(input: &[u8], made: &Result<Records, Fault>) -> Vec<u8> {
    match made {
        _ if input.len() > MOST_INPUT => b"input too long\n".to_vec(),
        Ok(records) => records.concat(),
        Err((number, place)) => format!("plan refused {number} at {place}\n").into_bytes(),
    }
}

// ---------------------------------------------------------------- the list

/// Whether the figure is still 3 without a pair that was struck last: of the rows, and of the pair's two ends.
pub type StillThree = fn(&[u128], usize, usize) -> bool;

pub fn list(plan: &Plan) -> Vec<(usize, usize)> {
    list_by(plan, if plan.n <= MOST_BY_REMOVAL { by_removal } else { by_routes })
}

/// "Take every pair with no cable between as proposed." So at first every two vertices are joined. A row has the bit of each vertex
/// that its own is joined to.
pub fn list_by(plan: &Plan, still_three: StillThree) -> Vec<(usize, usize)> {
    let n = plan.n;
    let mut rows: Vec<u128> = (0..n).map(|v| all(n) & !(1 << v)).collect();
    let mut left = Vec::new();
    // "Go from the last such pair to the first, in cable order".
    for a in (0..n).rev() {
        for b in (a + 1..n).rev().filter(|&b| !plan.adjacent(a, b)) {
            // "strike a pair out if the figure is still 3 without it and those struck before."
            turn(&mut rows, a, b);
            if !still_three(&rows, a, b) {
                turn(&mut rows, a, b);
                left.push((a, b));
            }
        }
    }
    // "What remains is listed in cable order."
    left.reverse();
    left
}

/// Strikes a pair, or puts it back.
fn turn(rows: &mut [u128], a: usize, b: usize) {
    rows[a] ^= 1 << b;
    rows[b] ^= 1 << a;
}

/// The vertices below n.
fn all(n: usize) -> u128 {
    u128::MAX >> (MOST_VERTICES - n)
}

fn members(mut set: u128) -> impl Iterator<Item = usize> {
    std::iter::from_fn(move || {
        let member = (set != 0).then(|| set.trailing_zeros() as usize);
        set &= set.wrapping_sub(1);
        member
    })
}

/// The figure is "3 where removing 0, 1 or 2 never" leaves the others not all joined.
pub fn by_removal(rows: &[u128], _: usize, _: usize) -> bool {
    let one_or_two = |a: usize| (0..=a).all(|b| joined(rows, 1 << a | 1 << b));
    joined(rows, 0) && (0..rows.len()).all(one_or_two)
}

/// Whether walks outside `removed` join all the vertices outside it.
fn joined(rows: &[u128], removed: u128) -> bool {
    let outside = all(rows.len()) & !removed;
    let mut reached = outside & outside.wrapping_neg();
    let mut new = reached;
    while new != 0 {
        new = members(new).fold(0, |near, v| near | rows[v]) & outside & !reached;
        reached |= new;
    }
    reached == outside
}

/// With the pair the figure was 3: so two vertices that part the others without it part its two ends. Such two are there exactly where
/// there are no three routes between the ends that share no vertex inside (Menger).
pub fn by_routes(rows: &[u128], from: usize, to: usize) -> bool {
    // Each vertex that is joined to both ends is a route.
    (rows[from] & rows[to]).count_ones() >= 3 || {
        let mut ways = Ways::new(rows);
        (0..3).all(|_| ways.one_more(from, to))
    }
}

/// Each vertex twice, as entered and as left, so that one route at most leads through it. For each of these 256 the places that one
/// may go to next: first those entered, then those left. Along a route it is only the way back.
struct Ways([[u128; 2]; 2 * MOST_VERTICES]);

impl Ways {
    fn new(rows: &[u128]) -> Ways {
        let mut ways = [[0; 2]; 2 * MOST_VERTICES];
        for (v, &row) in rows.iter().enumerate() {
            ways[v] = [0, 1 << v];
            ways[MOST_VERTICES + v] = [row, 0];
        }
        Ways(ways)
    }

    /// One route more, where there is one: those before it may change.
    fn one_more(&mut self, from: usize, to: usize) -> bool {
        let mut came = [0; 2 * MOST_VERTICES];
        let (mut seen, mut open) = ([0, 1 << from], vec![MOST_VERTICES + from]);
        while let Some(at) = open.pop() {
            for half in [0, 1] {
                let new = self.0[at][half] & !seen[half];
                seen[half] |= new;
                for next in members(new).map(|v| half * MOST_VERTICES + v) {
                    came[next] = at;
                    open.push(next);
                }
            }
            if seen[0] >> to & 1 == 1 {
                self.take(&came, MOST_VERTICES + from, to);
                return true;
            }
        }
        false
    }

    /// Turns every step of the way that led to a place.
    fn take(&mut self, came: &[usize], from: usize, mut at: usize) {
        while at != from {
            let before = came[at];
            self.0[before][at / MOST_VERTICES] ^= 1 << (at % MOST_VERTICES);
            self.0[at][before / MOST_VERTICES] ^= 1 << (before % MOST_VERTICES);
            at = before;
        }
    }
}
