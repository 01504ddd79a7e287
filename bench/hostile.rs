// A certificate that makes a check walk far: one link holds nearly all vertices, and the further paths open it one vertex at a time.
use crate::cases::*;
use crate::families::filled;
use crate::reference::*;
use crate::timing::demand;

/// The edges that the long link, its openings and the other five links need.
pub fn least_edges(n: usize) -> usize {
    2 * n - 2
}

/// A plan with m edges beside such a certificate, numbered at random.
pub fn case(n: usize, m: usize, random: &mut Random) -> Case {
    let (plan, certificate) = opened_from_an_end(n, m, random);
    let record = encode_certificate(&certificate);
    demand(check_beside(&plan, &record) == Answer::Grade(3), "the second implementation accepts the certificate");
    Case::new(&plan, 3, record)
}

/// To learn which link has an inner vertex, a check may walk from it to both ends of the link, all along what is left of it. So each
/// path takes the vertex next to an end, which leaves the rest one link. (It is the last end: the first was a little quicker.) The other
/// end of these paths is a third branch vertex.
fn opened_from_an_end(n: usize, m: usize, random: &mut Random) -> (Plan, Certificate) {
    let mut vertices: Vec<usize> = (0..n).collect();
    random.shuffle(&mut vertices);
    vertices[..4].sort();
    let (four, inner) = vertices.split_at(4);
    let [p, q, r, s] = [four[0], four[1], four[2], four[3]];
    let long = [&[p], inner, &[q]].concat();
    let mut paths = vec![long, vec![p, r], vec![p, s], vec![q, r], vec![q, s], vec![r, s]];
    paths.extend(inner.iter().rev().map(|&v| vec![v, r]));
    let steps = paths.iter().flat_map(|path| path.windows(2)).map(|pair| (pair[0], pair[1]));
    let needed = Plan::new(n, steps);
    let plan = filled(needed.clone(), m, random);
    paths.extend(plan.edges.iter().filter(|edge| !needed.adjacent(edge.0, edge.1)).map(|&(a, b)| vec![a, b]));
    (plan, Certificate::Build { four: [p, q, r, s], paths })
}
