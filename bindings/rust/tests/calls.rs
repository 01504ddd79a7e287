//! Every call, with what the examples of the documentation leave out: limits, refusals, buffers behind what is written.
use fikzarn::*;

/// Document 01's barn G: five boxes, each cabled to every other, and its certificate.
const FIVE: [u8; 22] = [5, 10, 0, 1, 0, 2, 0, 3, 0, 4, 1, 2, 1, 3, 1, 4, 2, 3, 2, 4, 3, 4];
const FIVE_BUILD: [u8; 33] = [3, 0, 1, 2, 3, 3, 0, 4, 1, 2, 0, 2, 2, 0, 3, 2, 1, 2, 2, 1, 3, 2, 2, 3, 2, 4, 2, 2, 4, 3, 2, 0, 1];
/// A single doubled cable, and a cable before its predecessor.
const TWICE: [u8; 6] = [4, 2, 0, 1, 0, 1];
const UNSORTED: [u8; 6] = [4, 2, 0, 2, 0, 1];

/// Barn G with every cable doubled.
fn five_doubled() -> Vec<u8> {
    let cables = FIVE[2..].chunks(2).flat_map(|cable| cable.repeat(2));
    [5, 20].into_iter().chain(cables).collect()
}

fn counted(part: &[u8]) -> Vec<u8> {
    [&(part.len() as u16).to_le_bytes()[..], part].concat()
}

/// Barn G, or with doubles, as a script: opened, started, closed too early, three paths, closed.
fn script(plan: &[u8]) -> Vec<u8> {
    let path = |at: usize| [b"p".to_vec(), counted(&FIVE_BUILD[at..at + 3])].concat();
    let start = [b"s".to_vec(), counted(&FIVE_BUILD[1..24])].concat();
    [counted(plan), start, b"c".to_vec(), path(24), path(27), path(30), b"c".to_vec()].concat()
}

#[test]
fn limits() {
    assert_eq!((edition(), min_boxes(), max_boxes(), max_cables()), (7, 4, 128, 512));
    assert_eq!(certificate_room(), CERTIFICATE_ROOM as u64);
    // n and m have up to two bytes each, a box has one.
    assert_eq!(PLAN_ROOM as u64, 4 + 2 * max_cables());
}

#[test]
fn checks() {
    assert_eq!(check(&FIVE, &FIVE_BUILD), Answer::Grade(3));
    // Barn H: the path 0 1 comes first.
    let held = [&FIVE_BUILD[..24], &[2, 0, 1]].concat();
    assert_eq!(check(&FIVE, &held), Answer::CertificateFault(27, 24));
    assert_eq!(check(&five_doubled(), &FIVE_BUILD), Answer::Grade(3));
    assert_eq!(check(&five_doubled(), &held), Answer::CertificateFault(27, 24));
    assert_eq!(check(&UNSORTED, &held), Answer::PlanFault(6, 4));
    assert_eq!(check(&[], &[]), Answer::PlanFault(1, 0));
    let told: Vec<String> = [check(&FIVE, &FIVE_BUILD), check(&UNSORTED, &[]), Answer::Accepted].map(|a| a.to_string()).to_vec();
    assert_eq!(told, ["grade 3", "plan refused 6 at 4", "accepted"]);
}

#[test]
fn plans() {
    let mut out = [170; 24];
    assert_eq!(plan(&FIVE, &mut out[..21]), Answer::Accepted);
    assert_eq!(plan(&UNSORTED, &mut out), Answer::PlanFault(6, 4));
    assert_eq!(out, [170; 24]);
    assert_eq!(plan(&FIVE, &mut out), Answer::Accepted);
    assert_eq!((&out[..22], &out[22..]), (&FIVE[..], &[170, 170][..]));
    for doubled in [&TWICE[..], &five_doubled()] {
        let mut out = [170; 44];
        assert_eq!(plan(doubled, &mut out), Answer::Accepted);
        assert!(out.starts_with(doubled) && out[doubled.len()..].iter().all(|&byte| byte == 170));
    }
}

/// The ring of 128 boxes: its certificate has one ear through all of them, whose length is a number of two bytes.
fn ring() -> Vec<u8> {
    let cables = (1..127).flat_map(|lower| [lower, lower + 1]);
    [128, 1, 128, 1, 0, 1, 0, 127].into_iter().chain(cables).collect()
}

#[test]
fn certificates() {
    let (square, chain) = ([4, 5, 0, 1, 0, 2, 0, 3, 1, 2, 1, 3], [4, 3, 0, 1, 1, 2, 2, 3]);
    let (doubled, ring) = (five_doubled(), ring());
    let plans = [(&FIVE[..], 3), (&doubled, 3), (&square, 2), (&ring, 2), (&chain, 1), (&[4, 0], 0), (&TWICE, 0)];
    for (plan, grade) in plans {
        let mut out = [170; CERTIFICATE_ROOM];
        let made = certify(plan, &mut out).expect("a plan");
        let certificate = made.certificate.to_vec();
        let length = certificate.len();
        assert_eq!((made.grade, check(plan, &certificate)), (grade, Answer::Grade(grade)));
        assert!(out[length..].iter().all(|&byte| byte == 170));
        assert_eq!(certificate_length(plan), Ok(CertificateLength { grade, length }));
        assert_eq!(certify(plan, &mut vec![0; length]), Ok(Certified { grade, certificate: &certificate }));
        for shorter in [0, 1, length / 2, length - 1] {
            let mut out = vec![170; shorter];
            assert_eq!(certify(plan, &mut out), Err(Answer::PlanFault(30, 0)));
            assert!(out.iter().all(|&byte| byte == 170));
        }
    }
}

#[test]
fn refused_plans() {
    let mut out = [170; CERTIFICATE_ROOM];
    assert_eq!(certificate_length(&UNSORTED), Err(Answer::PlanFault(6, 4)));
    assert_eq!(certificate_length(&[]), Err(Answer::PlanFault(1, 0)));
    assert_eq!(certify(&UNSORTED, &mut []), Err(Answer::PlanFault(6, 4)));
    assert_eq!(certify(&UNSORTED, &mut out), Err(Answer::PlanFault(6, 4)));
    assert_eq!(out, [170; CERTIFICATE_ROOM]);
}

/// Three buffers of so many bytes, each filled otherwise, and what the call made of them.
fn lent(plan: &[u8], rooms: [usize; 3]) -> (Result<[Vec<u8>; 3], Answer>, [Vec<u8>; 3]) {
    let [mut list, mut mended, mut certificate] = [0, 1, 2].map(|i| vec![170 + i as u8; rooms[i]]);
    let made = mend(plan, &mut list, &mut mended, &mut certificate);
    let made = made.map(|made| [made.list, made.mended, made.certificate].map(<[u8]>::to_vec));
    (made, [list, mended, certificate])
}

fn not_mended(plan: &[u8], rooms: [usize; 3], number: u8, place: usize) {
    let (made, buffers) = lent(plan, rooms);
    assert_eq!(made, Err(Answer::PlanFault(number, place)));
    assert_eq!(buffers, [0, 1, 2].map(|i| vec![170 + i as u8; rooms[i]]));
}

/// A plan, with the list and the mended plan that are due. The certificate is the one that `certify` makes of the mended plan.
fn mends(plan: &[u8], list: &[u8], mended: &[u8]) {
    let mut out = [0; CERTIFICATE_ROOM];
    let certificate = certify(mended, &mut out).expect("a plan").certificate;
    let (due, exact) = ([list, mended, certificate], [list.len(), mended.len(), certificate.len()]);
    assert_eq!(check(mended, certificate), Answer::Grade(3));
    for rooms in [exact, [PLAN_ROOM, PLAN_ROOM, CERTIFICATE_ROOM], [2000; 3]] {
        let (made, buffers) = lent(plan, rooms);
        assert_eq!(made, Ok(due.map(<[u8]>::to_vec)));
        for (i, buffer) in buffers.iter().enumerate() {
            assert!(buffer.starts_with(due[i]) && buffer[exact[i]..].iter().all(|&byte| byte == 170 + i as u8));
        }
    }
    // One buffer is a byte too short, or has none; the others have room.
    for (i, shorter) in (0..3).flat_map(|i| [(i, exact[i] - 1), (i, 0)]) {
        let mut rooms = [2000; 3];
        rooms[i] = shorter;
        not_mended(plan, rooms, 30, 0);
    }
}

/// Four boxes with the cable 0 1 so many times, and others behind it.
fn repeated(times: usize, others: &[u8]) -> Vec<u8> {
    let cables = times + others.len() / 2;
    [&[4, (128 + cables % 128) as u8, (cables / 128) as u8], &[0, 1].repeat(times)[..], others].concat()
}

#[test]
fn mended_plans() {
    let (four, row, three) = ([4, 6, 0, 1, 0, 2, 0, 3, 1, 2, 1, 3, 2, 3], [4, 3, 0, 1, 1, 2, 2, 3], [4, 3, 0, 2, 0, 3, 1, 3]);
    mends(&four, &[4, 0], &four);
    mends(&row, &three, &four);
    mends(&[4, 0], &four, &four);
    // Doubles stay, and come in no list.
    mends(&TWICE, &[4, 5, 0, 2, 0, 3, 1, 2, 1, 3, 2, 3], &[4, 7, 0, 1, 0, 1, 0, 2, 0, 3, 1, 2, 1, 3, 2, 3]);
    mends(&five_doubled(), &[5, 0], &five_doubled());
    // 512 cables with the list.
    mends(&repeated(507, &row[4..]), &three, &repeated(507, &four[4..]));
}

/// 128 boxes, each cabled to the next four: 512 cables, the longest record that there is, and grade 3. Without a cable the list has more
/// than 127, whose number has two bytes.
#[test]
fn most_boxes() {
    let near = |lower: u8| (lower + 1..128).filter(move |higher| !(5..124).contains(&(higher - lower)));
    let cables = (0..128).flat_map(|lower| near(lower).flat_map(move |higher| [lower, higher]));
    let plan: Vec<u8> = [128, 1, 128, 4].into_iter().chain(cables).collect();
    assert_eq!(plan.len(), PLAN_ROOM);
    mends(&plan, &[128, 1, 0], &plan);
    let (mut list, mut mended, mut certificate) = ([0; PLAN_ROOM], [0; PLAN_ROOM], [0; CERTIFICATE_ROOM]);
    let made = mend(&[128, 1, 0], &mut list, &mut mended, &mut certificate).expect("a plan");
    let cables: Vec<(u8, u8)> = made.cables().collect();
    assert_eq!((made.list, made.list.len()), (made.mended, 4 + 2 * cables.len()));
    assert_eq!(made.list[..4], [128, 1, (128 + cables.len() % 128) as u8, (cables.len() / 128) as u8]);
    assert!(cables.iter().flat_map(|&(lower, higher)| [lower, higher]).eq(made.list[4..].iter().copied()));
    assert_eq!(check(made.mended, made.certificate), Answer::Grade(3));
}

/// The plan's own faults come first, then 32, then 30.
#[test]
fn not_mended_plans() {
    let over = repeated(508, &[1, 2, 2, 3]);
    for rooms in [[0; 3], [PLAN_ROOM, PLAN_ROOM, CERTIFICATE_ROOM]] {
        not_mended(&over, rooms, 32, 0);
        not_mended(&[&over[..], &[0]].concat(), rooms, 7, over.len());
        not_mended(&UNSORTED, rooms, 6, 4);
        not_mended(&[], rooms, 1, 0);
    }
}

#[test]
fn sessions() {
    use Answer::{Accepted, CertificateFault, Grade};
    let answers = [Accepted, Accepted, CertificateFault(31, 0), Accepted, Accepted, Accepted, Grade(3)];
    assert!(session(&script(&five_doubled()), &mut [0; 56]).answers().eq(answers));
    let (script, mut out) = (script(&FIVE), [170; 64]);
    let replay = session(&script, &mut out);
    assert_eq!((replay.end, replay.answers().len()), (End::Replayed, 7));
    assert!(replay.answers().eq(answers));
    assert_eq!(out[56..], [170; 8]);
    let replay = session(&script, &mut out[..31]);
    assert_eq!(replay.end, End::NoRoom);
    assert!(replay.answers().eq(answers[..3].iter().copied()));
    for (more, end) in [(b'x', End::UnknownCall), (b'p', End::Cut)] {
        let longer = [&script[..], &[more]].concat();
        let replay = session(&longer, &mut out);
        assert_eq!((replay.end, replay.answers().len()), (end, 7));
    }
    assert_eq!(session(&[], &mut []).end, End::Cut);
}

/// Barn G with paths taken back: refused before the start and before a path, one taken back and taken again, closed, all three taken back
/// and once more, then the last path first, which is refused while box 4 is inside its link.
#[test]
fn taken_back() {
    use Answer::{Accepted as A, CertificateFault, Grade};
    let (none, held) = (CertificateFault(31, 0), CertificateFault(27, 0));
    let mut script = counted(&FIVE);
    for call in "bsbPbPQRcbcbbbRPR".bytes() {
        match call {
            b's' => script.extend([b"s".to_vec(), counted(&FIVE_BUILD[1..24])].concat()),
            // P, Q and R are the three paths.
            b'P'..=b'R' => {
                let at = 24 + 3 * (call - b'P') as usize;
                script.extend([b"p".to_vec(), counted(&FIVE_BUILD[at..at + 3])].concat());
            }
            _ => script.push(call),
        }
    }
    let answers = [A, none, A, none, A, A, A, A, A, Grade(3), A, none, A, A, none, held, A, A];
    let mut out = [170; 160];
    let replay = session(&script, &mut out);
    assert_eq!(replay.end, End::Replayed);
    assert!(replay.answers().eq(answers));
    assert_eq!(out[144..], [170; 16]);
    let replay = session(&script, &mut out[..71]);
    assert_eq!((replay.end, replay.answers().len()), (End::NoRoom, 8));
}

/// A plan with a number out of its form, by every call that reads a plan: none writes a byte.
fn no_plan(record: &[u8], number: u8, place: usize) {
    let (fault, mut out) = (Answer::PlanFault(number, place), [170; CERTIFICATE_ROOM]);
    assert_eq!(plan(record, &mut out), fault);
    assert_eq!(certify(record, &mut out), Err(fault));
    assert_eq!(certify(record, &mut []), Err(fault));
    assert_eq!(out, [170; CERTIFICATE_ROOM]);
    assert_eq!(certificate_length(record), Err(fault));
    assert_eq!(check(record, &[0, 1, 0]), fault);
    for rooms in [[0; 3], [PLAN_ROOM, PLAN_ROOM, CERTIFICATE_ROOM]] {
        not_mended(record, rooms, number, place);
    }
    // A session that is opened on it, and closed.
    let script = [counted(record), b"c".to_vec()].concat();
    let replay = session(&script, &mut out);
    assert_eq!(replay.end, End::Replayed);
    assert!(replay.answers().eq([fault, Answer::CertificateFault(31, 0)]));
    assert_eq!(out[16..], [170; CERTIFICATE_ROOM - 16]);
}

/// A number's second byte is 0 (2), or is 128 or more (33), at the record's end too; where there is none it is 1.
#[test]
fn numbers_out_of_form() {
    no_plan(&[132], 1, 1);
    no_plan(&[132, 0], 2, 0);
    no_plan(&[132, 0, 128, 128], 2, 0);
    no_plan(&[132, 128], 33, 0);
    no_plan(&[132, 128, 0, 0], 33, 0);
    no_plan(&[4, 131, 0, 0, 1], 2, 1);
    no_plan(&[4, 131, 128, 0, 1], 33, 1);
    no_plan(&[4, 1, 0, 129, 0], 2, 3);
    no_plan(&[4, 1, 0, 129, 255], 33, 3);
    let no_certificate = |plan: &[u8], certificate: &[u8], number, place| {
        assert_eq!(check(plan, certificate), Answer::CertificateFault(number, place));
    };
    no_certificate(&[4, 0], &[128, 0, 1, 0], 2, 0);
    no_certificate(&[4, 0], &[128, 128], 33, 0);
    no_certificate(&[4, 0], &[0, 1, 128, 0], 2, 2);
    no_certificate(&[4, 0], &[0, 1, 128, 128], 33, 2);
    no_certificate(&FIVE, &[2, 0, 1, 130, 128], 33, 3);
    no_certificate(&FIVE, &[3, 0, 1, 2, 3, 131, 0, 0, 4, 1], 2, 5);
    no_certificate(&FIVE, &[3, 0, 1, 2, 3, 131, 128, 0, 4, 1], 33, 5);
}

/// Barn G's session, with parts that have a number out of its form before the start and before the first path.
#[test]
fn parts_out_of_form() {
    use Answer::{Accepted, CertificateFault};
    let calls = [
        (b's', &[0, 1, 2, 131, 0][..], CertificateFault(2, 3)),
        (b's', &[0, 1, 2, 131, 128], CertificateFault(33, 3)),
        (b's', &[0, 1, 2, 3, 131, 255, 0, 4, 1], CertificateFault(33, 4)),
        (b's', &FIVE_BUILD[1..24], Accepted),
        (b'p', &[130, 0, 4, 2], CertificateFault(2, 0)),
        (b'p', &[130, 128], CertificateFault(33, 0)),
        (b'p', &[2, 4, 130, 128, 0], CertificateFault(33, 2)),
        (b'p', &FIVE_BUILD[24..27], Accepted),
    ];
    let mut script = counted(&FIVE);
    for (call, part, _) in calls {
        script.push(call);
        script.extend(counted(part));
    }
    let mut out = [170; 80];
    let replay = session(&script, &mut out);
    assert_eq!((replay.end, replay.answers().len()), (End::Replayed, 9));
    assert!(replay.answers().skip(1).eq(calls.map(|(_, _, answer)| answer)));
    assert_eq!(out[72..], [170; 8]);
}

/// Document 02's counts of four and five boxes; six boxes have 15 pairs. Some of the others have a size, or a grade, in their lowest bits.
#[test]
fn counts() {
    let of = |size| [0, 1, 2, 3].map(|grade| count(size, grade));
    assert_eq!((of(4), of(5)), ([26, 28, 9, 1], [296, 490, 212, 26]));
    assert_eq!(of(6).iter().sum::<u64>(), 1 << 15);
    for size in [0, 3, 7, 128, 256 + 4, 65536 + 5, (1 << 32) + 6, u64::MAX] {
        assert_eq!(of(size), [0; 4]);
    }
    for grade in [4, 5, 256, 65536 + 1, 1 << 32, (1 << 63) + 3, u64::MAX] {
        assert_eq!([3, 4, 5, 6, 7].map(|size| count(size, grade)), [0; 5]);
    }
}
