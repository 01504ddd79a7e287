//! One input, one call of the library, compared with the second implementation: the answer, and every byte of the buffer. `certify` is
//! called with the largest buffer, with the one that the input asks for, and without any, for the length. Around each buffer that
//! `mend` is lent there are bytes that it may not touch.
//! The first byte of an input says which call it is, the second how much room its buffers have; the others are the call's records.
use crate::reference::{self, Answer};
use fikzarn::End;

#[path = "../second/mend.rs"]
mod mend;

pub const CALLS: [&str; 5] = ["plan", "check", "certify", "session", "mend"];
/// How many rooms there are.
const ROOMS: usize = 64;
/// How many bytes stand before the records.
pub const HEAD: usize = 2;

/// The bytes before the records of a call. The room's lowest six bits count as one of the rooms, the others change only what buffers
/// are filled with.
pub fn head(call: usize, room: usize) -> [u8; HEAD] {
    [call as u8, room as u8]
}

/// Which call it was, whether its plan is accepted and has doubles, the answers that both gave, and those of them to taking back.
pub struct Compared {
    pub call: usize,
    pub doubles: bool,
    pub answers: Vec<Answer>,
    pub backs: Vec<Answer>,
}

/// One call, or how the two differ.
pub fn compare(input: &[u8]) -> Result<Compared, String> {
    let (&[first, second], bytes) = input.split_first_chunk::<HEAD>().unwrap_or((&[0; HEAD], &[]));
    let (call, room, fill) = (first as usize % CALLS.len(), second as usize % ROOMS, first ^ second);
    let mut backs = Vec::new();
    let (answers, doubles) = match call {
        0 => (vec![plan(bytes, room, fill)?], has_doubles(bytes)),
        1 => {
            let (plan, certificate) = bytes.split_at(plan_end(bytes, room));
            (vec![check(plan, certificate)?], has_doubles(plan))
        }
        2 => (certify(bytes, room, fill)?, has_doubles(bytes)),
        3 => (session(bytes, room, fill, &mut backs)?, reference::next_part(&mut &*bytes).is_some_and(has_doubles)),
        _ => (vec![mended(bytes, room, fill)?], has_doubles(bytes)),
    };
    Ok(Compared { call, doubles, answers, backs })
}

/// An accepted plan with each double written once, where it has doubles.
fn once(plan: &[u8]) -> Option<Vec<u8>> {
    let simple = reference::encode_plan(&reference::read_plan(plan).ok()?.simple());
    Some(simple).filter(|simple| simple.len() < plan.len())
}

fn has_doubles(plan: &[u8]) -> bool {
    once(plan).is_some()
}

fn plain(answer: fikzarn::Answer) -> Answer {
    match answer {
        fikzarn::Answer::Accepted => Answer::Accepted,
        fikzarn::Answer::Grade(grade) => Answer::Grade(grade),
        fikzarn::Answer::PlanFault(number, place) => Answer::PlanFault(number, place),
        fikzarn::Answer::CertificateFault(number, place) => Answer::CertificateFault(number, place),
    }
}

fn same<T: PartialEq + std::fmt::Debug>(what: &str, given: T, expected: T) -> Result<(), String> {
    match given == expected {
        true => Ok(()),
        false => Err(format!("{what}: the library gave {given:?}, expected {expected:?}")),
    }
}

fn read(bytes: &[u8]) -> Answer {
    match reference::read_plan(bytes) {
        Ok(_) => Answer::Accepted,
        Err((number, place)) => Answer::PlanFault(number, place),
    }
}

/// The buffer is up to 8 bytes shorter than the record, or longer.
fn plan(bytes: &[u8], room: usize, fill: u8) -> Result<Answer, String> {
    let expected = read(bytes);
    let length = (bytes.len() + room).saturating_sub(8);
    let (mut out, mut written) = (vec![fill; length], vec![fill; length]);
    same("plan", plain(fikzarn::plan(bytes, &mut out)), expected)?;
    if expected == Answer::Accepted && bytes.len() <= length {
        written[..bytes.len()].copy_from_slice(bytes);
    }
    same("plan's buffer", out, written)?;
    Ok(expected)
}

/// The certificate begins behind the plan; or, to meet the other faults, somewhere else.
fn plan_end(bytes: &[u8], room: usize) -> usize {
    let end = match reference::read_plan_prefix(bytes) {
        Ok((_, end)) => end + room.saturating_sub(60),
        Err(_) => bytes.len().saturating_sub(room),
    };
    end.min(bytes.len())
}

/// Doubles change no answer.
fn check(plan: &[u8], certificate: &[u8]) -> Result<Answer, String> {
    let expected = reference::check(plan, certificate);
    same("check", plain(fikzarn::check(plan, certificate)), expected)?;
    if let Some(once) = once(plan) {
        same("check with each double written once", plain(fikzarn::check(&once, certificate)), expected)?;
    }
    Ok(expected)
}

/// The certifier's choice is its own: the second implementation has to accept it with the plan's connectivity, and to find it as long
/// as it has to be. It is the same whatever buffer is lent, and doubles change nothing.
fn certify(bytes: &[u8], room: usize, fill: u8) -> Result<Vec<Answer>, String> {
    let read = reference::read_plan(bytes);
    let (made, out) = certified(bytes, fikzarn::CERTIFICATE_ROOM, fill);
    let certificate = &out[..made.map_or(0, |(_, length)| length)];
    let grade = read.as_ref().map(reference::connectivity_by_low_points);
    let due = grade.map(|grade| (grade, certificate)).map_err(|&fault| fault);
    let whole = lent("certify", (made, &out), due, fill)?;
    if let Ok(plan) = &read {
        same("its certificate", reference::check(bytes, certificate), whole)?;
        reference::long_numbers(plan, certificate)?;
    }
    let length = fikzarn::certificate_length(bytes).map(|answered| (answered.grade, answered.length));
    same("certificate_length", length, made)?;
    let (made, out) = certified(bytes, lent_size(certificate.len(), room), fill);
    let answer = lent("certify in another buffer", (made, &out), due, fill)?;
    if let Some(once) = once(bytes) {
        same("certify with each double written once", certified(&once, out.len(), fill), (made, out))?;
    }
    Ok(vec![whole, answer])
}

/// Up to 8 bytes below the certificate's length or above it; a few bytes; any part of it; about as many as the longest has.
fn lent_size(length: usize, room: usize) -> usize {
    match room {
        0..16 => (length + room).saturating_sub(8),
        16..24 => room - 16,
        24..56 => length * (room - 24) / 32,
        _ => fikzarn::CERTIFICATE_ROOM - 60 + room,
    }
}

type Made = Result<(u8, usize), fikzarn::Answer>;

/// The answer, and every byte of the buffer: where a certificate is due it begins with it.
fn lent(what: &str, (made, out): (Made, &[u8]), due: Result<(u8, &[u8]), reference::Fault>, fill: u8) -> Result<Answer, String> {
    let (expected, certificate) = reference::lent(out.len(), due);
    same(what, made.map_or_else(plain, |(grade, _)| Answer::Grade(grade)), expected)?;
    same("its length", made.map_or(0, |(_, length)| length), certificate.len())?;
    let mut buffer = certificate.to_vec();
    buffer.resize(out.len(), fill);
    same("its buffer", out, &buffer)?;
    Ok(expected)
}

/// The grade and the length, or the refusal; and the whole buffer.
fn certified(bytes: &[u8], size: usize, fill: u8) -> (Made, Vec<u8>) {
    let mut out = vec![fill; size];
    let made = fikzarn::certify(bytes, &mut out).map(|made| (made.grade, made.certificate.len()));
    (made, out)
}

extern "C" {
    fn fikzarn_mend(
        plan: *const u8,
        plan_len: usize,
        list: *mut u8,
        list_len: usize,
        mended: *mut u8,
        mended_len: usize,
        certificate: *mut u8,
        certificate_len: usize,
    ) -> u64;
}

/// The whole word, and every byte in the three buffers and around them. The certificate is the one that `certify` writes for the mended
/// plan, and the second implementation has to accept it.
fn mended(bytes: &[u8], room: usize, fill: u8) -> Result<Answer, String> {
    let made = mend::mend(bytes, |mended| {
        let (made, out) = certified(mended, fikzarn::CERTIFICATE_ROOM, fill);
        out[..made.map_or(0, |(_, length)| length)].to_vec()
    });
    if let Ok([_, mended, certificate]) = &made {
        same("the mended plan's certificate", reference::check(mended, certificate), Answer::Grade(3))?;
    }
    let exact = made.as_ref().map_or([4; 3], |records| records.each_ref().map(Vec::len));
    let rooms = [0, 1, 2].map(|i| mend_room(exact[i], room >> (2 * i) & 3, fill));
    let due = mend::lent(rooms, &made);
    let mut buffers = rooms.map(|room| guarded(&[], room, fill));
    same("mend", mend_word(bytes, &mut buffers), mend::word(due))?;
    for i in 0..3 {
        let begin = due.map_or(&[][..], |records| &records[i]);
        same("mend's buffer", &buffers[i], &guarded(begin, rooms[i], fill))?;
    }
    Ok(due.map_or_else(|(number, place)| Answer::PlanFault(number, place), |_| Answer::Grade(3)))
}

/// Shorter by one byte or by more; exact; longer by a few bytes; longer than any record.
fn mend_room(exact: usize, choice: usize, fill: u8) -> usize {
    match choice {
        0 if fill < 128 => exact - 1,
        0 => exact * (fill as usize - 128) / 128,
        1 => exact,
        2 => exact + 1 + fill as usize % 8,
        _ => fikzarn::CERTIFICATE_ROOM + fill as usize,
    }
}

const GUARD: usize = 16;

/// A buffer that begins so, with other bytes before it and behind it.
fn guarded(begin: &[u8], size: usize, fill: u8) -> Vec<u8> {
    [&[!fill; GUARD], begin, &vec![fill; size - begin.len()], &[!fill; GUARD]].concat()
}

/// The archive's own word, with three lengths; each buffer lies between its guards.
fn mend_word(plan: &[u8], buffers: &mut [Vec<u8>; 3]) -> u64 {
    let lengths = buffers.each_ref().map(|buffer| buffer.len() - 2 * GUARD);
    let [list, mended, certificate] = buffers.each_mut().map(|buffer| buffer[GUARD..].as_mut_ptr());
    unsafe { fikzarn_mend(plan.as_ptr(), plan.len(), list, lengths[0], mended, lengths[1], certificate, lengths[2]) }
}

fn session(bytes: &[u8], room: usize, fill: u8, backs: &mut Vec<Answer>) -> Result<Vec<Answer>, String> {
    let length = if room < 16 { 8 * room + room % 8 } else { 8 * bytes.len() };
    let (mut out, (end, expected)) = (vec![fill; length], replay(bytes, length / 8, backs));
    let replay = fikzarn::session(bytes, &mut out);
    same("session", (replay.end, replay.answers().map(plain).collect()), (end, expected.clone()))?;
    let behind = 8 * expected.len();
    same("session's buffer behind the answers", &out[behind..], &vec![fill; length - behind][..])?;
    Ok(expected)
}

/// How a script ends where there is room for `room` answers, and the answers; those to taking back once more in `backs`.
fn replay(script: &[u8], room: usize, backs: &mut Vec<Answer>) -> (End, Vec<Answer>) {
    let mut made = 1;
    let (answers, end) = reference::replay_seen(script, |seen| {
        made += 1;
        backs.extend((seen.call == b'b' && made <= room).then_some(seen.answer));
    });
    let end = match end {
        _ if answers.len() > room => End::NoRoom,
        reference::End::Replayed => End::Replayed,
        reference::End::Cut => End::Cut,
        reference::End::UnknownCall => End::UnknownCall,
    };
    (end, answers.into_iter().map(|(answer, _)| answer).take(room).collect())
}
