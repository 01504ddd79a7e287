// Known answers, a call a line: its name, its inputs in hex (`-` for no bytes), the answer; tabs between. For calls that write into
// several buffers: the function, its inputs, the buffers' lengths, the word, what each buffer begins with.
use crate::reference::{check, numbers, Answer};

/// Hex in pieces apart by blanks; `-` is no byte, `00*4092` is that byte 4092 times.
pub fn bytes_of(text: &str) -> Vec<u8> {
    let mut bytes = Vec::new();
    for piece in text.split_whitespace().filter(|&piece| piece != "-") {
        let (hex, times) = piece.split_once('*').unwrap_or((piece, "1"));
        let byte = |i: usize| u8::from_str_radix(&hex[2 * i..2 * i + 2], 16).expect("hex");
        let part: Vec<u8> = (0..hex.len() / 2).map(byte).collect();
        bytes.extend(part.repeat(times.parse().expect("a count")));
    }
    bytes
}

/// What the answer to `certify` tells of a certificate of kind 3 besides the grade.
pub fn numbers_told(certificate: &[u8]) -> String {
    match (certificate.first(), numbers(certificate)) {
        (Some(3), Ok(numbers)) => format!(" numbers {}", numbers.len()),
        _ => String::new(),
    }
}

/// The known answers of edition 1 do not tell how many numbers; those that do must have the same.
fn same(given: &str, known: &str) -> bool {
    given == known || given.split_once(" numbers ").is_some_and(|(grade, _)| grade == known)
}

/// Asks for the answer to every line; right if there are lines and all answers are the known ones.
pub fn compare(file: &str, mut answer: impl FnMut(&str, &[Vec<u8>]) -> String) -> bool {
    let text = std::fs::read_to_string(file).expect("known answers");
    let (mut count, mut differ) = (0, 0);
    for line in text.lines().filter(|line| !line.starts_with('#')) {
        let words: Vec<&str> = line.split('\t').collect();
        let inputs: Vec<Vec<u8>> = words[1..words.len() - 1].iter().map(|word| bytes_of(word)).collect();
        let given = answer(words[0], &inputs);
        count += 1;
        if !same(&given, words[words.len() - 1]) {
            differ += 1;
            println!("{line}: given {given}");
        }
    }
    println!("{count} known answers compared, {differ} differ");
    count > 0 && differ == 0
}

// ---------------------------------------------------------------- calls that write into several buffers

/// What a call is given, and the word and bytes that are known; a buffer whose bytes are left open has none.
pub struct Call<'a> {
    pub function: &'a str,
    pub inputs: Vec<Vec<u8>>,
    pub rooms: Vec<usize>,
    pub word: u64,
    pub written: Vec<Option<Vec<u8>>>,
}

impl Call<'_> {
    fn read(line: &str) -> Call<'_> {
        let [function, inputs, rooms, word, written] = line.split('\t').collect::<Vec<_>>()[..] else {
            panic!("five fields: {line}")
        };
        Call {
            function,
            inputs: inputs.split(' ').map(bytes_of).collect(),
            rooms: rooms.split(' ').map(|room| room.parse().expect("a length")).collect(),
            word: word.parse().expect("a word"),
            written: written.split(' ').map(|bytes| (bytes != "?").then(|| bytes_of(bytes))).collect(),
        }
    }

    /// What is wrong with a word and with the bytes that a mending wrote. The bytes of a certificate are open: the second checker has to
    /// accept it beside the mended plan.
    pub fn wrong(&self, word: u64, written: [&[u8]; 3]) -> Option<String> {
        if word != self.word {
            return Some(format!("the word {word}"));
        }
        let accepted = || check(written[1], written[2]) == Answer::Grade(3);
        let right = |i: usize| self.written[i].as_ref().map_or_else(accepted, |due| due == written[i]);
        (0..3).find(|&i| !right(i)).map(|i| format!("{:?} in buffer {i}", written[i]))
    }
}

/// Asks what is wrong with every line; right if there are lines and nothing is.
pub fn compare_calls(file: &str, mut wrong: impl FnMut(&Call) -> Option<String>) -> bool {
    let text = std::fs::read_to_string(file).expect("known answers");
    let (mut count, mut open, mut differ) = (0, 0, 0);
    for line in text.lines().filter(|line| !line.starts_with('#')) {
        let call = Call::read(line);
        count += 1;
        open += call.written.contains(&None) as u64;
        if let Some(wrong) = wrong(&call) {
            differ += 1;
            println!("{line}: given {wrong}");
        }
    }
    println!("{count} known calls compared, {open} with bytes left open, {differ} differ");
    count > 0 && differ == 0
}
