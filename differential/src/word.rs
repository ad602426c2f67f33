//! Bytes as a word of text: parts with commas between. A part is hexadecimal, of any length, or a run
//! `START+STEP*COUNT`, in which each byte is the last one plus the step. Most blocks of the generators are one run, so
//! that a disk area is short.

/// A run of fewer bytes is shorter as hexadecimal.
const SHORTEST_RUN: usize = 5;

/// The word of these bytes.
pub fn word_of(mut bytes: &[u8]) -> String {
    let mut word = String::new();
    let mut after_run = false;
    while !bytes.is_empty() {
        let (run, rest) = bytes.split_at(run_length(bytes));
        let is_run = run.len() >= SHORTEST_RUN;
        if !word.is_empty() && (is_run || after_run) {
            word.push(',');
        }
        word += &part_of(run);
        (bytes, after_run) = (rest, is_run);
    }
    word
}

/// The length of the longest run that the bytes begin with.
fn run_length(bytes: &[u8]) -> usize {
    let &[first, second, ..] = bytes else {
        return bytes.len();
    };
    let steps = bytes.windows(2).map(|pair| step(pair[0], pair[1]));
    1 + steps.take_while(|&each| each == step(first, second)).count()
}

/// What takes one byte to the next.
fn step(from: u8, to: u8) -> u8 {
    to.wrapping_sub(from)
}

/// A run as a part.
fn part_of(run: &[u8]) -> String {
    if run.len() < SHORTEST_RUN {
        run.iter().map(|byte| format!("{byte:02x}")).collect()
    } else {
        format!("{:02x}+{:02x}*{}", run[0], step(run[0], run[1]), run.len())
    }
}

/// The bytes of a word; `None` if it is none.
pub fn bytes_of(word: &str) -> Option<Vec<u8>> {
    let parts: Option<Vec<Vec<u8>>> = word.split(',').map(part_bytes).collect();
    Some(parts?.concat())
}

/// The bytes of a part.
fn part_bytes(part: &str) -> Option<Vec<u8>> {
    let Some((ends, count)) = part.split_once('*') else {
        return hexadecimal(part);
    };
    let (start, step) = ends.split_once('+')?;
    let (&[start], &[step]) = (hexadecimal(start)?.as_slice(), hexadecimal(step)?.as_slice()) else {
        return None;
    };
    let next = |byte: &u8| Some(byte.wrapping_add(step));
    let run = std::iter::successors(Some(start), next);
    Some(run.take(count.parse().ok()?).collect())
}

/// The bytes of hexadecimal digits.
fn hexadecimal(digits: &str) -> Option<Vec<u8>> {
    let value = |digit: &u8| char::from(*digit).to_digit(16);
    let values: Vec<u32> = digits.as_bytes().iter().map(value).collect::<Option<_>>()?;
    let byte = |pair: &[u32]| match pair {
        &[high, low] => Some((high * 16 + low) as u8),
        _ => None,
    };
    values.chunks(2).map(byte).collect()
}
