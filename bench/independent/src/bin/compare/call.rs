//! What the comparison needs to know of a call, whichever program it is for.

use independent::Refusal;

pub trait Call: Clone + Send + Sync {
    /// The proved program that answers such calls.
    const PROGRAM: &'static str;
    /// The names of the kinds of calls.
    const KINDS: &'static [&'static str];

    /// Which of the kinds it is.
    fn kind(&self) -> usize;

    /// Writes the line that the program reads.
    fn put_line(&self, line: &mut Vec<u8>);

    /// Writes what the program has to answer, and says on which ground the call is refused, 0 if it is accepted.
    fn put_answer(&self, answer: &mut Vec<u8>) -> u32;

    /// Calls of the same kind that are a little smaller, the smallest first: a call that shows a difference is shrunk by them.
    fn smaller(&self) -> Vec<Self>;

    /// The table's text, for calls that have one.
    fn text(&self) -> Option<&[u8]>;
}

/// Smaller values to try in the place of a number.
pub fn smaller_numbers(number: u32) -> Vec<u32> {
    let mut numbers = vec![0, 1, number / 4, number / 2, number - number / 4];
    numbers.extend([8, 4, 2, 1].map(|by| number.saturating_sub(by)));
    numbers.retain(|&smaller| smaller < number);
    numbers.sort_unstable();
    numbers.dedup();
    numbers
}

/// Shorter lists to try in the place of a list: without parts of half its length, of a quarter, and so on down to single items.
pub fn shorter_lists<T: Clone>(list: &[T]) -> Vec<Vec<T>> {
    let mut lists = Vec::new();
    let mut part = list.len().div_ceil(2);
    while part > 0 {
        for start in (0..list.len()).step_by(part) {
            let end = (start + part).min(list.len());
            lists.push([&list[..start], &list[end..]].concat());
        }
        part /= 2;
    }
    lists
}

/// A buffer of `room` bytes before it is lent, with the guard behind it.
pub fn lent(room: usize) -> Vec<u8> {
    const GUARD: usize = 8;
    (0..room + GUARD).map(|index| (index % 251) as u8).collect()
}

/// Puts what a call answered that was lent a buffer, how many bytes it wrote or its refusal; then the buffer and its guard. Gives the
/// ground.
pub fn put_lent(result: Result<usize, Refusal>, buffer: &[u8], answer: &mut Vec<u8>) -> u32 {
    let (words, ground) = match result {
        Ok(count) => (format!("count {count}"), 0),
        Err(refusal) => (refusal.words(' '), refusal.number),
    };
    answer.extend(words.bytes());
    answer.extend(b" | ");
    put_hex(buffer, answer);
    ground
}

/// Puts bytes, two digits each.
pub fn put_hex(bytes: &[u8], line: &mut Vec<u8>) {
    for byte in bytes {
        line.push(b"0123456789abcdef"[usize::from(byte >> 4)]);
        line.push(b"0123456789abcdef"[usize::from(byte & 15)]);
    }
}

/// Checks that what a program has to print on its stored input is what this package says. Lines that are no call are `bad`; those
/// with `#` at their front are copied.
#[cfg(all(test, not(feature = "wrong")))]
pub fn check_stored<C: Call>(call_of: impl Fn(&str) -> Option<C>) {
    let folder = std::path::Path::new(env!("CARGO_MANIFEST_DIR")).join("../../crates").join(C::PROGRAM);
    let stored = |name: &str| std::fs::read_to_string(folder.join(name)).unwrap();
    let mut answer = Vec::new();
    for line in stored("stdin").lines() {
        if line.starts_with('#') {
            answer.extend(format!("{line}\n").bytes());
        } else if let Some(call) = call_of(line) {
            call.put_answer(&mut answer);
        } else {
            answer.extend(b"bad\n");
        }
    }
    let (answer, stored) = (String::from_utf8(answer).unwrap(), stored("stdout"));
    let differing = answer.lines().zip(stored.lines()).enumerate().find(|(_, (expected, stored))| expected != stored);
    assert_eq!(differing, None);
    assert_eq!(answer.len(), stored.len());
}
