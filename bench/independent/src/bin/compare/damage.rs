//! Damaged table texts, made from good ones.

use crate::dice::Dice;
use independent::reading::MOST_BYTES;

/// The programs take texts of up to 5,000 bytes.
const MOST_TEXT: usize = 4990;

/// Bytes that replace or join others.
const BYTES: [u8; 16] = [0, 255, b'\r', b'\t', b'\n', b' ', b'-', b'+', b'/', b':', b'0', b'1', b'9', b'a', b'S', 128];

/// Words that are refused in most fields, each ground of a field several times: empty, `-`, a byte that is no digit, a leading zero,
/// too many digits, several of these in one, below and above the range, a capacity above its period, a kind unknown or with capitals,
/// a carriage return behind a good word.
#[rustfmt::skip]
const FAULTS: [&str; 21] = [
    "", "-", "x", "--", "-5", "0x", "00000x", "00", "01", "016", "000000", "012345", "123456", "0", "16000", "16001", "99999",
    "Deferrable", "PERIODIC", "1\r", "periodic\r",
];

/// Other words that replace fields: numbers at the edges of every range, numbers badly written, the words of a table.
#[rustfmt::skip]
const WORDS: [&str; 28] = [
    "1", "2", "3", "16", "17", "64", "15999", "65535", "65536", "100000", "016000", "-1", "+1", "1.0", " 1", "1 ", "1a", "a1",
    "0x1", "4294967296", "4294967297", "deferrable", "periodic", "span", "server", "once", "every", "Every",
];

/// All words that replace fields.
fn replacements() -> impl Iterator<Item = &'static str> {
    FAULTS.into_iter().chain(WORDS)
}

/// A text after one to three random edits.
pub fn damaged(dice: &mut Dice, text: &[u8]) -> Vec<u8> {
    let mut text = text.to_vec();
    for _ in 0..dice.pick(&[1, 1, 1, 2, 3]) {
        text = edited(dice, &text);
        text.truncate(MOST_TEXT);
    }
    text
}

fn edited(dice: &mut Dice, text: &[u8]) -> Vec<u8> {
    match dice.below(16) {
        0..=3 => byte_edited(dice, text),
        4..=8 => field_edited(dice, text),
        9..=12 => lines_edited(dice, text),
        13 => text[..text.len().saturating_sub(1)].to_vec(),
        14 => text[..dice.below(text.len() + 1)].to_vec(),
        _ => length_edited(dice, text),
    }
}

/// One byte deleted, replaced, inserted or doubled, or a letter's capital.
fn byte_edited(dice: &mut Dice, text: &[u8]) -> Vec<u8> {
    let mut text = text.to_vec();
    let byte = dice.pick(&BYTES);
    let at = dice.below(text.len() + 1);
    if at == text.len() {
        text.push(byte);
        return text;
    }
    match dice.below(5) {
        0 => drop(text.remove(at)),
        1 => text[at] = byte,
        2 => text.insert(at, byte),
        3 => text.insert(at, text[at]),
        _ => text[at].make_ascii_uppercase(),
    }
    text
}

/// One field replaced, dropped, doubled or changed for another of its line.
fn field_edited(dice: &mut Dice, text: &[u8]) -> Vec<u8> {
    let mut lines = fields_of(text);
    let line = dice.below(lines.len());
    let fields = &mut lines[line];
    let at = dice.below(fields.len());
    match dice.below(8) {
        0 => drop(fields.remove(at)),
        1 => fields.insert(at, fields[at].clone()),
        2 => {
            let other = dice.below(fields.len());
            fields.swap(at, other);
        }
        3 => fields[at].insert(0, b'0'),
        _ => fields[at] = dice.pick(&replacements().collect::<Vec<_>>()).as_bytes().to_vec(),
    }
    text_of(&lines)
}

/// A line dropped, doubled, moved, emptied or repeated many times.
fn lines_edited(dice: &mut Dice, text: &[u8]) -> Vec<u8> {
    let mut lines: Vec<Vec<u8>> = text.split_inclusive(|&byte| byte == b'\n').map(<[u8]>::to_vec).collect();
    if lines.is_empty() {
        return Vec::new();
    }
    let at = dice.below(lines.len());
    let line = lines[at].clone();
    let other = dice.below(lines.len());
    match dice.below(6) {
        0 => drop(lines.remove(at)),
        1 => lines.insert(at, line),
        2 => lines.swap(at, other),
        3 => lines.insert(other, line),
        4 => lines.insert(at, b"\n".to_vec()),
        _ => {
            let times = dice.pick(&[15, 16, 63, 64, 65]);
            lines.splice(at..at, std::iter::repeat_n(line, times));
        }
    }
    lines.concat()
}

/// Made as long as the largest length or about so, or empty.
fn length_edited(dice: &mut Dice, text: &[u8]) -> Vec<u8> {
    let length = MOST_BYTES - 2 + dice.below(5);
    match dice.below(3) {
        0 => Vec::new(),
        1 => padded(text, length, dice.pick(&BYTES)),
        _ => repeated(text, length),
    }
}

/// A text made longer by a filler before its last byte.
pub fn padded(text: &[u8], length: usize, filler: u8) -> Vec<u8> {
    let filling = vec![filler; length.saturating_sub(text.len())];
    let last = text.len().saturating_sub(1);
    [&text[..last], &filling, &text[last..]].concat()
}

/// A text repeated up to a length, the last byte a line feed.
pub fn repeated(text: &[u8], length: usize) -> Vec<u8> {
    let mut long: Vec<u8> = text.iter().copied().cycle().take(length - 1).collect();
    long.push(b'\n');
    long
}

/// The fields of each line; the last line is what follows the last line feed.
fn fields_of(text: &[u8]) -> Vec<Vec<Vec<u8>>> {
    let fields = |line: &[u8]| line.split(|&byte| byte == b'\t').map(<[u8]>::to_vec).collect();
    text.split(|&byte| byte == b'\n').map(fields).collect()
}

fn text_of(lines: &[Vec<Vec<u8>>]) -> Vec<u8> {
    lines.iter().map(|fields| fields.join(&b'\t')).collect::<Vec<_>>().join(&b'\n')
}

/// The text with each of its bytes deleted, and replaced and preceded by every byte of the list.
pub fn every_byte_edit(text: &[u8]) -> Vec<Vec<u8>> {
    let mut texts = Vec::new();
    for at in 0..text.len() {
        let (before, after) = (&text[..at], &text[at + 1..]);
        texts.push([before, after].concat());
        for byte in BYTES {
            texts.push([before, &[byte], after].concat());
            texts.push([before, &[byte, text[at]], after].concat());
        }
    }
    texts
}

/// The text with each of its fields dropped, doubled, and replaced by every word of the lists.
pub fn every_field_edit(text: &[u8]) -> Vec<Vec<u8>> {
    let lines = fields_of(text);
    let mut texts = Vec::new();
    for line in 0..lines.len() {
        for at in 0..lines[line].len() {
            let mut edit = |change: &dyn Fn(&mut Vec<Vec<u8>>)| {
                let mut lines = lines.clone();
                change(&mut lines[line]);
                texts.push(text_of(&lines));
            };
            edit(&|fields| drop(fields.remove(at)));
            edit(&|fields| fields.insert(at, fields[at].clone()));
            for word in replacements() {
                edit(&|fields| fields[at] = word.as_bytes().to_vec());
            }
        }
    }
    texts
}

/// The text with every two fields of one line, the first words left out, replaced by every two faults.
pub fn every_two_faults(text: &[u8]) -> Vec<Vec<u8>> {
    let lines = fields_of(text);
    let mut texts = Vec::new();
    for (line, fields) in lines.iter().enumerate() {
        for (left, right) in every_pair(fields.len()) {
            for (first, second) in FAULTS.into_iter().flat_map(|first| FAULTS.map(|second| (first, second))) {
                let mut lines = lines.clone();
                lines[line][left] = first.as_bytes().to_vec();
                lines[line][right] = second.as_bytes().to_vec();
                texts.push(text_of(&lines));
            }
        }
    }
    texts
}

/// Every two different places behind the first of so many, the left one first.
fn every_pair(count: usize) -> impl Iterator<Item = (usize, usize)> {
    (1..count).flat_map(move |left| (left + 1..count).map(move |right| (left, right)))
}
