//! Tables that are handed in to be written, good ones and bad ones, and rooms for their text.

use crate::comparing::Maker;
use crate::dice::Dice;
use crate::table_families::every_base;
use crate::table_inputs::{random_room, random_text};
use crate::write_call::WriteCall;
use independent::reading::{read, MOST_SERVERS, MOST_TASKS};
use independent::writing::{text, Handed};

/// Tables in one piece of work.
const PIECE: usize = 200;

/// Numbers that replace others: the edges of every range and of every kind, and large ones.
#[rustfmt::skip]
const EDGES: [u32; 20] = [
    0, 1, 2, 3, 4, 15, 16, 17, 63, 64, 65, 256, 257, 15_999, 16_000, 16_001, 65_535, 65_536, 1 << 31, u32::MAX,
];

/// Where a line has numbers that may be replaced: the span, the counts, and from here on the rows.
const ROWS: usize = 6;

/// The pieces of work with `count` random tables.
pub fn random(seed: u64, count: usize) -> Vec<Maker<WriteCall>> {
    let mut makers: Vec<Maker<WriteCall>> = Vec::new();
    for start in (0..count).step_by(PIECE) {
        makers.push(Box::new(move || {
            let mut dice = Dice::new(seed, "writes", start as u64);
            (start..count.min(start + PIECE)).filter_map(|_| random_call(&mut dice)).collect()
        }));
    }
    makers
}

/// The pieces of work with every table of a few that is changed in one number, or with one in `step` of them.
pub fn systematic(seed: u64, step: usize) -> Vec<Maker<WriteCall>> {
    let skipped = (seed % step as u64) as usize;
    let calls: Vec<WriteCall> = every_base().iter().flat_map(|text| every_call(text)).skip(skipped).step_by(step).collect();
    let mut makers: Vec<Maker<WriteCall>> = Vec::new();
    for calls in calls.chunks(PIECE) {
        let calls = calls.to_vec();
        makers.push(Box::new(move || calls.clone()));
    }
    makers
}

/// The table of a text in every room up to its length and a little more, and with every number replaced by each of the edges.
fn every_call(base: &[u8]) -> Vec<WriteCall> {
    let handed = Handed::of(&read(base).expect("the tables here are good"));
    let need = need_of(&handed);
    let rooms = (0..need + 3).chain([4095, 4096]);
    let mut calls: Vec<WriteCall> = rooms.map(|room| WriteCall { room, handed: handed.clone() }).collect();
    let whole = WriteCall { room: need, handed };
    for index in (1..4).chain(ROWS..whole.numbers().len()) {
        for number in replacements(&whole.numbers(), index) {
            let handed = whole.with_number(index, number).handed;
            let crowded = with_rubbish(handed.clone(), || 9);
            calls.push(WriteCall { room: 4096, handed: handed.clone() });
            calls.extend([handed, crowded].map(|handed| WriteCall { room: need + 4, handed }));
        }
    }
    calls
}

/// A random table, changed now and then, in a room that is exact, too small or larger.
fn random_call(dice: &mut Dice) -> Option<WriteCall> {
    let handed = Handed::of(&read(&random_text(dice)).ok()?);
    let room = random_room(dice, need_of(&handed));
    let mut call = WriteCall { room, handed };
    if dice.one_in(3) {
        let numbers = call.numbers();
        let index = dice.pick(&(1..4).chain(ROWS..numbers.len()).collect::<Vec<usize>>());
        call = call.with_number(index, dice.pick(&replacements(&numbers, index)));
    }
    if dice.one_in(3) {
        call.handed = with_rubbish(call.handed, || if dice.one_in(2) { dice.next() as u32 } else { dice.pick(&EDGES) });
    }
    Some(call)
}

/// What replaces the number at a place of a line: the edges, the numbers beside it, and those that make a capacity larger than its
/// period by one.
fn replacements(numbers: &[u32], index: usize) -> Vec<u32> {
    let mut others = EDGES.to_vec();
    others.extend([numbers[index].saturating_sub(1), numbers[index].saturating_add(1), numbers[index - 1].saturating_sub(1)]);
    others.extend(numbers.get(index + 1).map(|next| next.saturating_add(1)));
    others
}

/// How many bytes the text of a good table has.
fn need_of(handed: &Handed) -> usize {
    text(&handed.table().expect("the tables here are good")).len()
}

/// With as many rows as there can be, those beyond the counts filled with anything.
fn with_rubbish(mut handed: Handed, mut any: impl FnMut() -> u32) -> Handed {
    handed.servers.resize_with(MOST_SERVERS, || [0; 3].map(|_| any()));
    handed.tasks.resize_with(MOST_TASKS, || [0; 6].map(|_| any()));
    handed
}
