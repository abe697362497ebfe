//! Curve calls: random ones, and all of a few small families.

use crate::comparing::Maker;
use crate::curve_call::CurveCall;
use crate::dice::Dice;
use independent::curves::{added, curve_of, fitted, parted, LAST_END};

/// A curve or a buffer has at most so many numbers.
const MOST_NUMBERS: usize = 4096;
/// Random calls in one piece of work.
const PIECE: usize = 4000;

/// The pieces of work with `count` random calls.
pub fn random(seed: u64, count: usize) -> Vec<Maker<CurveCall>> {
    let mut makers: Vec<Maker<CurveCall>> = Vec::new();
    for start in (0..count).step_by(PIECE) {
        makers.push(Box::new(move || {
            let mut dice = Dice::new(seed, "curves", start as u64);
            (start..count.min(start + PIECE)).map(|_| random_call(&mut dice)).collect()
        }));
    }
    makers
}

fn random_call(dice: &mut Dice) -> CurveCall {
    match dice.below(8) {
        0..=2 => random_add(dice),
        3 => random_cut(dice),
        4..=6 => random_fit(dice),
        _ => random_provide(dice),
    }
}

fn random_add(dice: &mut Dice) -> CurveCall {
    let (a, b) = two_curves(dice);
    let need = added(&a, &b).map_or(4, |sum| sum.len());
    CurveCall::Add { a, b, room: random_room(dice, need) }
}

fn random_cut(dice: &mut Dice) -> CurveCall {
    let family = Family::random(dice);
    let a = random_curve(dice, family);
    let period = random_period(dice, &a);
    let need = parted(period, &a).map_or(4, |parts| parts.len());
    CurveCall::Cut { period, a, room: random_room(dice, need) }
}

fn random_fit(dice: &mut Dice) -> CurveCall {
    let (demand, supply) = two_curves(dice);
    let needs = match fitted(&demand, &supply) {
        Ok(parts) => [parts.supply_left.len(), parts.served.len(), parts.demand_left.len()],
        Err(_) => [2, 2, 2],
    };
    // most of the time only one of the rooms is not exact
    let mut rooms = needs.map(room_of);
    let other = dice.below(3);
    rooms[other] = random_room(dice, needs[other]);
    if dice.one_in(4) {
        rooms = needs.map(|need| random_room(dice, need));
    }
    CurveCall::Fit { demand, supply, rooms }
}

fn random_provide(dice: &mut Dice) -> CurveCall {
    let family = Family::random(dice);
    let a = random_curve(dice, family);
    let total: u64 = a.chunks_exact(2).map(|window| u64::from(window[1].saturating_sub(window[0]))).sum();
    let total = total.min(u64::from(u32::MAX) - 1) as u32;
    let amount = match dice.below(12) {
        0 => 0,
        1 => total,
        2 => total + 1,
        3 => dice.pick(&[1, LAST_END, LAST_END + 1, u32::MAX]),
        // the sum up to the end of some window
        4..=6 if a.len() > 1 => sum_to(&a, dice.below(a.len() / 2) + 1),
        _ => dice.between(1, total.max(1)),
    };
    CurveCall::Provide { amount, a }
}

/// The length of the first windows of a curve together.
fn sum_to(curve: &[u32], windows: usize) -> u32 {
    curve.chunks_exact(2).take(windows).fold(0, |sum, window| sum.saturating_add(window[1].saturating_sub(window[0])))
}

fn random_period(dice: &mut Dice, curve: &[u32]) -> u32 {
    match dice.below(10) {
        0 => 0,
        1 => 1,
        2 => dice.pick(&[LAST_END, LAST_END + 1, u32::MAX, LAST_END / 2]),
        // a multiple of it is a start or an end
        3 | 4 if !curve.is_empty() => dice.pick(curve),
        5 => dice.between(1, 1000),
        _ => dice.between(2, 9),
    }
}

/// A room that is exact, too small or larger than needed.
fn random_room(dice: &mut Dice, need: usize) -> u32 {
    let room = match dice.below(10) {
        0 => need.saturating_sub(1),
        1 => need.saturating_sub(2),
        2 => 0,
        3 => need + 1,
        4 => need + 1 + dice.below(8),
        5 => dice.below(need + 1),
        _ => need,
    };
    room_of(room)
}

/// So much room, or the most that the program can lend.
fn room_of(need: usize) -> u32 {
    need.min(MOST_NUMBERS) as u32
}

/// How a random curve looks.
#[derive(Clone, Copy, PartialEq)]
enum Family {
    /// A few windows at the start of time.
    Small,
    /// A dozen windows or so.
    Medium,
    /// A few windows just below the last possible end.
    Last,
    /// Windows of many thousand ticks, or the whole of time.
    Wide,
    /// As many windows as fit.
    Many,
}

impl Family {
    fn random(dice: &mut Dice) -> Family {
        match dice.below(10_000) {
            0..=4 => Family::Many,
            5..=9 => Family::Wide,
            10..=1500 => Family::Last,
            1501..=3500 => Family::Medium,
            _ => Family::Small,
        }
    }
}

/// Two curves of the same family, or sometimes not.
fn two_curves(dice: &mut Dice) -> (Vec<u32>, Vec<u32>) {
    let first = Family::random(dice);
    let second = if dice.one_in(10) { Family::random(dice) } else { first };
    (random_curve(dice, first), random_curve(dice, second))
}

/// A curve, plain or, one time in ten, damaged.
fn random_curve(dice: &mut Dice, family: Family) -> Vec<u32> {
    let mut curve = plain_curve(dice, family);
    if dice.one_in(10) {
        damage(dice, &mut curve);
    }
    curve
}

fn plain_curve(dice: &mut Dice, family: Family) -> Vec<u32> {
    match family {
        Family::Small => {
            let windows = dice.below(5);
            random_windows(dice, windows, 4)
        }
        Family::Medium => {
            let (windows, step) = (dice.below(20), dice.pick(&[2, 5, 30]));
            random_windows(dice, windows, step)
        }
        Family::Last => last_windows(dice),
        Family::Wide if dice.one_in(4) => vec![0, LAST_END],
        Family::Wide => {
            let windows = 1 + dice.below(5);
            random_windows(dice, windows, 250_000)
        }
        Family::Many => {
            let (windows, step) = (MOST_NUMBERS / 2 - dice.below(3), dice.pick(&[1, 2, 200]));
            random_windows(dice, windows, step)
        }
    }
}

/// Some windows from the start of time on, each length and each gap at most `step`.
fn random_windows(dice: &mut Dice, windows: usize, step: u32) -> Vec<u32> {
    let mut curve = Vec::new();
    let mut start = dice.between(0, step);
    for _ in 0..windows {
        let end = start + dice.between(1, step);
        if end > LAST_END {
            break;
        }
        curve.extend([start, end]);
        start = end + dice.between(1, step);
    }
    curve
}

/// A few windows moved so far that the last one ends at the last possible end or a little before.
fn last_windows(dice: &mut Dice) -> Vec<u32> {
    let windows = 1 + dice.below(4);
    let mut curve = random_windows(dice, windows, 4);
    let end = LAST_END - if dice.one_in(2) { 0 } else { dice.between(0, 12) };
    let by = end - curve[curve.len() - 1];
    for number in &mut curve {
        *number += by;
    }
    curve
}

/// Breaks a curve in one way or another; by luck it may stay plain.
fn damage(dice: &mut Dice, curve: &mut Vec<u32>) {
    if curve.is_empty() {
        *curve = dice.pick(&[vec![3], vec![0], vec![2, 2], vec![5, 4], vec![0, 0], vec![1, LAST_END + 1]]);
        return;
    }
    let index = dice.below(curve.len());
    match dice.below(9) {
        0 => drop(curve.remove(index)),
        1 if curve.len() < MOST_NUMBERS => curve.push(curve[curve.len() - 1] + 1),
        // touches the number before it, or falls behind it
        2 if index > 0 => curve[index] = curve[index - 1],
        3 if index > 0 => curve[index] = curve[index - 1].saturating_sub(1),
        4 => *curve.last_mut().expect("it has a number") = LAST_END + dice.between(1, 2),
        5 => curve[index] = dice.pick(&[u32::MAX, LAST_END + 1, 2_147_483_648, 0]),
        6 => {
            let other = dice.below(curve.len());
            curve.swap(index, other);
        }
        7 => curve[index] = curve[index].saturating_sub(1),
        _ => curve[index] += 1,
    }
}

/// All calls of some small families: every pair of curves inside `ticks` ticks, every list of few numbers.
pub fn systematic(ticks: u32) -> Vec<Maker<CurveCall>> {
    let mut makers: Vec<Maker<CurveCall>> = Vec::new();
    for first in 0..1 << ticks {
        makers.push(Box::new(move || all_pairs(first, ticks)));
    }
    makers.push(Box::new(move || all_single(ticks + 2)));
    makers.push(Box::new(all_lists));
    makers
}

/// The curve of the ticks that are set in a number's binary digits.
fn curve_of_bits(bits: u32) -> Vec<u32> {
    let ticks: Vec<u32> = (0..32).filter(|tick| bits >> tick & 1 == 1).collect();
    curve_of(&ticks)
}

/// One curve with every curve inside so many ticks, added and fitted, with exact rooms.
fn all_pairs(first: u32, ticks: u32) -> Vec<CurveCall> {
    let a = curve_of_bits(first);
    (0..1 << ticks).map(curve_of_bits).flat_map(|b| [exact_add(&a, &b), exact_fit(&a, &b)]).collect()
}

fn exact_add(a: &[u32], b: &[u32]) -> CurveCall {
    let need = added(a, b).map_or(4, |sum| sum.len());
    CurveCall::Add { a: a.to_vec(), b: b.to_vec(), room: room_of(need) }
}

fn exact_fit(demand: &[u32], supply: &[u32]) -> CurveCall {
    let rooms = match fitted(demand, supply) {
        Ok(parts) => [parts.supply_left.len(), parts.served.len(), parts.demand_left.len()],
        Err(_) => [2, 2, 2],
    };
    CurveCall::Fit { demand: demand.to_vec(), supply: supply.to_vec(), rooms: rooms.map(room_of) }
}

/// Every curve inside so many ticks, cut at every period and asked for every amount.
fn all_single(ticks: u32) -> Vec<CurveCall> {
    let mut calls = Vec::new();
    for a in (0..1 << ticks).map(curve_of_bits) {
        for number in 0..ticks + 2 {
            calls.push(exact_cut(number, &a));
            calls.push(CurveCall::Provide { amount: number, a: a.clone() });
        }
    }
    calls
}

fn exact_cut(period: u32, a: &[u32]) -> CurveCall {
    let need = parted(period, a).map_or(4, |parts| parts.len());
    CurveCall::Cut { period, a: a.to_vec(), room: room_of(need) }
}

/// Every list of up to four numbers from two small sets, plain or not, in every place of every kind of call.
fn all_lists() -> Vec<CurveCall> {
    let mut calls = Vec::new();
    let other = vec![1, 3];
    let low = lists(4, &[0, 1, 2, 3, 4]);
    let high = lists(4, &[0, 1, LAST_END - 1, LAST_END, LAST_END + 1, u32::MAX]);
    for list in low.into_iter().chain(high) {
        calls.extend([exact_add(&list, &other), exact_add(&other, &list)]);
        calls.extend([exact_fit(&list, &other), exact_fit(&other, &list)]);
        calls.extend([exact_cut(2, &list), exact_cut(LAST_END - 1, &list)]);
        calls.extend([1, 2, LAST_END].map(|amount| CurveCall::Provide { amount, a: list.clone() }));
    }
    calls
}

/// Every list of at most `most` of these numbers.
fn lists(most: usize, numbers: &[u32]) -> Vec<Vec<u32>> {
    let mut all = vec![Vec::new()];
    let mut longest = all.clone();
    for _ in 0..most {
        longest = longest.iter().flat_map(|list| numbers.iter().map(|&number| [&list[..], &[number]].concat())).collect();
        all.extend(longest.clone());
    }
    all
}
