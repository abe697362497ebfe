//! Calls on curves, for the program `curve_calls`.

use crate::call::{shorter_lists, smaller_numbers, Call};
use independent::{curves, Refusal};

#[derive(Clone, Debug)]
pub enum CurveCall {
    Add { a: Vec<u32>, b: Vec<u32>, room: u32 },
    Cut { period: u32, a: Vec<u32>, room: u32 },
    Fit { demand: Vec<u32>, supply: Vec<u32>, rooms: [u32; 3] },
    Provide { amount: u32, a: Vec<u32> },
}

impl Call for CurveCall {
    const PROGRAM: &'static str = "curve_calls";
    const KINDS: &'static [&'static str] = &["add", "cut", "fit", "time to provide"];

    fn kind(&self) -> usize {
        match self {
            CurveCall::Add { .. } => 0,
            CurveCall::Cut { .. } => 1,
            CurveCall::Fit { .. } => 2,
            CurveCall::Provide { .. } => 3,
        }
    }

    fn put_line(&self, line: &mut Vec<u8>) {
        line.extend(format!("{}", self.kind() + 1).bytes());
        match self {
            CurveCall::Add { a, b, room } => {
                put_curve(a, line);
                put_curve(b, line);
                put_numbers(&[*room], line);
            }
            CurveCall::Cut { period, a, room } => {
                put_numbers(&[*period], line);
                put_curve(a, line);
                put_numbers(&[*room], line);
            }
            CurveCall::Fit { demand, supply, rooms } => {
                put_curve(demand, line);
                put_curve(supply, line);
                put_numbers(rooms, line);
            }
            CurveCall::Provide { amount, a } => {
                put_numbers(&[*amount], line);
                put_curve(a, line);
            }
        }
        line.push(b'\n');
    }

    fn put_answer(&self, answer: &mut Vec<u8>) -> u32 {
        match self {
            CurveCall::Add { a, b, room } => {
                let mut buffer = filled(*room);
                let result = curves::add(a, b, &mut buffer);
                put_result(result.map(|count| format!("count {count}")), &[buffer], answer)
            }
            CurveCall::Cut { period, a, room } => {
                let mut buffer = filled(*room);
                let result = curves::cut(*period, a, &mut buffer);
                put_result(result.map(|count| format!("count {count}")), &[buffer], answer)
            }
            CurveCall::Fit { demand, supply, rooms } => {
                let mut buffers = rooms.map(filled);
                let [left, served, unserved] = &mut buffers;
                let result = curves::fit(demand, supply, [left, served, unserved]);
                put_result(result.map(|[l, s, u]| format!("counts {l} {s} {u}")), &buffers, answer)
            }
            CurveCall::Provide { amount, a } => {
                let result = curves::time_to_provide(*amount, a);
                let words = |at: Option<u32>| at.map_or("not provided".to_string(), |at| format!("at {at}"));
                put_result(result.map(words), &[], answer)
            }
        }
    }

    fn smaller(&self) -> Vec<CurveCall> {
        let (numbers, curves) = self.parts();
        let mut calls = Vec::new();
        for (index, curve) in curves.iter().enumerate() {
            let shorter = shorter_curves(curve).into_iter();
            calls.extend(shorter.map(|shorter| self.with(&numbers, &replaced(&curves, index, shorter))));
        }
        for by in smaller_shifts(&curves) {
            let shifted: Vec<Vec<u32>> = curves.iter().map(|curve| curve.iter().map(|number| number - by).collect()).collect();
            calls.push(self.with(&numbers, &shifted));
        }
        for index in 0..numbers.len() {
            let smaller = smaller_numbers(numbers[index]).into_iter();
            calls.extend(smaller.map(|number| self.with(&replaced(&numbers, index, number), &curves)));
        }
        for (index, curve) in curves.iter().enumerate() {
            let lower = lower_curves(curve).into_iter();
            calls.extend(lower.map(|lower| self.with(&numbers, &replaced(&curves, index, lower))));
        }
        calls
    }

    fn text(&self) -> Option<&[u8]> {
        None
    }
}

impl CurveCall {
    /// The call's numbers that are in no curve, and its curves.
    fn parts(&self) -> (Vec<u32>, Vec<Vec<u32>>) {
        match self.clone() {
            CurveCall::Add { a, b, room } => (vec![room], vec![a, b]),
            CurveCall::Cut { period, a, room } => (vec![period, room], vec![a]),
            CurveCall::Fit { demand, supply, rooms } => (rooms.to_vec(), vec![demand, supply]),
            CurveCall::Provide { amount, a } => (vec![amount], vec![a]),
        }
    }

    /// The call of the same kind with these parts.
    fn with(&self, numbers: &[u32], curves: &[Vec<u32>]) -> CurveCall {
        let a = curves[0].clone();
        match self {
            CurveCall::Add { .. } => CurveCall::Add { a, b: curves[1].clone(), room: numbers[0] },
            CurveCall::Cut { .. } => CurveCall::Cut { period: numbers[0], a, room: numbers[1] },
            CurveCall::Fit { .. } => {
                CurveCall::Fit { demand: a, supply: curves[1].clone(), rooms: [numbers[0], numbers[1], numbers[2]] }
            }
            CurveCall::Provide { .. } => CurveCall::Provide { amount: numbers[0], a },
        }
    }
}

/// A lent buffer before the call.
fn filled(room: u32) -> Vec<u32> {
    (7_000_000..7_000_000 + room).collect()
}

fn put_numbers(numbers: &[u32], line: &mut Vec<u8>) {
    for number in numbers {
        line.push(b' ');
        line.extend(number.to_string().bytes());
    }
}

fn put_curve(curve: &[u32], line: &mut Vec<u8>) {
    put_numbers(&[curve.len() as u32], line);
    put_numbers(curve, line);
}

/// Writes the answer's words and the whole buffers after the call.
fn put_result(result: Result<String, u32>, buffers: &[Vec<u32>], answer: &mut Vec<u8>) -> u32 {
    let (words, refusal) = match result {
        Ok(words) => (words, 0),
        Err(number) => (Refusal::plain(number).words(' '), number),
    };
    answer.extend(words.bytes());
    for buffer in buffers {
        answer.extend(b" |");
        put_numbers(buffer, answer);
    }
    answer.push(b'\n');
    refusal
}

/// A copy of a list with another item at an index.
fn replaced<T: Clone>(list: &[T], index: usize, item: T) -> Vec<T> {
    let mut list = list.to_vec();
    list[index] = item;
    list
}

/// Without some windows first, so that the rest stays a curve, then without some numbers.
fn shorter_curves(curve: &[u32]) -> Vec<Vec<u32>> {
    let windows: Vec<&[u32]> = curve.chunks(2).collect();
    let mut curves: Vec<Vec<u32>> = shorter_lists(&windows).iter().map(|windows| windows.concat()).collect();
    curves.extend((0..curve.len()).map(|index| [&curve[..index], &curve[index + 1..]].concat()));
    curves
}

/// How far all curves can be moved towards 0 together.
fn smaller_shifts(curves: &[Vec<u32>]) -> Vec<u32> {
    let least = curves.iter().flatten().copied().min().unwrap_or(0);
    let mut shifts = vec![least, least / 2, least.min(1)];
    shifts.retain(|&shift| shift > 0);
    shifts
}

/// One number lower, alone or with all that follow it.
fn lower_curves(curve: &[u32]) -> Vec<Vec<u32>> {
    let mut curves = Vec::new();
    for index in 0..curve.len() {
        for number in smaller_numbers(curve[index]) {
            let by = curve[index] - number;
            curves.push(replaced(curve, index, number));
            let moved = curve[index..].iter().map(|later| later.saturating_sub(by));
            curves.push(curve[..index].iter().copied().chain(moved).collect());
        }
    }
    curves
}
