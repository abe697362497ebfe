//! Random table texts, and what is asked of texts.

use crate::comparing::Maker;
use crate::damage;
use crate::dice::Dice;
use crate::table_families::every_text;
use crate::text_call::{Asked, TextCall};
use independent::analysis::LEAST_ROOM;
use independent::reading::{read, MOST};
use independent::report::report;

/// Random texts in one piece of work.
const PIECE: usize = 200;
/// Each tick of the span is asked for only in spans up to this one: the proved program works everything out anew for each tick.
const MOST_EACH_TICK: u32 = 60;

/// The pieces of work with `count` random texts.
pub fn random(seed: u64, count: usize) -> Vec<Maker<TextCall>> {
    let mut makers: Vec<Maker<TextCall>> = Vec::new();
    for start in (0..count).step_by(PIECE) {
        makers.push(Box::new(move || {
            let mut dice = Dice::new(seed, "tables", start as u64);
            (start..count.min(start + PIECE)).flat_map(|_| random_calls(&mut dice)).collect()
        }));
    }
    makers
}

/// The pieces of work with every text of the small families, or with one in `step` of them.
pub fn systematic(seed: u64, step: usize) -> Vec<Maker<TextCall>> {
    let skipped = (seed % step as u64) as usize;
    let texts: Vec<Vec<u8>> = every_text().into_iter().skip(skipped).step_by(step).collect();
    let mut makers: Vec<Maker<TextCall>> = Vec::new();
    for (piece, texts) in texts.chunks(PIECE).enumerate() {
        let texts = texts.to_vec();
        makers.push(Box::new(move || {
            let mut dice = Dice::new(seed, "every text", piece as u64);
            texts.iter().flat_map(|text| calls_on(&mut dice, text)).collect()
        }));
    }
    makers
}

/// The text of a random table of any size.
pub fn random_text(dice: &mut Dice) -> Vec<u8> {
    let size = Size::random(dice);
    random_table(dice, &size)
}

fn random_calls(dice: &mut Dice) -> Vec<TextCall> {
    let mut text = random_text(dice);
    if dice.one_in(3) {
        text = damage::damaged(dice, &text);
    }
    calls_on(dice, &text)
}

/// What is asked of a text: four kinds of calls always, the others now and then.
fn calls_on(dice: &mut Dice, text: &[u8]) -> Vec<TextCall> {
    let mut asked = vec![Asked::Report, Asked::MachineReport, Asked::Reading, Asked::Rewriting];
    let span = read(text).map_or(0, |table| table.span);
    if span <= MOST_EACH_TICK && dice.one_in(8) {
        asked.push(Asked::EachTick);
    }
    if dice.one_in(4) {
        asked.push(Asked::ReportInto { room: random_room(dice, report(text).len()) });
    }
    if dice.one_in(8) {
        asked.push(Asked::Analysis { rooms: random_rooms(dice) });
    }
    if dice.one_in(4) {
        asked.push(Asked::WhoAt { tick: random_tick(dice, span), rooms: random_rooms(dice) });
    }
    if span > 0 && dice.one_in(2) {
        asked.extend([Asked::ReadBack, Asked::WrittenAgain]);
    }
    asked.into_iter().map(|asked| TextCall { asked, text: text.to_vec() }).collect()
}

/// A room for so many bytes: exact, too small or larger.
pub fn random_room(dice: &mut Dice, need: usize) -> usize {
    match dice.below(6) {
        0 => need,
        1 => need - 1,
        2 => need + 1,
        3 => dice.below(need),
        4 => dice.pick(&[0, 1, 4095, 4096]),
        _ => (need + dice.below(200)).min(4096),
    }
}

/// Six work buffers, most of the time long enough.
fn random_rooms(dice: &mut Dice) -> [usize; 6] {
    let mut rooms = [LEAST_ROOM; 6];
    for room in &mut rooms {
        *room += dice.below(9);
    }
    if dice.one_in(4) {
        rooms[dice.below(6)] = dice.pick(&[LEAST_ROOM - 1, LEAST_ROOM - 2, 0, 1, 8000]);
    }
    rooms
}

fn random_tick(dice: &mut Dice, span: u32) -> u32 {
    match dice.below(8) {
        0 => span,
        1 => dice.pick(&[span + 1, MOST, MOST + 1, u32::MAX]),
        2 => span.saturating_sub(1),
        3 => 0,
        _ => dice.between(0, span),
    }
}

/// How large the numbers of a random table are.
struct Size {
    servers: u32,
    tasks: u32,
    /// The largest span that is given by a number.
    span: u32,
    period: u32,
    /// Periods divide one of these where the span is the common multiple.
    multiples: &'static [u32],
}

const SMALL: Size = Size { servers: 4, tasks: 5, span: 60, period: 14, multiples: &[6, 12, 20, 24, 30, 36, 40, 42, 48, 60] };
const MIDDLE: Size =
    Size { servers: 8, tasks: 16, span: 1500, period: 120, multiples: &[120, 144, 240, 360, 420, 600, 840, 1200] };
const LARGE: Size = Size { servers: 16, tasks: 64, span: MOST, period: MOST, multiples: &[10_080, 13_200, 15_120, 16_000] };
/// A large span with short periods: curves with as many windows as can be.
const DENSE: Size = Size { servers: 4, tasks: 8, span: MOST, period: 6, multiples: &[16_000, 15_120] };

impl Size {
    fn random(dice: &mut Dice) -> Size {
        match dice.below(1000) {
            0..=2 => LARGE,
            3..=5 => DENSE,
            6..=80 => MIDDLE,
            _ => SMALL,
        }
    }
}

/// A table while it is made: how its numbers are chosen.
struct Making<'a> {
    dice: &'a mut Dice,
    span: u32,
    /// What the periods are taken from.
    periods: Vec<u32>,
    /// Capacities are up to this part of a period: 1 the whole, 2 the half, and so on.
    capacity_part: u32,
    /// The same for work.
    work_part: u32,
    /// Whether some numbers are at the edges of their ranges.
    edges: bool,
}

/// A table that keeps all the rules, or nearly: with `-` the common multiple may be too large.
fn random_table(dice: &mut Dice, size: &Size) -> Vec<u8> {
    let (servers, tasks) = random_counts(dice, size);
    let by_multiple = dice.one_in(2);
    let span = if by_multiple { dice.pick(size.multiples) } else { random_span(dice, size) };
    let periods = if by_multiple && !dice.one_in(20) { divisors(span, size.period) } else { (1..=size.period).collect() };
    let (capacity_part, work_part, edges) = (dice.pick(&[1, 2, 3]), dice.pick(&[1, 4, 8, 16]), dice.one_in(6));
    let mut making = Making { dice, span, periods, capacity_part, work_part, edges };
    let mut text = if by_multiple { "span\t-\n".to_string() } else { format!("span\t{span}\n") };
    for _ in 0..servers {
        text += &making.server_line();
    }
    for _ in 0..tasks {
        text += &making.task_line(servers);
    }
    text.into_bytes()
}

/// How many servers and tasks, now and then as many as can be.
fn random_counts(dice: &mut Dice, size: &Size) -> (u32, u32) {
    if dice.one_in(4) {
        return (size.servers, size.tasks);
    }
    (dice.between(1, size.servers), dice.between(1, size.tasks))
}

fn random_span(dice: &mut Dice, size: &Size) -> u32 {
    if dice.one_in(8) {
        size.span
    } else {
        dice.between(1, size.span)
    }
}

fn divisors(number: u32, most: u32) -> Vec<u32> {
    (1..=most.min(number)).filter(|&divisor| number.is_multiple_of(divisor)).collect()
}

impl Making<'_> {
    fn server_line(&mut self) -> String {
        let kind = self.dice.pick(&["deferrable", "deferrable", "periodic"]);
        let period = self.dice.pick(&self.periods);
        let most = (period / self.capacity_part).max(1);
        let capacity = if self.dice.one_in(8) { period } else { self.dice.between(1, most) };
        format!("server\t{kind}\t{capacity}\t{period}\n")
    }

    fn task_line(&mut self, servers: u32) -> String {
        let server = self.dice.between(1, servers);
        if self.dice.one_in(4) {
            self.once_line(server)
        } else {
            self.every_line(server)
        }
    }

    fn once_line(&mut self, server: u32) -> String {
        let most_work = (self.span / 4 / self.work_part).max(1);
        let work = self.dice.between(1, most_work);
        let instant = self.dice.between(0, self.span + 1);
        let deadline = self.dice.between(1, self.span);
        let [work, instant, deadline] = [self.edged(work, 1), self.edged(instant, 0), self.edged(deadline, 1)];
        format!("once\t{server}\t{work}\t{instant}\t{deadline}\n")
    }

    fn every_line(&mut self, server: u32) -> String {
        let period = self.dice.pick(&self.periods);
        let most_work = if self.dice.one_in(20) { period * 2 } else { (period / self.work_part).max(1) };
        let work = self.dice.between(1, most_work.min(MOST));
        let offset = if self.dice.one_in(3) { 0 } else { self.dice.between(0, period) };
        let [work, offset] = [self.edged(work, 1), self.edged(offset, 0)];
        let deadline = if self.dice.one_in(2) { "-".to_string() } else { self.deadline(period) };
        format!("every\t{server}\t{work}\t{offset}\t{period}\t{deadline}\n")
    }

    fn deadline(&mut self, period: u32) -> String {
        let deadline = self.dice.between(1, period.saturating_mul(2).min(MOST));
        self.edged(deadline, 1).to_string()
    }

    /// The number itself, within its range, or now and then one at an edge.
    fn edged(&mut self, number: u32, least: u32) -> u32 {
        if self.edges && self.dice.one_in(4) {
            let span = self.span;
            let edge = self.dice.pick(&[least, least + 1, MOST, MOST - 1, span, span + 1, span - 1]);
            return edge.clamp(least, MOST);
        }
        number.clamp(least, MOST)
    }
}
