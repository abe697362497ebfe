//! Calls on table texts, for the program `text_calls`.

use crate::call::{lent, put_hex, put_lent, shorter_lists, smaller_numbers, Call};
use independent::analysis::{analyse, who_at};
use independent::machine::whole_run;
use independent::reading::{read, Kind, Release, Server, Table, Task};
use independent::report::{refused, report};
use independent::writing;
use independent::Refusal;

#[derive(Clone, Debug)]
pub struct TextCall {
    pub asked: Asked,
    pub text: Vec<u8>,
}

/// What is asked of a text.
#[derive(Clone, Debug)]
pub enum Asked {
    Report,
    MachineReport,
    Reading,
    EachTick,
    ReportInto {
        room: usize,
    },
    Analysis {
        rooms: [usize; 6],
    },
    WhoAt {
        tick: u32,
        rooms: [usize; 6],
    },
    Rewriting,
    /// Reading of what rewriting wrote: the table has to be the first text's.
    ReadBack,
    /// Rewriting of what rewriting wrote: the bytes have to be the same.
    WrittenAgain,
}

impl Call for TextCall {
    const PROGRAM: &'static str = "text_calls";
    #[rustfmt::skip]
    const KINDS: &'static [&'static str] = &[
        "report", "machine's report", "reading", "each tick", "report into a room", "analysis", "who at", "rewriting",
        "reading of what was written", "rewriting of what was written",
    ];

    fn kind(&self) -> usize {
        match self.asked {
            Asked::Report => 0,
            Asked::MachineReport => 1,
            Asked::Reading => 2,
            Asked::EachTick => 3,
            Asked::ReportInto { .. } => 4,
            Asked::Analysis { .. } => 5,
            Asked::WhoAt { .. } => 6,
            Asked::Rewriting => 7,
            Asked::ReadBack => 8,
            Asked::WrittenAgain => 9,
        }
    }

    fn put_line(&self, line: &mut Vec<u8>) {
        let number = match self.asked {
            Asked::ReadBack => 3,
            Asked::WrittenAgain => 8,
            _ => self.kind() + 1,
        };
        line.extend(format!("{number} ").bytes());
        match &self.asked {
            Asked::ReportInto { room } => line.extend(format!("{room} ").bytes()),
            Asked::Analysis { rooms } => put_numbers(rooms, line),
            Asked::WhoAt { tick, rooms } => {
                line.extend(format!("{tick} ").bytes());
                put_numbers(rooms, line);
            }
            _ => {}
        }
        match self.asked {
            Asked::ReadBack | Asked::WrittenAgain => put_hex(&written(&self.text).unwrap_or(self.text.clone()), line),
            _ => put_hex(&self.text, line),
        }
        line.push(b'\n');
    }

    fn put_answer(&self, answer: &mut Vec<u8>) -> u32 {
        let refusal = match &self.asked {
            Asked::Report | Asked::MachineReport => put_report(&self.text, answer),
            Asked::Reading | Asked::ReadBack => put_reading(&self.text, answer),
            Asked::EachTick => put_each_tick(&self.text, answer),
            Asked::Rewriting | Asked::WrittenAgain => put_rewritten(&self.text, answer),
            Asked::ReportInto { room } => put_report_into(&self.text, *room, answer),
            Asked::Analysis { rooms } => {
                let result = analyse(&self.text, rooms);
                let words = |table: Table| format!("answers {} {} {}", table.span, table.servers.len(), table.tasks.len());
                put_analysis(result.map(words), rooms, answer)
            }
            Asked::WhoAt { tick, rooms } => {
                let result = who_at(&self.text, *tick, rooms);
                put_analysis(result.map(|tick| format!("who {} {}", tick.holder, tick.runner)), rooms, answer)
            }
        };
        answer.push(b'\n');
        refusal
    }

    fn smaller(&self) -> Vec<TextCall> {
        let mut texts = fewer_lines(&self.text);
        texts.extend(fewer_servers(&self.text));
        texts.extend(given_span(&self.text));
        texts.extend(lower_fields(&self.text));
        texts.extend(shorter_lists(&self.text));
        let mut calls: Vec<TextCall> = texts.into_iter().map(|text| TextCall { asked: self.asked.clone(), text }).collect();
        let asked = smaller_asked(&self.asked).into_iter();
        calls.extend(asked.map(|asked| TextCall { asked, text: self.text.clone() }));
        calls
    }

    fn text(&self) -> Option<&[u8]> {
        Some(&self.text)
    }
}

fn put_numbers(numbers: &[usize], line: &mut Vec<u8>) {
    for number in numbers {
        line.extend(format!("{number} ").bytes());
    }
}

/// The ground on which a text is not read, 0 if it is read.
fn ground(text: &[u8]) -> u32 {
    read(text).err().map_or(0, |refusal| refusal.number)
}

/// The report and, with the line feed that every answer gets, an empty line.
fn put_report(text: &[u8], answer: &mut Vec<u8>) -> u32 {
    answer.extend(report(text));
    ground(text)
}

/// The text of a text's table, if it is read.
fn written(text: &[u8]) -> Result<Vec<u8>, Refusal> {
    read(text).map(|table| writing::text(&table))
}

/// The table's text or the refusal's line and, with the line feed that every answer gets, an empty line.
fn put_rewritten(text: &[u8], answer: &mut Vec<u8>) -> u32 {
    answer.extend(written(text).unwrap_or_else(|refusal| refused(refusal).into_bytes()));
    ground(text)
}

fn put_reading(text: &[u8], answer: &mut Vec<u8>) -> u32 {
    match read(text) {
        Ok(table) => {
            answer.extend(shown(&table).bytes());
            0
        }
        Err(refusal) => put_refusal(refusal, answer),
    }
}

/// Puts the words of a refusal and gives its ground.
fn put_refusal(refusal: Refusal, answer: &mut Vec<u8>) -> u32 {
    answer.extend(refusal.words(' ').bytes());
    refusal.number
}

/// A table on one line.
fn shown(table: &Table) -> String {
    let mut records = vec![format!("span {}", table.span)];
    records.extend(table.servers.iter().map(shown_server));
    records.extend(table.tasks.iter().map(shown_task));
    records.join(" | ")
}

fn shown_server(server: &Server) -> String {
    let kind = match server.kind {
        Kind::Deferrable => "deferrable",
        Kind::Periodic => "periodic",
    };
    format!("server {kind} {} {}", server.capacity, server.period)
}

fn shown_task(task: &Task) -> String {
    let Task { server, work, release, deadline } = task;
    match release {
        Release::Once { instant } => format!("once {server} {work} {instant} {deadline}"),
        Release::Every { offset, period } => format!("every {server} {work} {offset} {period} {deadline}"),
    }
}

/// Holder and runner of each tick; `same`, since curves and machine have to agree.
fn put_each_tick(text: &[u8], answer: &mut Vec<u8>) -> u32 {
    match read(text) {
        Ok(table) => {
            for tick in whole_run(&table) {
                answer.extend(format!(" {} {}", tick.holder, tick.runner).bytes());
            }
            answer.extend(b" same");
            0
        }
        Err(refusal) => put_refusal(refusal, answer),
    }
}

/// The report in a lent buffer, and the bytes behind the buffer, which stay as they were.
fn put_report_into(text: &[u8], room: usize, answer: &mut Vec<u8>) -> u32 {
    let mut buffer = lent(room);
    let bytes = report(text);
    let result = if bytes.len() > room { Err(Refusal::plain(11)) } else { Ok(bytes.len()) };
    if result.is_ok() {
        buffer[..bytes.len()].copy_from_slice(&bytes);
    }
    put_lent(result, &buffer, answer)
}

/// The answer's words and what has become of the six work buffers: zero if the call is accepted, else the same as before.
fn put_analysis(result: Result<String, Refusal>, rooms: &[usize; 6], answer: &mut Vec<u8>) -> u32 {
    let (words, state, refusal) = match result {
        Ok(words) => (words, "zero", 0),
        Err(refusal) => (refusal.words(' '), "same", refusal.number),
    };
    answer.extend(words.bytes());
    answer.extend(b" |");
    for _ in rooms {
        answer.push(b' ');
        answer.extend(state.bytes());
    }
    refusal
}

/// Texts without some of the lines.
fn fewer_lines(text: &[u8]) -> Vec<Vec<u8>> {
    let lines: Vec<&[u8]> = text.split_inclusive(|&byte| byte == b'\n').collect();
    shorter_lists(&lines).iter().map(|lines| lines.concat()).collect()
}

/// Texts without one server; tasks of those behind it keep their server.
fn fewer_servers(text: &[u8]) -> Vec<Vec<u8>> {
    let lines: Vec<&[u8]> = text.split_inclusive(|&byte| byte == b'\n').collect();
    let servers: Vec<usize> = (0..lines.len()).filter(|&index| lines[index].starts_with(b"server\t")).collect();
    let without = |number: usize, dropped: usize| -> Vec<u8> {
        let kept = (0..lines.len()).filter(|&index| index != dropped);
        kept.flat_map(|index| on_earlier_server(lines[index], number)).collect()
    };
    servers.iter().enumerate().map(|(index, &dropped)| without(index + 1, dropped)).collect()
}

/// A line with the server's number lowered by one, if it is a task of a server behind this one.
fn on_earlier_server(line: &[u8], dropped: usize) -> Vec<u8> {
    let mut fields: Vec<Vec<u8>> = line.split(|&byte| byte == b'\t').map(<[u8]>::to_vec).collect();
    let is_task = fields[0] == b"once" || fields[0] == b"every";
    if is_task && fields.len() > 1 {
        let server = String::from_utf8_lossy(&fields[1]).parse::<usize>().unwrap_or(0);
        if server > dropped {
            fields[1] = (server - 1).to_string().into_bytes();
        }
    }
    fields.join(&b'\t')
}

/// The text with its span as a number in the place of `-`.
fn given_span(text: &[u8]) -> Option<Vec<u8>> {
    let rest = text.strip_prefix(b"span\t-\n")?;
    let span = read(text).ok()?.span;
    Some([format!("span\t{span}\n").as_bytes(), rest].concat())
}

/// Texts with one number lower.
fn lower_fields(text: &[u8]) -> Vec<Vec<u8>> {
    let mut texts = Vec::new();
    let is_part = |byte: &u8| *byte == b'\t' || *byte == b'\n';
    let mut start = 0;
    for field in text.split(is_part) {
        let end = start + field.len();
        let number = std::str::from_utf8(field).ok().and_then(|digits| digits.parse::<u32>().ok());
        for lower in smaller_numbers(number.unwrap_or(0)) {
            texts.push([&text[..start], lower.to_string().as_bytes(), &text[end..]].concat());
        }
        start = end + 1;
    }
    texts
}

fn smaller_asked(asked: &Asked) -> Vec<Asked> {
    match asked {
        Asked::ReportInto { room } => {
            smaller_numbers(*room as u32).into_iter().map(|room| Asked::ReportInto { room: room as usize }).collect()
        }
        Asked::WhoAt { tick, rooms } => {
            smaller_numbers(*tick).into_iter().map(|tick| Asked::WhoAt { tick, rooms: *rooms }).collect()
        }
        _ => Vec::new(),
    }
}

#[cfg(all(test, not(feature = "wrong")))]
mod stored {
    use super::{Asked, TextCall};

    #[test]
    fn calls() {
        crate::call::check_stored(call_of);
    }

    /// The call of a line: its kind, the numbers of this kind, the text's digits.
    fn call_of(line: &str) -> Option<TextCall> {
        let mut words = line.split(' ');
        let kind = words.next()?;
        let count = match kind {
            "5" => 1,
            "6" => 6,
            "7" => 7,
            _ => 0,
        };
        let numbers: Vec<u32> = words.by_ref().take(count).map(str::parse).collect::<Result<_, _>>().ok()?;
        let text = words.next().and_then(from_hex)?;
        let asked = asked(kind, &numbers)?;
        words.next().is_none().then_some(TextCall { asked, text })
    }

    /// What is asked by a kind and its numbers.
    fn asked(kind: &str, numbers: &[u32]) -> Option<Asked> {
        Some(match (kind, numbers) {
            ("1", []) => Asked::Report,
            ("2", []) => Asked::MachineReport,
            ("3", []) => Asked::Reading,
            ("4", []) => Asked::EachTick,
            ("5", &[room]) => Asked::ReportInto { room: Some(room as usize).filter(|&room| room <= 4096)? },
            ("6", rooms) => Asked::Analysis { rooms: six_rooms(rooms)? },
            ("7", [tick, rooms @ ..]) => Asked::WhoAt { tick: *tick, rooms: six_rooms(rooms)? },
            ("8", []) => Asked::Rewriting,
            _ => return None,
        })
    }

    /// The lengths of six work buffers, 16,008 numbers at most.
    fn six_rooms(numbers: &[u32]) -> Option<[usize; 6]> {
        let rooms: [u32; 6] = numbers.try_into().ok()?;
        rooms.iter().all(|&room| room <= 16_008).then_some(rooms.map(|room| room as usize))
    }

    /// The bytes that lowercase digits stand for, 5,000 at most.
    fn from_hex(digits: &str) -> Option<Vec<u8>> {
        let value = |digit: &u8| b"0123456789abcdef".iter().position(|other| other == digit);
        let pair = |pair: &[u8]| Some((value(pair.first()?)? * 16 + value(pair.get(1)?)?) as u8);
        digits.as_bytes().chunks(2).map(pair).collect::<Option<Vec<u8>>>().filter(|bytes| bytes.len() <= 5000)
    }
}
