//! All table texts of a few small families, good and bad.

use crate::damage;
use independent::reading::read;

/// Every text of some small families.
pub fn every_text() -> Vec<Vec<u8>> {
    let mut texts: Vec<Vec<u8>> = Vec::new();
    for base in BASES {
        let base = tabbed(base);
        texts.push(base.clone());
        texts.extend(damage::every_byte_edit(&base));
        texts.extend(damage::every_field_edit(&base));
        texts.extend((0..base.len()).map(|length| base[..length].to_vec()));
    }
    texts.extend(damage::every_two_faults(&tabbed(EACH_KIND_OF_LINE)));
    texts.extend(CORNERS.iter().map(|corner| tabbed(corner)));
    texts.extend(every_order());
    texts.extend(every_fault());
    texts.extend(every_further_line());
    texts.extend(every_count());
    texts.extend(every_length());
    texts.extend(every_small_table());
    texts
}

/// Tables to be damaged systematically, with spaces for tabs and `/` for line feeds.
const BASES: [&str; 3] = [
    "span -/server deferrable 3 10/server deferrable 2 4/every 1 1 0 4 -/every 2 1 0 5 -/every 2 2 0 8 -/",
    "span 8/server periodic 2 6/server deferrable 1 3/once 1 1 3 5/once 2 1 0 2/",
    EACH_KIND_OF_LINE,
];

/// A table with one line of each kind.
const EACH_KIND_OF_LINE: &str = "span 30/server deferrable 2 5/every 1 12 10 15 16000/once 1 1 0 1/";

/// Tables at the edges: the longest and the shortest span, the widest margins, the largest multiple, the most waiting work.
const CORNERS: [&str; 12] = [
    "span 16000/server deferrable 16000 16000/once 1 16000 0 1/",
    "span 16000/server periodic 16000 16000/once 1 16000 0 16000/every 1 1 0 1 1/",
    "span 16000/server periodic 1 1/once 1 1 0 16000/once 1 1 15999 1/once 1 1 16000 1/",
    "span 1/server periodic 1 1/once 1 1 0 1/once 1 1 0 1/once 1 1 1 1/",
    "span 1/server deferrable 1 16000/every 1 16000 0 1 -/every 1 1 16000 16000 -/",
    "span 16000/server deferrable 1 16000/every 1 16000 0 1 -/",
    "span 16000/server deferrable 8000 16000/every 1 16000 0 1 -/every 1 16000 1 1 16000/once 1 16000 16000 16000/",
    "span -/server periodic 1 125/every 1 1 0 128 -/",
    "span -/server periodic 1 126/every 1 1 0 127 -/",
    "span -/server deferrable 1 16000/server periodic 1 15999/once 1 1 0 1/",
    "span -/server periodic 1 2/server deferrable 1 3/every 2 1 1 2 -/every 2 1 0 16000 -/",
    "span 16000/server periodic 1 2/server deferrable 1 2/every 2 1 1 2 -/every 2 1 0 2 -/every 1 1 1 2 -/",
];

/// The tables that are damaged systematically and the good ones at the edges.
pub fn every_base() -> Vec<Vec<u8>> {
    let texts = BASES.iter().chain(&CORNERS).map(|base| tabbed(base));
    texts.filter(|text| read(text).is_ok()).collect()
}

fn tabbed(shown: &str) -> Vec<u8> {
    shown.replace(' ', "\t").replace('/', "\n").into_bytes()
}

/// Every text of up to four lines of six sorts, in every order.
fn every_order() -> Vec<Vec<u8>> {
    let lines = ["span 9/", "server periodic 1 2/", "once 1 1 0 1/", "every 1 1 0 2 -/", "/", "Span 9/"].map(tabbed);
    let mut all: Vec<Vec<u8>> = Vec::new();
    let mut longest: Vec<Vec<u8>> = vec![Vec::new()];
    for _ in 0..4 {
        longest = longest.iter().flat_map(|text| lines.iter().map(|line| [&text[..], line].concat())).collect();
        all.extend(longest.clone());
    }
    all
}

/// Texts with one line each of whose fields is good, no number, outside its range or `-`, in every mixture.
fn every_fault() -> Vec<Vec<u8>> {
    let [one, more] = [["1", "x", "0", "16001", "-"], ["3", "x", "0", "16001", "-"]];
    let span = every_mixture(&[&["span"], &one]).into_iter().map(|line| format!("{line}server periodic 1 2/once 1 1 0 1/"));
    let server = every_mixture(&[&["server"], &["periodic", "x", "-"], &more, &one]);
    let server = server.into_iter().map(|line| format!("span 5/{line}once 1 1 0 1/"));
    let mut tasks = every_mixture(&[&["once"], &one, &one, &one, &one]);
    tasks.extend(every_mixture(&[&["every"], &one[..3], &one[..3], &one, &more, &one]));
    let tasks = tasks.into_iter().map(|line| format!("span 5/server deferrable 2 3/{line}"));
    span.chain(server).chain(tasks).map(|text| tabbed(&text)).collect()
}

/// Every line whose first field is one of the first list, the second one of the second, and so on.
fn every_mixture(fields: &[&[&str]]) -> Vec<String> {
    let mut lines = vec![String::new()];
    for field in fields {
        lines = lines.iter().flat_map(|line| field.iter().map(move |word| format!("{line}{word} "))).collect();
    }
    lines.iter().map(|line| format!("{}/", line.trim_end())).collect()
}

/// Lines for a text that has as many servers or tasks as it may, good ones and bad ones.
#[rustfmt::skip]
const FURTHER_LINES: [&str; 16] = [
    "server/", "server x/", "server x y z/", "server periodic 0 0/", "server periodic 1 2/", "server periodic 1 2 3/", "Server/",
    "once/", "once x y z x/", "once 1 1 0 1/", "once 99 0 0 0/", "every/", "every 1/", "every 1 1 0 1 -/", "span 3/", "/",
];

/// Full or nearly full texts with one line more.
fn every_further_line() -> Vec<Vec<u8>> {
    let full = [counted(16, 0), counted(16, 1), counted(1, 64), counted(16, 64), counted(15, 63)];
    full.iter().flat_map(|full| FURTHER_LINES.map(|line| [&full[..], &tabbed(line)].concat())).collect()
}

/// Texts with few and with too many servers and tasks.
fn every_count() -> Vec<Vec<u8>> {
    let mut texts = Vec::new();
    for servers in 0..=18 {
        for tasks in 0..=66 {
            let is_edge = [0, 1, 16, 17].contains(&servers) || [0, 1, 63, 64, 65].contains(&tasks);
            if is_edge {
                texts.push(counted(servers, tasks));
            }
        }
    }
    texts
}

fn counted(servers: usize, tasks: usize) -> Vec<u8> {
    let server = |index: usize| format!("server deferrable 1 {}/", index + 3);
    let task = |index: usize| format!("every {} 1 {} {} -/", index % servers.max(1) + 1, index, index * 3 + 7);
    let servers: String = (0..servers).map(server).collect();
    let tasks: String = (0..tasks).map(task).collect();
    tabbed(&format!("span 300/{servers}{tasks}"))
}

/// Texts around the largest length, made long in several ways.
fn every_length() -> Vec<Vec<u8>> {
    let base = tabbed(BASES[0]);
    let mut texts = Vec::new();
    for length in 4093..=4099 {
        texts.extend([b'\n', b'\t', b'0', b'x', 0, 255].map(|filler| damage::padded(&base, length, filler)));
        texts.push(damage::repeated(&base, length));
    }
    texts
}

/// Every table with two servers of periods up to 3 and one task of several kinds besides two that are always there.
fn every_small_table() -> Vec<Vec<u8>> {
    let mut servers = Vec::new();
    for (capacity, period) in [(1, 1), (1, 2), (2, 2), (1, 3), (2, 3), (3, 3)] {
        servers.extend(["deferrable", "periodic"].map(|kind| format!("server {kind} {capacity} {period}/")));
    }
    let mut texts = Vec::new();
    for first in &servers {
        for second in &servers {
            let others = every_small_task().into_iter();
            texts.extend(others.map(|task| tabbed(&format!("span 7/{first}{second}{task}every 1 1 0 3 -/once 2 2 1 4/"))));
        }
    }
    texts
}

fn every_small_task() -> Vec<String> {
    let mut tasks = Vec::new();
    for server in 1..=2 {
        for work in 1..=2 {
            for offset in 0..=1 {
                tasks.extend((1..=3).map(|period| format!("every {server} {work} {offset} {period} -/")));
            }
        }
    }
    tasks
}
