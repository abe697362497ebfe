//! The scope document's checked examples and edges, and those of the requests. The wrong build fails some of them.

use independent::analysis::{analyse, who_at};
use independent::curves;
use independent::reading::read;
use independent::report::report;
use independent::writing::{self, Handed};
use independent::Refusal;

/// A table's text, written with spaces for tabs and `/` for line feeds.
fn text(shown: &str) -> Vec<u8> {
    shown.replace(' ', "\t").replace('/', "\n").into_bytes()
}

fn reported(shown: &str) -> String {
    String::from_utf8(report(&text(shown))).unwrap().replace('\t', " ").replace('\n', "/")
}

/// The number, the line and the place of a refused text.
fn refused(shown: &str) -> (u32, u32, u32) {
    let Refusal { number, line, place } = read(&text(shown)).unwrap_err();
    (number, line, place)
}

/// The number and the place of a refused line in a table that is good otherwise.
fn refused_line(line: &str) -> (u32, u32) {
    let (before, behind) = match line.split(' ').next().unwrap() {
        "span" => ("", "server periodic 1 2/once 1 1 0 1/"),
        "server" => ("span 9/", "once 1 1 0 1/"),
        _ => ("span 9/server periodic 1 2/", ""),
    };
    let (number, at, place) = refused(&format!("{before}{line}/{behind}"));
    assert_eq!(at, 1 + before.matches('/').count() as u32);
    (number, place)
}

/// The text of a text's table, written back.
fn rewritten(shown: &str) -> String {
    let bytes = writing::text(&read(&text(shown)).unwrap());
    String::from_utf8(bytes).unwrap().replace('\t', " ").replace('\n', "/")
}

#[test]
fn adding() {
    assert_eq!(curves::added(&[0, 2, 8, 9], &[0, 1, 5, 6, 8, 10]), Ok(vec![0, 3, 5, 6, 8, 11]));
    assert_eq!(curves::added(&[0, 2], &[0, 2]), Ok(vec![0, 4]));
    assert_eq!(curves::added(&[0, 2], &[2, 4]), Ok(vec![0, 4]));
    assert_eq!(curves::added(&[], &[]), Ok(vec![]));
    assert_eq!(curves::added(&[0, 1_000_000], &[5, 6]), Err(11));
    assert_eq!(curves::added(&[0, 1_000_001], &[]), Err(10));
}

#[test]
fn cutting() {
    assert_eq!(curves::parted(5, &[3, 12]), Ok(vec![3, 5, 5, 10, 10, 12]));
    assert_eq!(curves::parted(0, &[1]), Err(12));
    assert_eq!(curves::parted(1, &[1]), Err(10));
}

#[test]
fn fitting() {
    let fitted = curves::fitted(&[2, 4, 14, 17, 22, 24], &[0, 5, 12, 15, 22, 24, 30, 35]).ok().unwrap();
    assert_eq!(fitted.served, [2, 4, 14, 15, 22, 24, 30, 32]);
    assert_eq!(fitted.supply_left, [0, 2, 4, 5, 12, 14, 32, 35]);
    assert_eq!(fitted.demand_left, []);
    let fitted = curves::fitted(&[0, 2, 3, 5], &[10, 20]).ok().unwrap();
    assert_eq!(fitted.served, [10, 14]);
    let fitted = curves::fitted(&[5, 6], &[0, 5]).ok().unwrap();
    assert_eq!((fitted.supply_left, fitted.served, fitted.demand_left), (vec![0, 5], vec![], vec![5, 6]));
}

#[test]
fn providing() {
    assert_eq!(curves::time_to_provide(2, &[1, 3, 5, 7]), Ok(Some(3)));
    assert_eq!(curves::time_to_provide(5, &[1, 3, 5, 7]), Ok(None));
}

#[test]
fn rooms() {
    let mut room = [7, 8, 9];
    assert_eq!(curves::add(&[0, 1], &[4, 5], &mut room), Err(11));
    assert_eq!(room, [7, 8, 9]);
    assert_eq!(curves::add(&[0, 1], &[1, 5], &mut room), Ok(2));
    assert_eq!(room, [0, 5, 9]);
}

#[test]
fn table_a() {
    let table = "span -/server deferrable 3 10/server deferrable 2 4/every 1 1 0 4 -/every 2 1 0 5 -/every 2 2 0 8 -/";
    let expected = "span 40/server 1 4 -/server 2 10 -/task 1 worst 1 0 3/task 2 worst 3 35 2/task 3 worst 7 0 1/";
    assert_eq!(reported(table), expected);
}

#[test]
fn table_b() {
    let table = "span 8/server deferrable 2 5/server deferrable 2 4/once 1 4 3 5/every 2 1 0 4 4/";
    assert_eq!(reported(table), "span 8/server 1 1 -/server 2 2 1/task 1 worst 4 3 1/task 2 worst 4 4 0/");
}

#[test]
fn table_c() {
    let table = "span 8/server periodic 2 6/server deferrable 1 3/once 1 1 3 5/once 2 1 0 2/";
    assert!(reported(table).ends_with("task 1 worst 4 3 1/task 2 worst 3 0 -1/"));
}

#[test]
fn table_d() {
    let table = "span -/server deferrable 3 10/server deferrable 2 6/every 1 6 0 22 -/every 2 100 0 400 -/";
    let printed = reported(table);
    assert!(printed.starts_with("span 13200/"));
    assert!(printed.contains("task 2 worst 308 9200 92/"));
}

#[test]
fn edges_of_reading() {
    let rest = "/server periodic 1 125/every 1 1 0 128 -/";
    assert_eq!(read(&text(&format!("span -{rest}"))).unwrap().span, 16_000);
    assert_eq!(read(&text(&format!("span 16000{rest}"))).unwrap().span, 16_000);
    assert_eq!(refused(&format!("span 16001{rest}")), (6, 1, 2));
    assert_eq!(refused(&format!("span 016{rest}")), (16, 1, 2));
    assert_eq!(reported(&format!("span 016{rest}")), "refused 16 1 2/");
    assert_eq!(refused("span -/server periodic 1 126/every 1 1 0 127 -/"), (8, 0, 0));
    assert_eq!(refused("span 9/server periodic 1 2/"), (3, 3, 0));
    assert_eq!(refused("span 9/once 1 1 1 1/"), (3, 2, 0));
    assert_eq!(refused("/"), (3, 1, 0));
    assert_eq!(refused("span 9/server periodic 1/"), (4, 2, 0));
    assert_eq!(refused(&format!("span 9/{}", "server periodic 1 2/".repeat(17))), (7, 18, 0));
    assert_eq!(refused(""), (2, 0, 0));
    assert_eq!(refused(&"a".repeat(4097)), (1, 0, 0));
    assert_eq!(refused(&"a".repeat(4096)), (2, 0, 0));
}

/// Lines with `?` in the place of a number, each place of each kind of line once.
#[rustfmt::skip]
const OPEN_LINES: [&str; 12] = [
    "span ?", "server periodic ? 2", "server periodic 1 ?", "once ? 1 0 1", "once 1 ? 0 1", "once 1 1 ? 1", "once 1 1 0 ?",
    "every ? 1 0 1 1", "every 1 ? 0 1 1", "every 1 1 ? 1 1", "every 1 1 0 ? 1", "every 1 1 0 1 ?",
];

/// A line with a word in the open place, and this place.
fn filled(line: &str, word: &str) -> (String, u32) {
    let place = line.split(' ').position(|field| field == "?").unwrap();
    (line.replace('?', word), place as u32 + 1)
}

#[test]
fn faults_of_one_field() {
    let words = [("", 5), ("x", 15), ("--", 15), ("-5", 15), ("0x", 15), ("00000x", 15), ("1234x6", 15), ("5\r", 15)];
    let digits = [("016", 16), ("00", 16), ("000000", 16), ("012345", 16), ("123456", 17), ("99999", 6)];
    for (word, number) in words.into_iter().chain(digits) {
        for (line, place) in OPEN_LINES.map(|line| filled(line, word)) {
            assert_eq!(refused_line(&line), (number, place));
        }
    }
}

#[test]
fn where_a_dash_is_allowed() {
    assert!(read(&text("span -/server periodic 1 2/every 1 1 0 2 -/")).is_ok());
    for (line, place) in OPEN_LINES[1..11].iter().map(|line| filled(line, "-")) {
        assert_eq!(refused_line(&line), (14, place));
    }
    assert_eq!(refused_line("every 1 1 0 - -"), (14, 5));
    // a period that is out of range is not refused a second time as the deadline
    assert_eq!(refused_line("every 1 1 0 0 -"), (6, 5));
}

#[test]
fn kinds_of_servers() {
    assert_eq!(refused_line("server  1 2"), (5, 2));
    for kind in ["-", "x", "Periodic", "DEFERRABLE", "periodic\r", "periodi", "0", "01", "123456"] {
        assert_eq!(refused_line(&format!("server {kind} 1 2")), (18, 2));
    }
}

#[test]
fn ranges_of_a_line() {
    // an instant and an offset may be 0
    for line in OPEN_LINES.into_iter().filter(|line| !["once 1 1 ? 1", "every 1 1 ? 1 1"].contains(line)) {
        let (line, place) = filled(line, "0");
        // a period of 0 is below every capacity
        assert_eq!(refused_line(&line), (6, if line == "server periodic 1 0" { 3 } else { place }));
    }
    for (line, place) in OPEN_LINES.map(|line| filled(line, "16001")) {
        assert_eq!(refused_line(&line), (6, place));
    }
    assert_eq!(refused_line("once 2 1 0 1"), (6, 2));
    // a capacity above its period concerns the capacity, whatever the period
    for line in ["server periodic 3 2", "server periodic 1 0", "server periodic 16000 15999", "server periodic 16002 16001"] {
        assert_eq!(refused_line(line), (6, 3));
    }
}

#[test]
fn several_faults_in_a_line() {
    // every other fault goes before a number out of range to its left
    for (word, number) in [("", 5), ("-", 14), ("x", 15), ("01", 16), ("123456", 17)] {
        assert_eq!(refused_line(&format!("once 0 0 16001 {word}")), (number, 5));
        assert_eq!(refused_line(&format!("server periodic 3 {word}")), (number, 4));
        // the left one of two that are the same
        assert_eq!(refused_line(&format!("every 1 {word} 0 {word} -")), (number, 3));
    }
    assert_eq!(refused_line("once 0 0 16001 0"), (6, 2));
    // the left one of two that differ, whichever is tested first in a field
    assert_eq!(refused_line("once 1 123456  -"), (17, 3));
    assert_eq!(refused_line("once 1 01 x -"), (16, 3));
    assert_eq!(refused_line("every - 0x 01 123456 "), (14, 2));
    assert_eq!(refused_line("server x  -"), (18, 2));
    assert_eq!(refused_line("server  x -"), (5, 2));
}

#[test]
fn order_of_refusals() {
    let table = text("span 8/server periodic 2 6/once 1 1 3 5/");
    let enough = [16_000; 6];
    let mut short = enough;
    short[5] -= 1;
    assert_eq!(analyse(b"", &short), Err(Refusal::plain(9)));
    assert_eq!(analyse(b"", &enough), Err(Refusal::plain(2)));
    assert_eq!(who_at(&table, 8, &enough), Err(Refusal::plain(13)));
    assert!(who_at(&table, 7, &enough).is_ok());
}

#[test]
fn written_back() {
    let table_a = "span -/server deferrable 3 10/server deferrable 2 4/every 1 1 0 4 -/every 2 1 0 5 -/every 2 2 0 8 -/";
    let expected = "span 40/server deferrable 3 10/server deferrable 2 4/every 1 1 0 4 4/every 2 1 0 5 5/every 2 2 0 8 8/";
    assert_eq!(rewritten(table_a), expected);
    assert_eq!(rewritten(expected), expected);
    let table_b = "span 8/server deferrable 2 5/server deferrable 2 4/once 1 4 3 5/every 2 1 0 4 4/";
    assert_eq!(rewritten(table_b), table_b);
}

/// The table with the longest text.
fn longest() -> Handed {
    let servers = vec![[1, 16_000, 16_000]; 16];
    let tasks = vec![[16, 16_000, 2, 16_000, 16_000, 16_000]; 64];
    Handed { span: 16_000, servers_count: 16, tasks_count: 64, servers, tasks }
}

#[test]
fn rooms_of_writing() {
    let longest = longest();
    let mut room = [7; 2604];
    assert_eq!(writing::write(&longest, &mut room[..2602]), Err(Refusal::plain(11)));
    assert_eq!(room, [7; 2604]);
    assert_eq!(writing::write(&longest, &mut room), Ok(2603));
    assert_eq!((room[2602], room[2603]), (b'\n', 7));
    assert_eq!(read(&room[..2603]), Ok(longest.table().unwrap()));
}

#[test]
fn tables_that_break_the_rules() {
    let good = longest();
    let refused = |change: &dyn Fn(&mut Handed)| {
        let mut handed = good.clone();
        change(&mut handed);
        writing::write(&handed, &mut []) == Err(Refusal::plain(13))
    };
    assert!(!refused(&|_| ()));
    for span in [0, 16_001] {
        assert!(refused(&|handed| handed.span = span));
    }
    for count in [0, 17, u32::MAX] {
        assert!(refused(&|handed| handed.servers_count = count));
    }
    for count in [0, 65, u32::MAX] {
        assert!(refused(&|handed| handed.tasks_count = count));
    }
    for (place, numbers) in [(0, [0, 3]), (1, [0, 16_001]), (2, [15_999, 16_001])] {
        assert!(numbers.into_iter().all(|number| refused(&|handed| handed.servers[15][place] = number)));
    }
    let outside = [[0, 17], [0, 16_001], [0, 3], [16_001, u32::MAX], [0, 16_001], [0, 16_001]];
    for (place, numbers) in outside.into_iter().enumerate() {
        assert!(numbers.into_iter().all(|number| refused(&|handed| handed.tasks[63][place] = number)));
    }
    // of `once` the period is not looked at
    assert!(!refused(&|handed| handed.tasks[63] = [1, 1, 1, 0, 16_001, 1]));
    // nor is anything beyond the counts
    assert!(!refused(&|handed| (handed.tasks_count, handed.tasks[63]) = (63, [0; 6])));
}
