//! The calls on tables: tables A, B and C of the scope document, and texts that are refused.
use grodvejas::{analyse, read, report, step, who_at, Refusal, Response, Room, ServerAnswer, State, Table, Who, REPORT};

const A: &[u8] = b"span\t-\nserver\tdeferrable\t3\t10\nserver\tdeferrable\t2\t4\nevery\t1\t1\t0\t4\t-\nevery\t2\t1\t0\t5\t-\nevery\t2\t2\t0\t8\t-\n";
const B: &[u8] = b"span\t8\nserver\tdeferrable\t2\t5\nserver\tdeferrable\t2\t4\nonce\t1\t4\t3\t5\nevery\t2\t1\t0\t4\t4\n";
const C: &[u8] = b"span\t8\nserver\tperiodic\t2\t6\nserver\tdeferrable\t1\t3\nonce\t1\t1\t3\t5\nonce\t2\t1\t0\t2\n";
const ZERO_LEADS: &[u8] = b"span\t8\nserver\tdeferrable\t02\t5\nonce\t1\t4\t3\t5\n";

fn refused<T>(number: u32, line: u32, place: u32) -> Result<T, Refusal> {
    Err(Refusal { number, line, place })
}

fn worst(response: u32, release: u32, margin: i32) -> Response {
    Response::Worst { response, release, margin }
}

/// The report's bytes, when the rest of the buffer stays as it was.
fn report_of(text: &[u8]) -> Vec<u8> {
    let mut out = [b'#'; REPORT];
    let n = report(text, &mut out).unwrap();
    assert!(out[n..].iter().all(|&byte| byte == b'#'));
    out[..n].to_vec()
}

#[test]
#[cfg_attr(not(grodvejas_linked), ignore = "the library is not linked in")]
fn report_of_table_a() {
    let said = b"span\t40\nserver\t1\t4\t-\nserver\t2\t10\t-\ntask\t1\tworst\t1\t0\t3\ntask\t2\tworst\t3\t35\t2\ntask\t3\tworst\t7\t0\t1\n";
    assert_eq!(report_of(A), said);
}

#[test]
#[cfg_attr(not(grodvejas_linked), ignore = "the library is not linked in")]
fn reports_of_tables_b_and_c() {
    assert_eq!(report_of(B), b"span\t8\nserver\t1\t1\t-\nserver\t2\t2\t1\ntask\t1\tworst\t4\t3\t1\ntask\t2\tworst\t4\t4\t0\n");
    assert_eq!(report_of(C), b"span\t8\nserver\t1\t1\t-\nserver\t2\t2\t-\ntask\t1\tworst\t4\t3\t1\ntask\t2\tworst\t3\t0\t-1\n");
}

#[test]
#[cfg_attr(not(grodvejas_linked), ignore = "the library is not linked in")]
fn analysis_of_tables_b_and_c() {
    let mut room = Room::new();
    let b = analyse(B, room.lend()).unwrap();
    assert_eq!(b.span, 8);
    assert_eq!(b.servers, [ServerAnswer { full: 1, short: None }, ServerAnswer { full: 2, short: Some(1) }]);
    assert_eq!(b.tasks, [worst(4, 3, 1), worst(4, 4, 0)]);
    assert_eq!(analyse(C, room.lend()).unwrap().tasks, [worst(4, 3, 1), worst(3, 0, -1)]);
}

#[test]
#[cfg_attr(not(grodvejas_linked), ignore = "the library is not linked in")]
fn unfinished_and_none() {
    let text = b"span\t8\nserver\tdeferrable\t1\t4\nevery\t1\t3\t0\t8\t-\nonce\t1\t1\t9\t1\n";
    assert_eq!(analyse(text, Room::new().lend()).unwrap().tasks, [Response::Unfinished { release: 0 }, Response::None]);
}

#[test]
#[cfg_attr(not(grodvejas_linked), ignore = "the library is not linked in")]
fn refused_text() {
    let mut room = Room::new();
    assert_eq!(read(b""), refused(2, 0, 0));
    assert_eq!(read(ZERO_LEADS), refused(16, 2, 3));
    assert_eq!(analyse(ZERO_LEADS, room.lend()), refused(16, 2, 3));
    assert_eq!(who_at(ZERO_LEADS, 0, room.lend()), refused(16, 2, 3));
    assert_eq!(step(ZERO_LEADS, &mut State::default()), refused(16, 2, 3));
    assert_eq!(report_of(ZERO_LEADS), b"refused\t16\t2\t3\n");
    assert_eq!(read(ZERO_LEADS).unwrap_err().to_string(), "refused 16 2 3");
}

/// The lines of a table, one of each kind.
const LINES: [&str; 4] = ["span\t8", "server\tdeferrable\t2\t5", "once\t1\t4\t3\t5", "every\t1\t1\t0\t4\t4"];

/// What reading the table answers with another text in the place of a line, which counts from 1.
fn read_with(line: usize, text: &str) -> Result<Table, Refusal> {
    let mut lines = LINES;
    lines[line - 1] = text;
    read((lines.join("\n") + "\n").as_bytes())
}

#[test]
#[cfg_attr(not(grodvejas_linked), ignore = "the library is not linked in")]
fn a_leading_zero_in_each_number_of_each_line() {
    for (line, text) in (1..).zip(LINES) {
        assert!(read_with(line, text).is_ok());
        let fields: Vec<&str> = text.split('\t').collect();
        let numbers = (1..).zip(&fields).filter(|(_, field)| field.parse::<u32>().is_ok());
        for (place, number) in numbers {
            let zero = format!("0{number}");
            let mut changed = fields.clone();
            changed[place - 1] = &zero;
            assert_eq!(read_with(line, &changed.join("\t")), refused(16, line as u32, place as u32), "{changed:?}");
        }
    }
}

#[test]
#[cfg_attr(not(grodvejas_linked), ignore = "the library is not linked in")]
fn grounds_and_places_of_fields() {
    let capacities = [("", 5), ("-", 14), ("-5", 15), ("--", 15), ("0x", 15), ("00000x", 15), ("016", 16), ("000016", 16), ("123456", 17), ("6", 6)];
    for (capacity, number) in capacities {
        assert_eq!(read_with(2, &format!("server\tdeferrable\t{capacity}\t5")), refused(number, 2, 3), "{capacity:?}");
    }
    // the leftmost field counts, and a range only where every field of the line is well formed
    let kinds = [("\t2\t5", 5, 2), ("Deferrable\t2\t5", 18, 2), ("-\t02\t5", 18, 2)];
    let ranges = [("periodic\t0\t5\r", 15, 4), ("periodic\t6\t0", 6, 3), ("periodic\t2\t16001", 6, 4)];
    for (fields, number, place) in kinds.into_iter().chain(ranges) {
        assert_eq!(read_with(2, &format!("server\t{fields}")), refused(number, 2, place), "{fields:?}");
    }
}

#[test]
#[cfg_attr(not(grodvejas_linked), ignore = "the library is not linked in")]
fn other_refusals_of_a_text_have_no_place() {
    assert_eq!(read(&[b'\n'; 4097]), refused(1, 0, 0));
    assert_eq!(read(b"span\t8"), refused(2, 0, 0));
    assert_eq!(read_with(3, "twice\t1\t4\t3\t5"), refused(3, 3, 0));
    assert_eq!(read(b"span\t8\n"), refused(3, 2, 0));
    assert_eq!(read_with(2, &[LINES[1]; 17].join("\n")), refused(7, 18, 0));
    assert_eq!(read_with(2, "server\tdeferrable\t02"), refused(4, 2, 0));
    assert_eq!(read(b"span\t-\nserver\tdeferrable\t1\t126\nevery\t1\t1\t0\t127\t-\n"), refused(8, 0, 0));
}

#[test]
#[cfg_attr(not(grodvejas_linked), ignore = "the library is not linked in")]
fn each_tick_of_table_a() {
    let mut room = Room::new();
    let mut state = State::default();
    let mut held = 0;
    for tick in 0..40 {
        let who = step(A, &mut state).unwrap();
        assert_eq!(state.tick, tick + 1);
        assert_eq!(who_at(A, tick, room.lend()), Ok(who), "tick {tick}");
        held += u32::from(who != Who::default());
    }
    // ten jobs of one tick, eight of one, five of two
    assert_eq!(held, 10 + 8 + 10);
}

#[test]
#[cfg_attr(not(grodvejas_linked), ignore = "the library is not linked in")]
fn ticks_and_states_out_of_range() {
    assert_eq!(who_at(A, 40, Room::new().lend()), refused(13, 0, 0));
    let late = State { tick: 40, ..State::default() };
    let mut rich = State::default();
    rich.budgets[1] = 3;
    let mut busy = State::default();
    busy.waiting[2] = 300_000_001;
    for before in [late, rich, busy] {
        let mut state = before;
        assert_eq!(step(A, &mut state), refused(13, 0, 0));
        assert_eq!(state, before);
    }
}

#[test]
#[cfg_attr(not(grodvejas_linked), ignore = "the library is not linked in")]
fn entries_beyond_the_counts_pass_through() {
    let mut state = State::default();
    state.budgets[2] = 99_999;
    state.waiting[63] = u32::MAX;
    step(A, &mut state).unwrap();
    assert_eq!((state.budgets[2], state.waiting[63]), (99_999, u32::MAX));
}

#[test]
#[cfg_attr(not(grodvejas_linked), ignore = "the library is not linked in")]
fn report_with_too_little_room() {
    let n = report_of(A).len();
    let mut out = [b'#'; REPORT];
    assert_eq!(report(A, &mut out[..n]), Ok(n));
    let mut out = [b'#'; REPORT];
    assert_eq!(report(A, &mut out[..n - 1]), refused(11, 0, 0));
    assert_eq!(out, [b'#'; REPORT]);
}
