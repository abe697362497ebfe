//! Tables as entries: read, written back and stepped with.
use grodvejas::{read, step, step_table, write, write_into, Kind, Refusal, Release, Server, State, Table, Task, SERVERS, TASKS, TEXT_MOST};

/// The tables of the README, A to D.
const TEXTS: [&[u8]; 4] = [
    include_bytes!("../../../tables/a.txt"),
    include_bytes!("../../../tables/b.txt"),
    include_bytes!("../../../tables/c.txt"),
    include_bytes!("../../../tables/d.txt"),
];

const NO_ROOM: Refusal = Refusal { number: 11, line: 0, place: 0 };
const BROKEN: Refusal = Refusal { number: 13, line: 0, place: 0 };

/// What stands in every place of a buffer before a call.
const BEFORE: u8 = b'#';

fn once(server: u32, work: u32, instant: u32, deadline: u32) -> Task {
    Task { server, work, release: Release::Once { instant }, deadline }
}

fn every(server: u32, work: u32, offset: u32, period: u32, deadline: u32) -> Task {
    Task { server, work, release: Release::Every { offset, period }, deadline }
}

/// A table with an entry of each form.
fn mixed() -> Table {
    let servers = vec![Server { kind: Kind::Deferrable, capacity: 2, period: 5 }, Server { kind: Kind::Periodic, capacity: 3, period: 4 }];
    Table { span: 8, servers, tasks: vec![once(1, 4, 3, 5), every(2, 1, 0, 4, 3)] }
}

/// The table whose text is longest.
fn longest() -> Table {
    let servers = vec![Server { kind: Kind::Deferrable, capacity: 16_000, period: 16_000 }; SERVERS];
    Table { span: 16_000, servers, tasks: vec![every(16, 16_000, 16_000, 16_000, 16_000); TASKS] }
}

fn is_written_and_read_back(table: &Table) {
    let text = write(table).unwrap();
    assert_eq!(read(&text).as_ref(), Ok(table));
    assert!(text.len() <= TEXT_MOST && !text.contains(&b'-'));
}

/// Refused as one that breaks the rules, whatever the room, and nothing has changed.
fn breaks_the_rules(table: &Table) {
    let mut out = [BEFORE; TEXT_MOST];
    assert_eq!(write(table), Err(BROKEN), "{table:?}");
    assert_eq!(write_into(table, &mut out), Err(BROKEN));
    assert_eq!(write_into(table, &mut out[..3]), Err(BROKEN));
    assert_eq!(out, [BEFORE; TEXT_MOST]);
    let mut state = State::default();
    assert_eq!(step_table(table, &mut state), Err(BROKEN));
    assert_eq!(state, State::default());
}

/// Sets a number of the table to values that the rules allow and to values that they do not.
fn has_edges(set: fn(&mut Table, u32), good: &[u32], bad: &[u32]) {
    let with = |&value: &u32| {
        let mut table = mixed();
        set(&mut table, value);
        table
    };
    good.iter().map(with).for_each(|table| is_written_and_read_back(&table));
    bad.iter().map(with).for_each(|table| breaks_the_rules(&table));
}

#[test]
#[cfg_attr(not(grodvejas_linked), ignore = "the library is not linked in")]
fn entries_of_tables_a_and_c() {
    let a = read(TEXTS[0]).unwrap();
    assert_eq!(a.span, 40);
    assert_eq!(a.servers[1], Server { kind: Kind::Deferrable, capacity: 2, period: 4 });
    assert_eq!(a.tasks, [every(1, 1, 0, 4, 4), every(2, 1, 0, 5, 5), every(2, 2, 0, 8, 8)]);
    let c = read(TEXTS[2]).unwrap();
    assert_eq!(c.servers[0], Server { kind: Kind::Periodic, capacity: 2, period: 6 });
    assert_eq!((c.servers.len(), c.tasks), (2, vec![once(1, 1, 3, 5), once(2, 1, 0, 2)]));
}

#[test]
#[cfg_attr(not(grodvejas_linked), ignore = "the library is not linked in")]
fn texts_of_tables_a_to_c() {
    let [a, b, c] = [0, 1, 2].map(|i| write(&read(TEXTS[i]).unwrap()).unwrap());
    let numbers =
        b"span\t40\nserver\tdeferrable\t3\t10\nserver\tdeferrable\t2\t4\nevery\t1\t1\t0\t4\t4\nevery\t2\t1\t0\t5\t5\nevery\t2\t2\t0\t8\t8\n";
    assert_eq!(a, numbers);
    // what has no `-` is written as it was read
    assert_eq!((b.as_slice(), c.as_slice()), (TEXTS[1], TEXTS[2]));
}

#[test]
#[cfg_attr(not(grodvejas_linked), ignore = "the library is not linked in")]
fn written_and_read_back() {
    let tables = TEXTS.map(|text| read(text).unwrap());
    tables.iter().for_each(is_written_and_read_back);
    is_written_and_read_back(&mixed());
    is_written_and_read_back(&longest());
    assert_eq!(write(&longest()).unwrap().len(), TEXT_MOST);
}

#[test]
#[cfg_attr(not(grodvejas_linked), ignore = "the library is not linked in")]
fn numbers_outside_their_ranges() {
    let ticks: [fn(&mut Table, u32); 7] = [
        |table, n| table.span = n,
        |table, n| table.servers[0] = Server { kind: Kind::Deferrable, capacity: n, period: n.max(1) },
        |table, n| table.servers[1] = Server { kind: Kind::Periodic, capacity: 1, period: n },
        |table, n| table.tasks[0].work = n,
        |table, n| table.tasks[1].release = Release::Every { offset: 0, period: n },
        |table, n| table.tasks[0].deadline = n,
        |table, n| table.tasks[1].deadline = n,
    ];
    ticks.iter().for_each(|&set| has_edges(set, &[1, 16_000], &[0, 16_001, u32::MAX]));
    let instants: [fn(&mut Table, u32); 2] = [
        |table, n| table.tasks[0].release = Release::Once { instant: n },
        |table, n| table.tasks[1].release = Release::Every { offset: n, period: 4 },
    ];
    instants.iter().for_each(|&set| has_edges(set, &[0, 16_000], &[16_001, u32::MAX]));
    has_edges(|table, n| table.tasks[1].server = n, &[1, 2], &[0, 3, u32::MAX]);
    // a capacity is not above its period
    has_edges(|table, n| table.servers[1].capacity = n, &[1, 4], &[0, 5]);
}

#[test]
#[cfg_attr(not(grodvejas_linked), ignore = "the library is not linked in")]
fn counts_outside_their_ranges() {
    let servers = |table: &mut Table, n: u32| table.servers = vec![table.servers[0]; n as usize];
    let tasks = |table: &mut Table, n: u32| table.tasks = vec![table.tasks[0]; n as usize];
    has_edges(tasks, &[1, 64], &[0, 65, 1_000]);
    // task 2 is of server 2
    has_edges(servers, &[2, 16], &[0, 1, 17, 1_000]);
}

#[test]
#[cfg_attr(not(grodvejas_linked), ignore = "the library is not linked in")]
fn rooms() {
    for table in [mixed(), longest()] {
        let text = write(&table).unwrap();
        let n = text.len();
        let mut out = [BEFORE; TEXT_MOST + 8];
        for room in [0, 1, n - 1] {
            assert_eq!(write_into(&table, &mut out[..room]), Err(NO_ROOM));
            assert_eq!(out, [BEFORE; TEXT_MOST + 8]);
        }
        for room in [n, n + 1, out.len()] {
            out.fill(BEFORE);
            assert_eq!(write_into(&table, &mut out[..room]), Ok(n));
            assert_eq!(out[..n], text);
            assert!(out[n..].iter().all(|&byte| byte == BEFORE));
        }
    }
}

#[test]
#[cfg_attr(not(grodvejas_linked), ignore = "the library is not linked in")]
fn steps_with_a_table_and_with_its_text() {
    for text in TEXTS {
        let table = read(text).unwrap();
        let (mut by_table, mut by_text) = (State::default(), State::default());
        for tick in 0..table.span {
            let who = step_table(&table, &mut by_table);
            assert!(who.is_ok());
            assert_eq!(who, step(text, &mut by_text), "tick {tick}");
            assert_eq!(by_table, by_text);
        }
        // the tick is now at the end of the span
        let before = by_table;
        assert_eq!(step_table(&table, &mut by_table), Err(BROKEN));
        assert_eq!(by_table, before);
    }
}

#[test]
#[cfg_attr(not(grodvejas_linked), ignore = "the library is not linked in")]
fn states_out_of_range() {
    let table = mixed();
    let mut rich = State::default();
    rich.budgets[1] = 4;
    let mut busy = State::default();
    busy.waiting[0] = 300_000_001;
    for before in [rich, busy] {
        let mut state = before;
        assert_eq!(step_table(&table, &mut state), Err(BROKEN));
        assert_eq!(state, before);
    }
}
