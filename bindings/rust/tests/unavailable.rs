//! Without the library every call answers so, and changes nothing.
use grodvejas::*;

#[test]
#[cfg_attr(grodvejas_linked, ignore = "the library is linked in")]
fn every_call_answers_that_it_is_unavailable() {
    let (mut a, mut b, mut c, mut bytes) = ([7; 4], [7; 4], [7; 4], [7; 4]);
    let (mut state, mut room) = (State::default(), Room::new());
    let table = Table { span: 0, servers: vec![], tasks: vec![] };
    let no = Refusal::UNAVAILABLE;
    assert_eq!(add(&[], &[], &mut a), Err(no));
    assert_eq!(cut(&[], 1, &mut a), Err(no));
    assert_eq!(fit(&[], &[], &mut a, &mut b, &mut c), Err(no));
    assert_eq!(time_to_provide(&[0, 1], 1), Err(no));
    assert_eq!(read(b""), Err(no));
    assert_eq!(write(&table), Err(no));
    assert_eq!(write_into(&table, &mut bytes), Err(no));
    assert_eq!(step(b"", &mut state), Err(no));
    assert_eq!(step_table(&table, &mut state), Err(no));
    assert_eq!(who_at(b"", 0, room.lend()), Err(no));
    assert_eq!(analyse(b"", room.lend()), Err(no));
    assert_eq!(report(b"", &mut bytes), Err(no));
    assert_eq!((a, b, c, bytes, state), ([7; 4], [7; 4], [7; 4], [7; 4], State::default()));
}
