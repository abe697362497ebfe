//! The curve calls: the checked examples 1 to 10 of the scope document, and refusals.
use grodvejas::{add, cut, fit, time_to_provide, Fitted, Refusal};

/// What stands in a buffer before a call.
const BEFORE: u32 = 7_000_000;

fn refused<T>(number: u32) -> Result<T, Refusal> {
    Err(Refusal { number, line: 0, place: 0 })
}

/// The sum of two curves, when the rest of the buffer stays as it was.
fn sum(a: &[u32], b: &[u32]) -> Vec<u32> {
    let mut out = [BEFORE; 16];
    let n = add(a, b, &mut out).unwrap();
    assert!(out[n..].iter().all(|&number| number == BEFORE));
    out[..n].to_vec()
}

/// Supply left, served and demand left.
fn fitted(demand: &[u32], supply: &[u32]) -> [Vec<u32>; 3] {
    let (mut left, mut served, mut rest) = ([BEFORE; 16], [BEFORE; 16], [BEFORE; 16]);
    let n = fit(demand, supply, &mut left, &mut served, &mut rest).unwrap();
    [left[..n.left].to_vec(), served[..n.served].to_vec(), rest[..n.rest].to_vec()]
}

#[test]
#[cfg_attr(not(grodvejas_linked), ignore = "the library is not linked in")]
fn adding_up() {
    assert_eq!(sum(&[0, 2, 8, 9], &[0, 1, 5, 6, 8, 10]), [0, 3, 5, 6, 8, 11]);
    assert_eq!(sum(&[0, 2], &[0, 2]), [0, 4]);
    assert_eq!(sum(&[0, 2], &[2, 4]), [0, 4]);
    assert_eq!(sum(&[], &[]), []);
}

#[test]
#[cfg_attr(not(grodvejas_linked), ignore = "the library is not linked in")]
fn cutting() {
    let mut out = [BEFORE; 7];
    assert_eq!(cut(&[3, 12], 5, &mut out), Ok(6));
    assert_eq!(out, [3, 5, 5, 10, 10, 12, BEFORE]);
}

#[test]
#[cfg_attr(not(grodvejas_linked), ignore = "the library is not linked in")]
fn fitting() {
    let [left, served, rest] = fitted(&[2, 4, 14, 17, 22, 24], &[0, 5, 12, 15, 22, 24, 30, 35]);
    assert_eq!(left, [0, 2, 4, 5, 12, 14, 32, 35]);
    assert_eq!(served, [2, 4, 14, 15, 22, 24, 30, 32]);
    assert_eq!(rest, []);
    assert_eq!(fitted(&[0, 2, 3, 5], &[10, 20]), [vec![14, 20], vec![10, 14], vec![]]);
    assert_eq!(fitted(&[5, 6], &[0, 5]), [vec![0, 5], vec![], vec![5, 6]]);
}

#[test]
#[cfg_attr(not(grodvejas_linked), ignore = "the library is not linked in")]
fn providing() {
    assert_eq!(time_to_provide(&[1, 3, 5, 7], 2), Ok(Some(3)));
    assert_eq!(time_to_provide(&[1, 3, 5, 7], 5), Ok(None));
}

#[test]
#[cfg_attr(not(grodvejas_linked), ignore = "the library is not linked in")]
fn not_plain() {
    let mut out = [BEFORE; 8];
    assert_eq!(add(&[0, 2, 3], &[], &mut out), refused(10));
    assert_eq!(add(&[], &[0, 2, 2, 4], &mut out), refused(10));
    assert_eq!(cut(&[2, 2], 5, &mut out), refused(10));
    assert_eq!(time_to_provide(&[0, 1_000_001], 1), refused(10));
    assert_eq!(out, [BEFORE; 8]);
}

#[test]
#[cfg_attr(not(grodvejas_linked), ignore = "the library is not linked in")]
fn no_room() {
    let (mut one, mut two, mut three) = ([BEFORE; 2], [BEFORE; 2], [BEFORE; 2]);
    assert_eq!(add(&[0, 2], &[5, 6], &mut one), refused(11));
    assert_eq!(add(&[0, 600_000], &[0, 600_000], &mut one), refused(11));
    assert_eq!(cut(&[3, 12], 5, &mut one), refused(11));
    assert_eq!(fit(&[2, 4], &[0, 5], &mut one, &mut two, &mut three), refused(11));
    assert_eq!([one, two, three], [[BEFORE; 2]; 3]);
    assert_eq!(fit(&[], &[], &mut [], &mut [], &mut []), Ok(Fitted::default()));
}

#[test]
#[cfg_attr(not(grodvejas_linked), ignore = "the library is not linked in")]
fn zero() {
    let mut out = [BEFORE; 8];
    assert_eq!(cut(&[3, 12], 0, &mut out), refused(12));
    assert_eq!(time_to_provide(&[3, 12], 0), refused(12));
    // 12 is tested before 10
    assert_eq!(cut(&[3], 0, &mut out), refused(12));
    assert_eq!(out, [BEFORE; 8]);
}
