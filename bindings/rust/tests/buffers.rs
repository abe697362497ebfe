//! What becomes of the six work buffers. Each has some numbers more than are lent, which have to stay as they were.
use grodvejas::{analyse, who_at, Refusal, ROOM};

const TEXT: &[u8] = b"span\t8\nserver\tdeferrable\t2\t5\nserver\tdeferrable\t2\t4\nonce\t1\t4\t3\t5\nevery\t2\t1\t0\t4\t4\n";
const BAD: &[u8] = b"span\t8\nserver\tdeferrable\t6\t5\n";
const GUARD: usize = 8;

/// Six buffers, each number different from 0, with guards behind the numbers that are to be lent.
fn buffers(lent: [usize; 6]) -> [Vec<u32>; 6] {
    lent.map(|n| (0..n + GUARD).map(|i| 7_000_000 + i as u32).collect())
}

fn lend(all: &mut [Vec<u32>; 6]) -> [&mut [u32]; 6] {
    all.each_mut().map(|buffer| {
        let n = buffer.len() - GUARD;
        &mut buffer[..n]
    })
}

/// Whether every lent number is 0 and the guards are as they were.
fn cleared(after: &[Vec<u32>; 6], before: &[Vec<u32>; 6]) -> bool {
    after.iter().zip(before).all(|(a, b)| {
        let n = a.len() - GUARD;
        a[..n].iter().all(|&number| number == 0) && a[n..] == b[n..]
    })
}

/// Buffers of the least length, and of other lengths.
const ENOUGH: [[usize; 6]; 2] = [[ROOM; 6], [ROOM + 1, ROOM, ROOM + 500, ROOM, ROOM, ROOM + 7]];

#[test]
#[cfg_attr(not(grodvejas_linked), ignore = "the library is not linked in")]
fn zero_after_an_accepted_call() {
    for lent in ENOUGH {
        let before = buffers(lent);
        let mut after = before.clone();
        assert!(analyse(TEXT, lend(&mut after)).is_ok());
        assert!(cleared(&after, &before));
        after = before.clone();
        assert!(who_at(TEXT, 5, lend(&mut after)).is_ok());
        assert!(cleared(&after, &before));
    }
}

#[test]
#[cfg_attr(not(grodvejas_linked), ignore = "the library is not linked in")]
fn unchanged_after_a_refused_call() {
    for lent in ENOUGH {
        let before = buffers(lent);
        let mut after = before.clone();
        assert_eq!(analyse(BAD, lend(&mut after)), Err(Refusal { number: 6, line: 2, place: 3 }));
        assert_eq!(who_at(BAD, 5, lend(&mut after)), Err(Refusal { number: 6, line: 2, place: 3 }));
        assert_eq!(who_at(TEXT, 8, lend(&mut after)), Err(Refusal { number: 13, line: 0, place: 0 }));
        assert!(after == before);
    }
}

#[test]
#[cfg_attr(not(grodvejas_linked), ignore = "the library is not linked in")]
fn too_short_each_in_turn() {
    for short in 0..6 {
        for n in [0, ROOM - 1] {
            let mut lent = [ROOM; 6];
            lent[short] = n;
            let before = buffers(lent);
            let mut after = before.clone();
            // 9 is tested before the text
            assert_eq!(analyse(BAD, lend(&mut after)), Err(Refusal { number: 9, line: 0, place: 0 }));
            assert_eq!(who_at(TEXT, 5, lend(&mut after)), Err(Refusal { number: 9, line: 0, place: 0 }));
            assert!(after == before);
        }
    }
}
