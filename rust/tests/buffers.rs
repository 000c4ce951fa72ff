//! Buffers of wrong size get their refusals: one short, far short, empty, and longer than any design wants.
mod common;

use chthonyra::{ask_into, check, line, read_into, Refusal, WORK};
use common::{room, work, SHEET, TABLE};

const SHORT: Refusal = Refusal { number: 15, place: 0 };

#[test]
fn table_room() {
    for length in [0, 1, 60] {
        let mut table = vec![7; length];
        assert_eq!(read_into(SHEET.as_bytes(), &mut table), Err(Refusal { number: 5, place: 0 }));
        assert_eq!(table, vec![7; length]);
    }
    for length in [61, 62, 100_000] {
        let mut table = vec![7; length];
        assert_eq!(read_into(SHEET.as_bytes(), &mut table).map(|read| read.length), Ok(61));
        assert!(table[61..].iter().all(|number| *number == 7));
    }
}

#[test]
fn row_room() {
    for length in [0, 1, 12, 35] {
        let (mut lent, mut area) = (room(length), work(WORK));
        assert_eq!(ask_into(&TABLE, 0, 3, &mut lent, &mut area), Err(SHORT));
        assert_eq!((lent, area), (room(length), work(WORK)));
    }
}

#[test]
fn work_area() {
    for length in [0, 1, WORK - 1] {
        let (mut lent, mut area) = (room(36), work(length));
        assert_eq!(ask_into(&TABLE, 0, 3, &mut lent, &mut area), Err(SHORT));
        assert_eq!((lent, area), (room(36), work(length)));
    }
}

#[test]
fn everything_empty() {
    assert_eq!(read_into(&[], &mut []), Err(Refusal { number: 2, place: 1 }));
    assert_eq!(check(&[]), Err(Refusal { number: 6, place: 0 }));
    assert_eq!(ask_into(&[], 0, 1, &mut [], &mut []), Err(Refusal { number: 6, place: 0 }));
    assert_eq!(line(&[], 0), b"");
}

#[test]
fn table_one_short_and_one_long() {
    assert_eq!(check(&TABLE[..60]), Err(Refusal { number: 6, place: 0 }));
    assert_eq!(check(&[&TABLE[..], &[0]].concat()), Err(Refusal { number: 6, place: 0 }));
}

#[test]
fn modes_and_k_before_room() {
    for (mode, k) in [(2, 3), (u32::MAX, 3), (0, 0), (0, 17), (1, usize::MAX)] {
        assert_eq!(ask_into(&TABLE, mode, k, &mut [], &mut []), Err(Refusal { number: 14, place: 0 }));
    }
}
