//! The ranked list: where a record goes, what falls out, what stays, and the refused count. The sentences are the document's.
use chthonyra::{enter, Record, Refusal};

fn record(slack: i64, test: u64, serial: u64) -> Record {
    Record { slack, test, serial }
}

/// A list of given slacks, with tests and serials of 0.
fn list(slacks: &[i64]) -> Vec<Record> {
    slacks.iter().map(|slack| record(*slack, 0, 0)).collect()
}

#[test]
fn before_the_first_greater() {
    let mut lent = list(&[1, 3, 5, 99, 98]);
    assert_eq!(enter(&mut lent, 3, record(4, 0, 0)), Ok(4));
    assert_eq!(lent, list(&[1, 3, 4, 5, 98]));
}

#[test]
fn at_the_end_if_none_is_greater() {
    let mut lent = list(&[1, 3, 99]);
    assert_eq!(enter(&mut lent, 2, record(3, 0, 0)), Ok(3));
    assert_eq!(lent, list(&[1, 3, 3]));
}

#[test]
fn slack_then_test_then_serial() {
    let mut lent = vec![record(-7, 2, 9), record(-7, 3, 1), record(0, 0, 0)];
    assert_eq!(enter(&mut lent, 2, record(-7, 3, 0)), Ok(3));
    assert_eq!(lent, [record(-7, 2, 9), record(-7, 3, 0), record(-7, 3, 1)]);
    assert_eq!(enter(&mut lent, 3, record(i64::MIN, u64::MAX, u64::MAX)), Ok(3));
    assert_eq!(lent, [record(i64::MIN, u64::MAX, u64::MAX), record(-7, 2, 9), record(-7, 3, 0)]);
}

#[test]
fn last_falls_out_of_a_full_list() {
    let mut lent = list(&[1, 3, 5]);
    assert_eq!(enter(&mut lent, 3, record(2, 0, 0)), Ok(3));
    assert_eq!(lent, list(&[1, 2, 3]));
    assert_eq!(enter(&mut lent, 3, record(9, 0, 0)), Ok(3));
    assert_eq!(lent, list(&[1, 2, 3]));
}

#[test]
fn records_in_any_order() {
    let mut lent = list(&[5, 1, 7, 2, 0]);
    assert_eq!(enter(&mut lent, 4, record(6, 0, 0)), Ok(5));
    assert_eq!(lent, list(&[5, 1, 6, 7, 2]));
}

#[test]
fn counts_of_wrong_size() {
    for (length, count) in [(3, 4), (0, 1), (3, usize::MAX)] {
        let mut lent = list(&vec![8; length]);
        assert_eq!(enter(&mut lent, count, record(1, 0, 0)), Err(Refusal { number: 16, place: 0 }));
        assert_eq!(lent, list(&vec![8; length]));
    }
    assert_eq!(enter(&mut [], 0, record(1, 0, 0)), Ok(0));
}
