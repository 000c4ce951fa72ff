//! Each refusal of the document once, with its place, and what stays then: expectations are the document's table of refusals read against the bench sheet.
mod common;

use chthonyra::{ask_into, check, read_into, Refusal};
use common::{room, work, SHEET, TABLE};

fn refusal(number: u32, place: usize) -> Refusal {
    Refusal { number, place }
}

/// The refusal of a text; the table that was lent must stay as it was.
fn text_refusal(text: &[u8], length: usize) -> Option<Refusal> {
    let mut table = vec![4_000_000_000; length];
    let answer = read_into(text, &mut table).err();
    assert!(answer.is_none() || table.iter().all(|number| *number == 4_000_000_000), "a refused reading wrote");
    answer
}

/// The refusal of an asking; room and work area must stay as they were. `check` must say the same of 6 to 13, and nothing else.
fn table_refusal(table: &[u32]) -> Option<Refusal> {
    let (mut lent, mut area) = (room(100), work(8_192));
    let answer = ask_into(table, 0, 3, &mut lent, &mut area).err();
    assert!(answer.is_none() || (lent == room(100) && area == work(8_192)), "a refused asking wrote");
    assert_eq!(check(table).err(), answer);
    answer
}

/// The sheet's table with some places changed.
fn with(changes: &[(usize, u32)]) -> Vec<u32> {
    let mut table = TABLE.to_vec();
    for (place, number) in changes {
        table[*place] = *number;
    }
    table
}

#[test]
fn texts() {
    let long = "x".repeat(65_537);
    assert_eq!(text_refusal(long.as_bytes(), 61), Some(refusal(1, 0)));
    assert_eq!(text_refusal(&long.as_bytes()[..65_536], 61), Some(refusal(2, 1)));
    assert_eq!(text_refusal(SHEET.replace("pin\tB\n", "Pin\tB\n").as_bytes(), 61), Some(refusal(2, 3)));
    assert_eq!(text_refusal((SHEET.to_string() + "x").as_bytes(), 61), Some(refusal(2, 19)));
    assert_eq!(text_refusal(SHEET.trim_end().as_bytes(), 61), Some(refusal(2, 18)));
    assert_eq!(text_refusal(SHEET.replace("arc\t0\t1\t40\t60", "arc\t0\t1\t40").as_bytes(), 61), Some(refusal(3, 9)));
    assert_eq!(text_refusal(SHEET.replace("test\t3\t6", "test\t03\t6").as_bytes(), 61), Some(refusal(4, 16)));
    assert_eq!(text_refusal(SHEET.replace("setup", "SETUP").as_bytes(), 61), Some(refusal(4, 18)));
    assert_eq!(text_refusal(SHEET.as_bytes(), 61), None);
}

#[test]
fn tables() {
    assert_eq!(table_refusal(&TABLE), None);
    assert_eq!(table_refusal(&with(&[(3, 0)])), Some(refusal(6, 0)));
    assert_eq!(table_refusal(&with(&[(4 + 3 * 2, 5)])), Some(refusal(7, 2)));
    assert_eq!(table_refusal(&with(&[(4 + 3 * 4, 0)])), Some(refusal(8, 0)));
    assert_eq!(table_refusal(&with(&[(25 + 4 * 6, 7)])), Some(refusal(9, 6)));
    assert_eq!(table_refusal(&with(&[(25 + 4 * 3, 1)])), Some(refusal(10, 3)));
    assert_eq!(table_refusal(&with(&[(25 + 4 * 5 + 2, 51)])), Some(refusal(11, 5)));
    assert_eq!(table_refusal(&with(&[(25 + 4 * 2 + 1, 2)])), Some(refusal(12, 2)));
    assert_eq!(table_refusal(&with(&[(53 + 4, 5)])), Some(refusal(13, 1)));
}

#[test]
fn words() {
    assert_eq!(refusal(12, 2).to_string(), "refused 12 at 2: wrong number of arcs into the pin");
    for number in 1..=16 {
        assert_ne!(refusal(number, 0).meaning(), refusal(17, 0).meaning());
    }
}
