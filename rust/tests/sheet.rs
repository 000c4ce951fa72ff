//! The bench sheet of the document: its table, its lines, its figures.
mod common;

use chthonyra::{ask_into, check, line, read_into, Answer, Design, Mode, Refusal};
use common::{room, work, SHEET, TABLE};

/// What the program prints of an answer, byte for byte.
fn printed(answer: &Answer) -> String {
    let mut out = String::new();
    for (place, row) in answer.rows.iter().enumerate() {
        out += &format!("path\t{}\t{}\t{}\t{}\t{}", place + 1, row.slack, row.credit, row.test, row.start);
        for arc in &row.arcs {
            out += &format!("\t{arc}");
        }
        out += "\n";
    }
    out + &format!("end\t{}\t{}\n", answer.rows.len(), answer.total)
}

fn sheet() -> Design {
    Design::read(SHEET.as_bytes()).expect("the sheet is accepted").0
}

#[test]
fn text_gives_the_table() {
    let (design, asking) = Design::read(SHEET.as_bytes()).expect("the sheet is accepted");
    assert_eq!(design.table(), TABLE);
    assert_eq!((asking.mode, asking.k), (Mode::Setup, 3));
    assert_eq!(design.check(), Ok(()));
}

#[test]
fn four_lines() {
    let answer = sheet().ask(Mode::Setup, 3).expect("the asking is accepted");
    assert_eq!(printed(&answer), "path\t1\t30\t30\t0\t2\t3\t6\npath\t2\t35\t40\t0\t3\t4\t6\npath\t3\t40\t30\t1\t3\t4\nend\t3\t5\n");
}

#[test]
fn slacks_in_both_modes() {
    let slacks = |mode| sheet().ask(mode, 16).expect("the asking is accepted").rows.iter().map(|row| row.slack).collect::<Vec<_>>();
    assert_eq!(slacks(Mode::Setup), [30, 35, 40, 50, 165]);
    assert_eq!(slacks(Mode::Hold), [-77, 78, 85, 88, 90]);
}

#[test]
fn room_of_exactly_k_rows() {
    let (mut lent, mut area) = (room(36), work(8_192));
    let given = ask_into(&TABLE, 0, 3, &mut lent, &mut area).expect("36 numbers do for 3 rows");
    assert_eq!((given.rows, given.total), (3, 5));
    let first = [30, 30, 0, 2, 2, 3, 6, 0, 0, 0, 0, 0];
    let second = [35, 40, 0, 3, 2, 4, 6, 0, 0, 0, 0, 0];
    let third = [40, 30, 1, 3, 1, 4, 0, 0, 0, 0, 0, 0];
    assert_eq!(lent, [first, second, third].concat());
    assert_eq!(area, vec![0; 8_192]);
}

#[test]
fn places_behind_stay() {
    let (mut lent, mut area) = (room(100), work(8_200));
    let given = ask_into(&TABLE, 0, 4, &mut lent, &mut area).expect("the asking is accepted");
    assert_eq!(given.rows, 4);
    assert_eq!(lent[48..], room(52));
    assert_eq!(area[..8_192], vec![0; 8_192]);
    assert_eq!(area[8_192..], work(8));
    let mut table = [9; 70];
    assert_eq!(read_into(SHEET.as_bytes(), &mut table).map(|read| read.length), Ok(61));
    assert_eq!((&table[..61], &table[61..]), (&TABLE[..], &[9; 9][..]));
}

#[test]
fn lines_are_the_callers_own_bytes() {
    let text = SHEET.as_bytes();
    assert_eq!(line(text, 1), b"design\t7\t7\t2\t200");
    assert_eq!(line(text, 3), b"pin\tB");
    assert_eq!(line(text, 18), b"ask\tsetup\t3");
    assert_eq!(line(text, 3).as_ptr(), text[28..].as_ptr());
    for outside in [0, 19, 1_000, usize::MAX] {
        assert_eq!((line(text, outside), line(text, outside).as_ptr()), (&b""[..], text[text.len()..].as_ptr()));
    }
    assert_eq!(line(b"", 1), b"");
    assert_eq!((line(b"a\n\nb", 2), line(b"a\n\nb", 3)), (&b""[..], &b"b"[..]));
}

#[test]
fn runs_that_the_document_names() {
    assert_eq!(sheet().ask(Mode::Setup, 16).map(|answer| answer.rows.len()), Ok(5));
    for k in [0, 17, usize::MAX] {
        assert_eq!(sheet().ask(Mode::Setup, k), Err(Refusal { number: 14, place: 0 }));
    }
    assert_eq!(Design::read(b""), Err(Refusal { number: 2, place: 1 }));
    let one = Design::from_table(vec![1, 0, 0, 1, 0, 0, 0]);
    assert_eq!(one.ask(Mode::Hold, 1), Ok(Answer { rows: vec![], total: 0 }));
    let mut loops = TABLE;
    (loops[25 + 12], loops[25 + 13]) = (3, 3);
    assert_eq!(check(&loops), Err(Refusal { number: 9, place: 3 }));
}
