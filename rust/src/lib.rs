//! The worst timing paths of a hard block after common clock path credit: safe calls of the proved library.
//!
//! ```
//! use chthonyra::{Design, Mode};
//!
//! let text = b"design\t4\t3\t1\t200\npin\tR\t0\t10\npin\tK\npin\tI\t5\t20\npin\tD\narc\t0\t1\t40\t60\narc\t1\t3\t10\t15\narc\t2\t3\t30\t50\ntest\t1\t3\t25\t12\n";
//! let (design, asking) = Design::read(text)?;
//! assert_eq!((asking.mode, asking.k), (Mode::Setup, 1));
//! let answer = design.ask(Mode::Setup, 16)?;
//! assert_eq!(answer.total, 2);
//! assert_eq!(answer.rows[0].arcs, [2]);
//! # Ok::<(), chthonyra::Refusal>(())
//! ```
//!
//! [`Design`] keeps its own memory. The functions [`read_into`], [`check`], [`ask_into`] and [`enter`] work in memory that the caller lends. Nothing here panics: a
//! text, a table or an asking that breaks a rule gives a [`Refusal`], and then nothing was written.
#![deny(missing_docs)]
#![deny(unsafe_op_in_unsafe_fn)]

mod ffi;

use std::error::Error;
use std::fmt;

/// The longest text, in bytes.
pub const TEXT: usize = 65_536;
/// A table of so many numbers holds every design.
pub const TABLE: usize = 5_124;
/// A room of so many numbers holds every answer.
pub const ROOM: usize = 4_176;
/// The length of the work area.
pub const WORK: usize = 8_192;
/// The most rows that may be asked for.
pub const MOST_ROWS: usize = 16;

/// Why an operation refused: the number of the document's table and the place, a line counted from 1, or a pin, an arc or a test counted from 0.
#[derive(Clone, Copy, Debug, PartialEq, Eq)]
pub struct Refusal {
    /// 1 to 16.
    pub number: u32,
    /// Where; 0 where the refusal has no place.
    pub place: usize,
}

impl Refusal {
    /// What is wrong, in words.
    pub fn meaning(self) -> &'static str {
        match self.number {
            1 => "the text is over 65,536 bytes",
            2 => "the line due is absent, is not ended, begins with another word, or a line follows the last",
            3 => "wrong number of fields in the line",
            4 => "malformed number, unknown kind letter or mode word, or a size over its limit in the line",
            5 => "the room for the table is short",
            6 => "the table's length is wrong, or its header outside the limits",
            7 => "the pin's kind, range or times",
            8 => "not exactly one clock root",
            9 => "the arc's ends",
            10 => "the kinds of the arc's pins",
            11 => "the arc's range",
            12 => "wrong number of arcs into the pin",
            13 => "the test's pins or times",
            14 => "the mode, or k outside 1 to 16",
            15 => "the room for the rows or the work area is short",
            16 => "the count is above the length of the ranked list",
            _ => "no refusal of the document",
        }
    }
}

impl fmt::Display for Refusal {
    fn fmt(&self, f: &mut fmt::Formatter<'_>) -> fmt::Result {
        write!(f, "refused {} at {}: {}", self.number, self.place, self.meaning())
    }
}

impl Error for Refusal {}

/// Which slack is asked for.
#[derive(Clone, Copy, Debug, PartialEq, Eq)]
pub enum Mode {
    /// Data must come before the next clock edge.
    Setup,
    /// Data must not come too soon after the clock edge.
    Hold,
}

impl Mode {
    /// The mode's number in an asking.
    pub fn number(self) -> u32 {
        match self {
            Mode::Setup => 0,
            Mode::Hold => 1,
        }
    }
}

/// What a text asks for.
#[derive(Clone, Copy, Debug, PartialEq, Eq)]
pub struct Asking {
    /// Setup where the text has no line `ask`.
    pub mode: Mode,
    /// 1 where the text has no line `ask`. Any number of 1 to 7 digits: an asking refuses one outside 1 to 16.
    pub k: usize,
}

/// A path, and its slack after credit.
#[derive(Clone, Debug, PartialEq, Eq)]
pub struct Row {
    /// Slack after credit, in picoseconds.
    pub slack: i64,
    /// The credit that is part of the slack.
    pub credit: i64,
    /// The test's number.
    pub test: usize,
    /// The pin where the path starts.
    pub start: usize,
    /// The arcs from the start to the data pin.
    pub arcs: Vec<usize>,
}

/// The worst paths, worst first, and how many paths there are in all.
#[derive(Clone, Debug, PartialEq, Eq)]
pub struct Answer {
    /// As many rows as were asked for, or all there are.
    pub rows: Vec<Row>,
    /// The number of paths over all tests, or 1,000,000,000 if there are more.
    pub total: u64,
}

/// What reading into lent memory gives.
#[derive(Clone, Copy, Debug, PartialEq, Eq)]
pub struct Read {
    /// The table's length; it stands at the front of the lent room.
    pub length: usize,
    /// What the text asks for.
    pub asking: Asking,
}

/// What asking in lent memory gives.
#[derive(Clone, Copy, Debug, PartialEq, Eq)]
pub struct Given {
    /// Rows at the front of the room, each of P + 5 numbers.
    pub rows: usize,
    /// The number of paths, at most 1,000,000,000.
    pub total: u64,
}

/// A candidate record of a ranked list, ordered by slack, test and serial.
#[repr(C)]
#[derive(Clone, Copy, Debug, PartialEq, Eq, PartialOrd, Ord)]
pub struct Record {
    /// The slack, which decides first.
    pub slack: i64,
    /// The test, which decides between equal slacks.
    pub test: u64,
    /// The serial number, which decides last.
    pub serial: u64,
}

fn answered<T>(number: u32, place: usize, answer: T) -> Result<T, Refusal> {
    if number == 0 {
        Ok(answer)
    } else {
        Err(Refusal { number, place })
    }
}

/// Reads a text into a lent table: refusals 1 to 5. Places of the table beyond the design stay.
pub fn read_into(text: &[u8], table: &mut [u32]) -> Result<Read, Refusal> {
    let told = ffi::read(text, table);
    let mode = if told.mode == 0 { Mode::Setup } else { Mode::Hold };
    answered(told.refusal, told.place, Read { length: told.length, asking: Asking { mode, k: told.k } })
}

/// Line n of a text, counted from 1, without its byte 10: the line that refusals 2, 3 and 4 name. Outside the lines the empty part at the text's end.
pub fn line(text: &[u8], n: usize) -> &[u8] {
    let part = ffi::line(text, n);
    text.get(part.start..).and_then(|rest| rest.get(..part.length)).unwrap_or_default()
}

/// Checks a table: refusals 6 to 13.
pub fn check(table: &[u32]) -> Result<(), Refusal> {
    let told = ffi::check(table);
    answered(told.refusal, told.place, ())
}

/// The k worst paths of a table as rows at the front of a lent room, with a lent work area: refusals 6 to 15. The mode is a number, so that one over 1 can be
/// seen to be refused. After an answer the first [`WORK`] places of the work area are zero; places behind them and behind the last row stay.
pub fn ask_into(table: &[u32], mode: u32, k: usize, room: &mut [i64], work: &mut [u64]) -> Result<Given, Refusal> {
    let told = ffi::ask(table, mode, k, room, work);
    answered(told.refusal, told.place, Given { rows: told.rows, total: told.total })
}

/// Enters a record into a lent list of which the first `count` stand, and gives the new count: before the first that is greater, or at the end; in a full list the
/// last falls out, and records behind the new count stay. Refusal 16.
pub fn enter(list: &mut [Record], count: usize, record: Record) -> Result<usize, Refusal> {
    let told = ffi::enter(list, count, record);
    answered(told.refusal, told.place, told.count)
}

/// The rows that an asking wrote at the front of a room, each of so many pins and 5 numbers.
fn rows_in(room: &[i64], pins: usize, rows: usize) -> Vec<Row> {
    room.chunks_exact(pins.saturating_add(5)).take(rows).filter_map(row_of).collect()
}

fn row_of(numbers: &[i64]) -> Option<Row> {
    match numbers {
        [slack, credit, test, start, count, arcs @ ..] => {
            let arcs = arcs.iter().take(*count as usize).map(|arc| *arc as usize).collect();
            Some(Row { slack: *slack, credit: *credit, test: *test as usize, start: *start as usize, arcs })
        }
        _ => None,
    }
}

/// A design: the numbers of its table. They need not be right; [`Design::check`] and [`Design::ask`] refuse those that are not.
#[derive(Clone, Debug, PartialEq, Eq)]
pub struct Design {
    table: Vec<u32>,
}

impl Design {
    /// Reads a text: the design, and what the text asks for. Refusals 1 to 4.
    pub fn read(text: &[u8]) -> Result<(Design, Asking), Refusal> {
        let mut table = vec![0; TABLE];
        let read = read_into(text, &mut table)?;
        table.truncate(read.length);
        Ok((Design { table }, read.asking))
    }

    /// A design from the numbers of its table.
    pub fn from_table(table: Vec<u32>) -> Design {
        Design { table }
    }

    /// The numbers of its table.
    pub fn table(&self) -> &[u32] {
        &self.table
    }

    /// Checks the design: refusals 6 to 13.
    pub fn check(&self) -> Result<(), Refusal> {
        check(&self.table)
    }

    /// The k worst paths. Refusals 6 to 14.
    pub fn ask(&self, mode: Mode, k: usize) -> Result<Answer, Refusal> {
        let mut room = vec![0; ROOM];
        let mut work = vec![0; WORK];
        let given = ask_into(&self.table, mode.number(), k, &mut room, &mut work)?;
        let pins = self.table.first().map_or(0, |pins| *pins as usize);
        Ok(Answer { rows: rows_in(&room, pins, given.rows), total: given.total })
    }
}
