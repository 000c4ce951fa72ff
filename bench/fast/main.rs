//! The benchmark's own reporter: the quickest method known to its writer, at full optimisation, in safe Rust, with no proof. It prints what `toppaths` must
//! print, refusals included, and is there to be compared with: no part of the product.
//!
//! `text` reads a text into document 01's table, `ask` answers an asking over a table, `print` makes bytes of the rows.
#![forbid(unsafe_code)]

mod ask;
mod check;
mod print;
mod text;

use std::io::{self, BufRead, Read, Write};

/// The most pins, arcs, tests and rows of a design, and the most bytes of a text.
pub const PINS: usize = 256;
pub const ARCS: usize = 1024;
pub const TESTS: usize = 64;
pub const ROWS: usize = 16;
pub const TEXT: usize = 65_536;

/// The longest period, delay, arrival, setup and hold, in picoseconds.
pub const TIME: u32 = 1_000_000;

/// The most that a total tells.
pub const TOTAL: u64 = 1_000_000_000;

/// A refusal: its number and its place.
#[derive(Clone, Copy)]
pub struct Refusal {
    pub number: u32,
    pub place: usize,
}

/// A refusal as a result.
pub fn refused<T>(number: u32, place: usize) -> Result<T, Refusal> {
    Err(Refusal { number, place })
}

/// What the program prints of a text.
fn answer(text: Vec<u8>) -> Vec<u8> {
    let mut room = vec![0i64; ROWS * (PINS + 5)];
    let given = text::read(text).and_then(|read| {
        let given = ask::ask(&read.table, read.mode, read.k, &mut room)?;
        Ok((read.table[0] as usize + 5, given))
    });
    match given {
        Ok((width, given)) => print::rows(&room, width, given.rows, given.total),
        Err(refusal) => print::refusal(refusal),
    }
}

/// The next text behind a line with its number of bytes; none at the end of the input.
fn next_text(input: &mut impl BufRead) -> io::Result<Option<Vec<u8>>> {
    let mut line = String::new();
    input.read_line(&mut line)?;
    let Ok(length) = line.trim_end().parse() else { return Ok(None) };
    let mut text = vec![0; length];
    input.read_exact(&mut text)?;
    Ok(Some(text))
}

/// One text, all of standard input; with `--many` any number of them, before each a line with how many bytes it has.
fn main() -> io::Result<()> {
    let (mut input, mut output) = (io::stdin().lock(), io::stdout().lock());
    if std::env::args().nth(1).as_deref() == Some("--many") {
        while let Some(text) = next_text(&mut input)? {
            output.write_all(&answer(text))?;
        }
        return Ok(());
    }
    let mut text = Vec::with_capacity(TEXT + 64);
    input.take(TEXT as u64 + 1).read_to_end(&mut text)?;
    output.write_all(&answer(text))
}
