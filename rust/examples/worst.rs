//! Prints the worst paths of a design, like the program `toppaths`: reads the file that is named, or standard input. When the text is refused at a line, that
//! line is shown on standard error.
use std::io::{self, Read, Write};
use std::process::ExitCode;

use chthonyra::{line, Answer, Design, Refusal};

/// The whole text, or one byte more than a text may have.
fn text_of(name: Option<String>) -> io::Result<Vec<u8>> {
    let mut text = Vec::new();
    let most = chthonyra::TEXT as u64 + 1;
    match name {
        Some(name) => std::fs::File::open(name)?.take(most).read_to_end(&mut text)?,
        None => io::stdin().take(most).read_to_end(&mut text)?,
    };
    Ok(text)
}

fn answer_of(text: &[u8]) -> Result<Answer, Refusal> {
    match Design::read(text) {
        Ok((design, asking)) => design.ask(asking.mode, asking.k),
        Err(refusal) => {
            if refusal.place != 0 {
                eprintln!("line {}: {}", refusal.place, line(text, refusal.place).escape_ascii());
            }
            Err(refusal)
        }
    }
}

fn print(answer: &Answer, out: &mut impl Write) -> io::Result<()> {
    for (place, row) in answer.rows.iter().enumerate() {
        write!(out, "path\t{}\t{}\t{}\t{}\t{}", place + 1, row.slack, row.credit, row.test, row.start)?;
        for arc in &row.arcs {
            write!(out, "\t{arc}")?;
        }
        writeln!(out)?;
    }
    writeln!(out, "end\t{}\t{}", answer.rows.len(), answer.total)
}

fn main() -> io::Result<ExitCode> {
    let text = text_of(std::env::args().nth(1))?;
    let mut out = io::stdout().lock();
    match answer_of(&text) {
        Ok(answer) => print(&answer, &mut out).map(|()| ExitCode::SUCCESS),
        Err(refusal) => writeln!(out, "refused\t{}\t{}", refusal.number, refusal.place).map(|()| ExitCode::FAILURE),
    }
}
