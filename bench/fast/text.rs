//! A text to a table. The quick pass takes sound texts only. What it does not take, the exact pass goes through line by line, for the refusal.

use crate::{ARCS, PINS, Refusal, TESTS, TEXT, refused};

/// What a text says: the table, the mode (0 setup, 1 hold) and k.
pub struct Read {
    pub table: Vec<u32>,
    pub mode: u32,
    pub k: usize,
}

/// Reads a text; refusals 1 to 4.
pub fn read(mut text: Vec<u8>) -> Result<Read, Refusal> {
    let length = text.len();
    if length > TEXT {
        return refused(1, 0);
    }
    text.extend_from_slice(&[0; 8]);
    match (Quick { text: &text, at: 0 }).whole(length) {
        Some(read) => Ok(read),
        None => exact(&text[..length]),
    }
}

// ---- the quick pass

/// A text with eight bytes of zero behind it, and a place in it. Each step is None where the text is not sound.
struct Quick<'a> {
    text: &'a [u8],
    at: usize,
}

impl Quick<'_> {
    /// The eight bytes at the place, the first lowest.
    #[inline(always)]
    fn eight(&self) -> Option<u64> {
        let bytes = self.text.get(self.at..self.at + 8)?;
        Some(u64::from_le_bytes(bytes.try_into().ok()?))
    }

    /// A word of at most eight bytes.
    #[inline(always)]
    fn word(&mut self, word: &[u8]) -> Option<()> {
        let end = self.at + word.len();
        let found = self.text.get(self.at..end)? == word;
        self.at = end;
        found.then_some(())
    }

    /// A number and the byte behind it: all of its digits at once.
    #[inline(always)]
    fn number(&mut self, behind: u8) -> Option<u32> {
        let digits = self.eight()? ^ 0x3030_3030_3030_3030;
        let others = (digits.wrapping_add(0x7676_7676_7676_7676) | digits) & 0x8080_8080_8080_8080;
        let bits = others.trailing_zeros() & !7;
        if bits == 0 || bits >= 64 || (bits > 8 && digits & 0xff == 0) {
            return None;
        }
        if (digits >> bits) as u8 ^ 0x30 != behind {
            return None;
        }
        self.at += bits as usize / 8 + 1;
        let ones = digits << (64 - bits);
        let tens = ones.wrapping_mul(2561) >> 8 & 0x00ff_00ff_00ff_00ff;
        let hundreds = tens.wrapping_mul(6_553_601) >> 16 & 0x0000_ffff_0000_ffff;
        Some((hundreds.wrapping_mul(42_949_672_960_001) >> 32) as u32)
    }

    /// Four numbers with tabs between, and the end of the line.
    #[inline(always)]
    fn four(&mut self) -> Option<[u32; 4]> {
        Some([self.number(b'\t')?, self.number(b'\t')?, self.number(b'\t')?, self.number(b'\n')?])
    }

    /// What follows `pin` and a tab: kind, early and late.
    #[inline(always)]
    fn pin(&mut self) -> Option<[u32; 3]> {
        self.word(b"pin\t")?;
        let letter = *self.text.get(self.at)?;
        self.at += 1;
        let kind = kind_of(letter)?;
        if kind == 0 || kind == 3 {
            self.word(b"\t")?;
            return Some([kind, self.number(b'\t')?, self.number(b'\n')?]);
        }
        self.word(b"\n")?;
        Some([kind, 0, 0])
    }

    /// The line `ask`, or setup and 1 at the text's end.
    fn ask(&mut self, length: usize) -> Option<(u32, usize)> {
        if self.at == length {
            return Some((0, 1));
        }
        self.word(b"ask\t")?;
        let hold = *self.text.get(self.at)? == b'h';
        self.word(if hold { b"hold\t" } else { b"setup\t" })?;
        let k = self.number(b'\n')?;
        (self.at == length).then_some((hold as u32, k as usize))
    }

    /// The whole of a text of so many bytes.
    fn whole(mut self, length: usize) -> Option<Read> {
        self.word(b"design\t")?;
        let sizes = self.four()?;
        let [pins, arcs, tests] = sizes_of(sizes)?;
        let mut table = Vec::with_capacity(4 + 3 * pins + 4 * (arcs + tests));
        table.extend_from_slice(&sizes);
        for _ in 0..pins {
            table.extend_from_slice(&self.pin()?);
        }
        for _ in 0..arcs {
            self.word(b"arc\t")?;
            table.extend_from_slice(&self.four()?);
        }
        for _ in 0..tests {
            self.word(b"test\t")?;
            table.extend_from_slice(&self.four()?);
        }
        let (mode, k) = self.ask(length)?;
        Some(Read { table, mode, k })
    }
}

/// The number of a kind from its letter.
#[inline(always)]
fn kind_of(letter: u8) -> Option<u32> {
    match letter {
        b'R' => Some(0),
        b'B' => Some(1),
        b'K' => Some(2),
        b'I' => Some(3),
        b'D' => Some(4),
        _ => None,
    }
}

/// Pins, arcs and tests of the line `design`, within their limits.
fn sizes_of(sizes: [u32; 4]) -> Option<[usize; 3]> {
    let [pins, arcs, tests, _] = sizes.map(|x| x as usize);
    let fine = 0 < pins && pins <= PINS && arcs <= ARCS && tests <= TESTS;
    fine.then_some([pins, arcs, tests])
}

// ---- the exact pass

/// The lines not yet read, and the number of the one read last. Bytes behind the last byte 10 are no line that was due.
struct Lines<'a> {
    rest: &'a [u8],
    at: usize,
}

impl<'a> Lines<'a> {
    /// The fields of the line due, which begins with the word.
    fn due(&mut self, word: &[u8]) -> Result<Vec<&'a [u8]>, Refusal> {
        self.at += 1;
        let Some(end) = self.rest.iter().position(|&b| b == b'\n') else {
            return refused(2, self.at);
        };
        let fields: Vec<&[u8]> = self.rest[..end].split(|&b| b == b'\t').collect();
        self.rest = &self.rest[end + 1..];
        if fields[0] == word { Ok(fields) } else { refused(2, self.at) }
    }

    /// The four numbers of a line that begins with the word.
    fn four(&mut self, word: &[u8]) -> Result<[u32; 4], Refusal> {
        let fields = self.due(word)?;
        if fields.len() != 5 {
            return refused(3, self.at);
        }
        let mut numbers = [0; 4];
        for (number, field) in numbers.iter_mut().zip(&fields[1..]) {
            *number = number_of(field, self.at)?;
        }
        Ok(numbers)
    }

    /// Kind, early and late of a pin. The word alone is 3; then the letter comes before the count of fields.
    fn pin(&mut self) -> Result<[u32; 3], Refusal> {
        let fields = self.due(b"pin")?;
        if fields.len() == 1 {
            return refused(3, self.at);
        }
        let kind = match fields[1] {
            [letter] => kind_of(*letter),
            _ => None,
        };
        match kind {
            None => refused(4, self.at),
            Some(kind @ (0 | 3)) if fields.len() == 4 => Ok([kind, number_of(fields[2], self.at)?, number_of(fields[3], self.at)?]),
            Some(kind @ (1 | 2 | 4)) if fields.len() == 2 => Ok([kind, 0, 0]),
            Some(_) => refused(3, self.at),
        }
    }

    /// The line `ask`, or setup and 1 where nothing is left; nothing may follow it.
    fn ask(&mut self) -> Result<(u32, usize), Refusal> {
        if self.rest.is_empty() {
            return Ok((0, 1));
        }
        let fields = self.due(b"ask")?;
        if fields.len() != 3 {
            return refused(3, self.at);
        }
        let mode = match fields[1] {
            b"setup" => 0,
            b"hold" => 1,
            _ => return refused(4, self.at),
        };
        let k = number_of(fields[2], self.at)?;
        if self.rest.is_empty() {
            Ok((mode, k as usize))
        } else {
            refused(2, self.at + 1)
        }
    }
}

/// A number: 1 to 7 digits, no leading zero but 0 itself.
fn number_of(field: &[u8], line: usize) -> Result<u32, Refusal> {
    let digits = !field.is_empty() && field.len() <= 7 && field.iter().all(u8::is_ascii_digit);
    if !digits || (field.len() > 1 && field[0] == b'0') {
        return refused(4, line);
    }
    Ok(field.iter().fold(0, |n, &b| 10 * n + u32::from(b - b'0')))
}

/// The whole text, line by line.
fn exact(text: &[u8]) -> Result<Read, Refusal> {
    let mut lines = Lines { rest: text, at: 0 };
    let sizes = lines.four(b"design")?;
    let Some([pins, arcs, tests]) = sizes_of(sizes) else {
        return refused(4, 1);
    };
    let mut table = sizes.to_vec();
    for _ in 0..pins {
        table.extend(lines.pin()?);
    }
    for _ in 0..arcs {
        table.extend(lines.four(b"arc")?);
    }
    for _ in 0..tests {
        table.extend(lines.four(b"test")?);
    }
    let (mode, k) = lines.ask()?;
    Ok(Read { table, mode, k })
}
