//! Rows and refusals as bytes.

use crate::Refusal;

/// A tab and the digits of each number below 1,024; the last byte says how many bytes these are.
const SMALL: [[u8; 6]; 1024] = small();

const fn small() -> [[u8; 6]; 1024] {
    let mut all = [[0; 6]; 1024];
    let mut n = 0;
    while n < 1024 {
        let mut digits = 1;
        let mut rest = n;
        while rest >= 10 {
            digits += 1;
            rest /= 10;
        }
        rest = n;
        let mut at = digits;
        while at > 0 {
            all[n][at] = b'0' + (rest % 10) as u8;
            rest /= 10;
            at -= 1;
        }
        all[n][0] = b'\t';
        all[n][5] = digits as u8 + 1;
        n += 1;
    }
    all
}

/// A tab and a number.
#[inline(always)]
fn put(out: &mut Vec<u8>, n: i64) {
    match SMALL.get(n as usize) {
        Some(bytes) => out.extend_from_slice(&bytes[..usize::from(bytes[5]).min(5)]),
        None => out.extend_from_slice(format!("\t{n}").as_bytes()),
    }
}

/// `path`, rank, slack, credit, test, start and arcs of each row; then `end`, rows and total.
pub fn rows(room: &[i64], width: usize, rows: usize, total: u64) -> Vec<u8> {
    let mut out = Vec::with_capacity(rows * (5 * width + 64) + 64);
    for (row, rank) in room.chunks_exact(width).take(rows).zip(1..) {
        out.extend_from_slice(b"path");
        put(&mut out, rank);
        let arcs = &row[5..5 + row[4] as usize];
        for &n in row[..4].iter().chain(arcs) {
            put(&mut out, n);
        }
        out.push(b'\n');
    }
    out.extend_from_slice(b"end");
    put(&mut out, rows as i64);
    put(&mut out, total as i64);
    out.push(b'\n');
    out
}

/// `refused`, number and place.
pub fn refusal(refusal: Refusal) -> Vec<u8> {
    format!("refused\t{}\t{}\n", refusal.number, refusal.place).into_bytes()
}
