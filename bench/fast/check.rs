//! The check of a table: refusals 6 to 15 in their order.

use crate::{ARCS, PINS, ROWS, Refusal, TESTS, TIME, refused};

/// A table taken apart, and how many arcs enter each pin.
pub struct Design<'a> {
    pub period: u32,
    /// Kind, early, late.
    pub pins: &'a [[u32; 3]],
    /// From, to, early, late.
    pub arcs: &'a [[u32; 4]],
    /// Clock, data, setup, hold.
    pub tests: &'a [[u32; 4]],
    pub into: [u16; PINS],
}

/// Which kind may drive which: bit 5 x from + to.
const DRIVES: u32 = 1 << 1 | 1 << 2 | 1 << 6 | 1 << 7 | 1 << 14 | 1 << 19 | 1 << 24;

/// Whether a range is early at most late, both within the limit.
fn good(early: u32, late: u32) -> bool {
    early <= late && late <= TIME
}

/// The parts of a table; refusal 6.
fn parts(table: &[u32]) -> Result<Design<'_>, Refusal> {
    let Some((&[pins, arcs, tests, period], rest)) = table.split_first_chunk::<4>() else {
        return refused(6, 0);
    };
    let [p, a, t] = [pins, arcs, tests].map(|x| x as usize);
    let sizes = 1 <= p && p <= PINS && a <= ARCS && t <= TESTS && 1 <= period && period <= TIME;
    if !sizes || rest.len() != 3 * p + 4 * a + 4 * t {
        return refused(6, 0);
    }
    let (pins, rest) = rest.split_at(3 * p);
    let (arcs, tests) = rest.split_at(4 * a);
    Ok(Design {
        period,
        pins: pins.as_chunks().0,
        arcs: arcs.as_chunks().0,
        tests: tests.as_chunks().0,
        into: [0; PINS],
    })
}

/// Refusals 7 and 8.
fn pins(pins: &[[u32; 3]]) -> Result<(), Refusal> {
    let mut roots = 0;
    for (place, &[kind, early, late]) in pins.iter().enumerate() {
        let fine = match kind {
            0 | 3 => good(early, late),
            1 | 2 | 4 => early | late == 0,
            _ => false,
        };
        if !fine {
            return refused(7, place);
        }
        roots += (kind == 0) as u32;
    }
    if roots == 1 { Ok(()) } else { refused(8, 0) }
}

/// Refusals 9, 10 and 11, arc by arc; counts the arcs into each pin.
fn arcs(design: &mut Design) -> Result<(), Refusal> {
    for (place, &[from, to, early, late]) in design.arcs.iter().enumerate() {
        let (from, to) = (from as usize, to as usize);
        if from >= to || to >= design.pins.len() {
            return refused(9, place);
        }
        if DRIVES >> (5 * design.pins[from][0] + design.pins[to][0]) & 1 == 0 {
            return refused(10, place);
        }
        if !good(early, late) {
            return refused(11, place);
        }
        design.into[to] += 1;
    }
    Ok(())
}

/// Refusals 12 and 13.
fn arcs_in_and_tests(design: &Design) -> Result<(), Refusal> {
    for (place, (pin, into)) in design.pins.iter().zip(design.into).enumerate() {
        let fine = match pin[0] {
            1 | 2 => into == 1,
            4 => into >= 1,
            _ => true,
        };
        if !fine {
            return refused(12, place);
        }
    }
    let is = |pin: u32, kind| design.pins.get(pin as usize).is_some_and(|p| p[0] == kind);
    for (place, &[clock, data, setup, hold]) in design.tests.iter().enumerate() {
        if !is(clock, 2) || !is(data, 4) || setup > TIME || hold > TIME {
            return refused(13, place);
        }
    }
    Ok(())
}

/// A design that passed, or the refusal.
pub fn check(table: &[u32], mode: u32, k: usize, room: usize) -> Result<Design<'_>, Refusal> {
    let mut design = parts(table)?;
    pins(design.pins)?;
    arcs(&mut design)?;
    arcs_in_and_tests(&design)?;
    if mode > 1 || k == 0 || k > ROWS {
        return refused(14, 0);
    }
    if room < k * (design.pins.len() + 5) {
        return refused(15, 0);
    }
    Ok(design)
}
