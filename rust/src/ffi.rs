//! The declarations of `include/chthonyra.h`, and one safe function over each.
//!
//! What makes the calls safe: a slice gives a pointer that is not null, aligned, and leads to as many numbers as its length says; `&mut` gives memory
//! that overlaps nothing else that is lent. The functions behind have no other demand: they answer at every input.

use crate::Record;

/// `struct chthonyra_reading`.
#[repr(C)]
#[derive(Clone, Copy)]
pub struct Reading {
    pub refusal: u32,
    pub mode: u32,
    pub place: usize,
    pub length: usize,
    pub k: usize,
}

/// `struct chthonyra_part`.
#[repr(C)]
#[derive(Clone, Copy)]
pub struct Part {
    pub start: usize,
    pub length: usize,
}

/// `struct chthonyra_checked`.
#[repr(C)]
#[derive(Clone, Copy)]
pub struct Checked {
    pub refusal: u32,
    pub place: usize,
}

/// `struct chthonyra_answer`.
#[repr(C)]
#[derive(Clone, Copy)]
pub struct Answer {
    pub refusal: u32,
    pub place: usize,
    pub rows: usize,
    pub total: u64,
}

/// `struct chthonyra_entered`.
#[repr(C)]
#[derive(Clone, Copy)]
pub struct Entered {
    pub refusal: u32,
    pub place: usize,
    pub count: usize,
}

extern "C" {
    fn chthonyra_read(text: *const u8, text_length: usize, table: *mut u32, table_length: usize) -> Reading;
    fn chthonyra_line(text: *const u8, text_length: usize, n: usize) -> Part;
    fn chthonyra_check(table: *const u32, table_length: usize) -> Checked;
    fn chthonyra_ask(
        table: *const u32,
        table_length: usize,
        mode: u32,
        k: usize,
        room: *mut i64,
        room_length: usize,
        work: *mut u64,
        work_length: usize,
    ) -> Answer;
    fn chthonyra_enter(list: *mut Record, list_length: usize, count: usize, record: Record) -> Entered;
}

pub fn read(text: &[u8], table: &mut [u32]) -> Reading {
    // SAFETY: see the head of this file.
    unsafe { chthonyra_read(text.as_ptr(), text.len(), table.as_mut_ptr(), table.len()) }
}

pub fn line(text: &[u8], n: usize) -> Part {
    // SAFETY: see the head of this file.
    unsafe { chthonyra_line(text.as_ptr(), text.len(), n) }
}

pub fn check(table: &[u32]) -> Checked {
    // SAFETY: see the head of this file.
    unsafe { chthonyra_check(table.as_ptr(), table.len()) }
}

pub fn ask(table: &[u32], mode: u32, k: usize, room: &mut [i64], work: &mut [u64]) -> Answer {
    // SAFETY: see the head of this file.
    unsafe {
        chthonyra_ask(table.as_ptr(), table.len(), mode, k, room.as_mut_ptr(), room.len(), work.as_mut_ptr(), work.len())
    }
}

pub fn enter(list: &mut [Record], count: usize, record: Record) -> Entered {
    // SAFETY: see the head of this file; `Record` has C's layout.
    unsafe { chthonyra_enter(list.as_mut_ptr(), list.len(), count, record) }
}
