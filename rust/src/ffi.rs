//! The functions of include/dogma.h, and a safe form of each over slices. All that is `unsafe` in this crate is here.
//!
//! What the header demands of a caller holds by the types: a reference is not null and is aligned, a slice has its own length, what is
//! written is borrowed alone, and all of it until the call is over. The engine keeps nothing. That the stack has 1 MiB left no type says:
//! the crate's page does.
#![allow(unsafe_code)]

use crate::lists::{Columns, States};

pub(crate) const OBJECTS: usize = 1024;
pub(crate) const PILOTS: usize = 16;
pub(crate) const LISTS: usize = 5;
/// Sixteen pilots leave at most 17 gaps.
pub(crate) const FREE: usize = 17;

/// Of each pilot and each list the first row and the length.
pub type Stretches = [[[u32; 2]; LISTS]; PILOTS];

/// `struct dogma_answer`.
#[repr(C)]
#[derive(Debug, Copy, Clone)]
pub(crate) struct Answer {
    pub number: u64,
    pub place: u64,
    pub counts: [u64; LISTS],
}

/// `struct dogma_seat`.
#[repr(C)]
#[derive(Debug, Copy, Clone)]
pub(crate) struct Seat {
    pub number: u64,
    pub place: u64,
    pub free: u64,
}

/// `struct dogma_written`.
#[repr(C)]
#[derive(Debug, Copy, Clone)]
pub(crate) struct Written {
    pub number: u64,
    pub place: u64,
    pub length: u64,
}

/// `struct dogma_checked`.
#[repr(C)]
#[derive(Debug, Copy, Clone)]
pub(crate) struct Checked {
    pub number: u64,
    pub place: u64,
    pub allowed: u64,
    pub line: u64,
    pub count: u64,
}

/// `struct dogma_exported`.
#[repr(C)]
#[derive(Debug, Copy, Clone)]
pub(crate) struct Exported {
    pub answer: Answer,
    pub length: u64,
}

/// Declares functions that take the ten columns of the lists between other arguments.
macro_rules! over_columns {
    ($(fn $name:ident(($($before:ident: $before_type:ty),*), columns, ($($after:ident: $after_type:ty),*)) -> $answer:ty;)*) => {
        extern "C" {
            $(fn $name(
                $($before: $before_type,)*
                collected: *mut [u32; 14], collected_count: usize, collected_values: *mut f64, collected_value_count: usize,
                rows: *mut [u32; 6], row_count: usize, bases: *mut f64, base_count: usize, values: *mut f64, value_count: usize,
                entries: *mut [u32; 12], entry_count: usize, entry_values: *mut f64, entry_value_count: usize,
                plain: *mut [u32; 2], plain_count: usize,
                sources: *mut [u32; 11], source_count: usize, source_values: *mut [f64; 2], source_value_count: usize,
                $($after: $after_type),*
            ) -> $answer;)*
        }
    };
}

over_columns! {
    fn dogma_calculate((states: *mut States), columns, (sheet: *const u8, sheet_length: usize)) -> Answer;
    fn dogma_calculate_pilot(
        (states: *mut States), columns,
        (stretches: *const Stretches, book: *const u8, book_length: usize, fit: *const u8, fit_length: usize, pilot: u32)
    ) -> Answer;
    fn dogma_leave(
        (states: *mut States), columns,
        (free: *mut [u32; 2], free_room: usize, stretches: *mut Stretches, count: u32, pilot: u32)
    ) -> Seat;
    fn dogma_export(
        (text: *mut u8, text_length: usize, states: *mut States), columns,
        (labels: *const [u32; 3], label_count: usize, label_bytes: *const u8, label_byte_count: usize, sheet: *const u8, sheet_length: usize)
    ) -> Exported;
}

extern "C" {
    fn dogma_admit(free: *mut [u32; 2], free_room: usize, stretches: *mut Stretches, count: u32, pool: u32, pilot: u32, length: u32) -> Seat;

    fn dogma_check(
        states: *mut States,
        collected: *mut [u32; 14],
        collected_count: usize,
        collected_values: *mut f64,
        collected_value_count: usize,
        rows: *mut [u32; 6],
        row_count: usize,
        bases: *mut f64,
        base_count: usize,
        values: *mut f64,
        value_count: usize,
        work: *mut [u32; 4],
        work_count: usize,
        entries: *mut [u32; 12],
        entry_count: usize,
        entry_values: *mut f64,
        entry_value_count: usize,
        plain: *mut [u32; 2],
        plain_count: usize,
        sheet: *const u8,
        sheet_length: usize,
        listing: *const [u32; 4],
        line_count: usize,
    ) -> Answer;

    fn dogma_check_rules(lines: *const [u32; 3], line_count: usize, sheet: *const u8, sheet_length: usize) -> Checked;

    fn dogma_check_rules_files(
        lines: *const [u32; 3],
        line_count: usize,
        book: *const u8,
        book_length: usize,
        fit: *const u8,
        fit_length: usize,
    ) -> Checked;
}

/// Calls such a function: the other arguments as they are given, between them each column's pointer and length.
macro_rules! with_columns {
    ($function:ident, ($($before:expr),*), $columns:expr, ($($after:expr),*)) => {{
        let columns: &mut Columns = $columns;
        $function(
            $($before,)*
            columns.collected.as_mut_ptr(), columns.collected.len(), columns.collected_values.as_mut_ptr(), columns.collected_values.len(),
            columns.rows.as_mut_ptr(), columns.rows.len(), columns.bases.as_mut_ptr(), columns.bases.len(),
            columns.values.as_mut_ptr(), columns.values.len(), columns.entries.as_mut_ptr(), columns.entries.len(),
            columns.entry_values.as_mut_ptr(), columns.entry_values.len(), columns.plain.as_mut_ptr(), columns.plain.len(),
            columns.sources.as_mut_ptr(), columns.sources.len(), columns.source_values.as_mut_ptr(), columns.source_values.len(),
            $($after),*
        )
    }};
}

pub(crate) fn calculate(states: &mut States, columns: &mut Columns, sheet: &[u8]) -> Answer {
    // SAFETY: references and slices with their own lengths, borrowed apart from each other until the call is over.
    unsafe { with_columns!(dogma_calculate, (states), columns, (sheet.as_ptr(), sheet.len())) }
}

pub(crate) fn calculate_pilot(
    states: &mut [States; PILOTS],
    columns: &mut Columns,
    stretches: &Stretches,
    book: &[u8],
    fit: &[u8],
    pilot: u32,
) -> Answer {
    // SAFETY: as above; the states are sixteen pilots', the stretches sixteen times five.
    unsafe {
        with_columns!(dogma_calculate_pilot, (states.as_mut_ptr()), columns, (stretches, book.as_ptr(), book.len(), fit.as_ptr(), fit.len(), pilot))
    }
}

pub(crate) fn admit(free: &mut [[u32; 2]; FREE], stretches: &mut Stretches, count: u32, pool: u32, pilot: u32, length: u32) -> Seat {
    // SAFETY: two references to what is written, so they lie apart; two numbers of 32 bits are `struct dogma_stretch`.
    unsafe { dogma_admit(free.as_mut_ptr(), FREE, stretches, count, pool, pilot, length) }
}

pub(crate) fn leave(
    states: &mut [States; PILOTS],
    columns: &mut Columns,
    free: &mut [[u32; 2]; FREE],
    stretches: &mut Stretches,
    count: u32,
    pilot: u32,
) -> Seat {
    // SAFETY: as in `calculate_pilot` and `admit`.
    unsafe { with_columns!(dogma_leave, (states.as_mut_ptr()), columns, (free.as_mut_ptr(), FREE, stretches, count, pilot)) }
}

pub(crate) fn check(states: &mut States, columns: &mut Columns, work: &mut [[u32; 4]], sheet: &[u8], listing: &[[u32; 4]]) -> Answer {
    // SAFETY: as in `calculate`; the scratch too is borrowed alone. List 5 is not lent.
    unsafe {
        dogma_check(
            states,
            columns.collected.as_mut_ptr(),
            columns.collected.len(),
            columns.collected_values.as_mut_ptr(),
            columns.collected_values.len(),
            columns.rows.as_mut_ptr(),
            columns.rows.len(),
            columns.bases.as_mut_ptr(),
            columns.bases.len(),
            columns.values.as_mut_ptr(),
            columns.values.len(),
            work.as_mut_ptr(),
            work.len(),
            columns.entries.as_mut_ptr(),
            columns.entries.len(),
            columns.entry_values.as_mut_ptr(),
            columns.entry_values.len(),
            columns.plain.as_mut_ptr(),
            columns.plain.len(),
            sheet.as_ptr(),
            sheet.len(),
            listing.as_ptr(),
            listing.len(),
        )
    }
}

pub(crate) fn check_rules(lines: &[[u32; 3]], sheet: &[u8]) -> Checked {
    // SAFETY: two slices with their own lengths; nothing is written.
    unsafe { dogma_check_rules(lines.as_ptr(), lines.len(), sheet.as_ptr(), sheet.len()) }
}

pub(crate) fn check_rules_files(lines: &[[u32; 3]], book: &[u8], fit: &[u8]) -> Checked {
    // SAFETY: three slices with their own lengths; nothing is written.
    unsafe { dogma_check_rules_files(lines.as_ptr(), lines.len(), book.as_ptr(), book.len(), fit.as_ptr(), fit.len()) }
}

pub(crate) fn export(text: &mut [u8], states: &mut States, columns: &mut Columns, labels: &[[u32; 3]], label_bytes: &[u8], sheet: &[u8]) -> Exported {
    // SAFETY: as in `calculate`; the text too is borrowed alone.
    unsafe {
        with_columns!(
            dogma_export,
            (text.as_mut_ptr(), text.len(), states),
            columns,
            (labels.as_ptr(), labels.len(), label_bytes.as_ptr(), label_bytes.len(), sheet.as_ptr(), sheet.len())
        )
    }
}

/// Declares and calls the writers: the lent bytes, a header of so many numbers, then columns that are read.
macro_rules! writer {
    ($(#[$comment:meta])* $safe:ident, $function:ident, $numbers:literal, $($column:ident: $row:ty),*) => {
        $(#[$comment])*
        pub(crate) fn $safe(bytes: &mut [u8], header: &[u32; $numbers], tables: &crate::tables::Tables) -> Written {
            extern "C" {
                fn $function(bytes: *mut u8, byte_count: usize, header: *const u32, $($column: *const $row, _: usize),*) -> Written;
            }
            // SAFETY: slices with their own lengths; the bytes, which alone are written, are borrowed apart from the tables.
            unsafe { $function(bytes.as_mut_ptr(), bytes.len(), header.as_ptr(), $(tables.$column.as_ptr(), tables.$column.len()),*) }
        }
    };
}

writer!(
    write_sheet, dogma_write_sheet, 5, attributes: [u32; 4], defaults: f64, effects: [u32; 6], modifiers: [u32; 7], type_effects: [u32; 3],
    buff_collections: [u32; 4], objects: [u32; 17], base_attributes: u32, base_values: f64, ids: u32, buffs: u32, buff_values: f64, asks: [u32; 2]
);
writer!(
    write_book, dogma_write_book, 3, attributes: [u32; 4], defaults: f64, effects: [u32; 6], modifiers: [u32; 7], type_effects: [u32; 3],
    buff_collections: [u32; 4]
);
writer!(
    write_fit, dogma_write_fit, 2, objects: [u32; 17], base_attributes: u32, base_values: f64, ids: u32, buffs: u32, buff_values: f64, asks: [u32; 2]
);
