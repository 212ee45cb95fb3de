//! The calls of the archive on slices: the one module with `unsafe` in it.
//!
//! What `include/zamgulekt.h` asks of a caller, the types grant. A pointer is that of a slice, and
//! goes with the slice's length, or of an array of the record's named length, or of one cell. What
//! is written comes from `&mut` or is a variable of the function, so it overlaps nothing else. All
//! of it is initialised.

use std::cmp::Ordering;

use crate::builder::Builder;
use crate::ffi;
use crate::filter::Filter;
use crate::refusal::Refusal;

fn answered<T>(number: u8, answer: T) -> Result<T, Refusal> {
    match number {
        0 => Ok(answer),
        number => Err(Refusal { number }),
    }
}

fn ordering(order: u64) -> Ordering {
    match order {
        ffi::LESS => Ordering::Less,
        ffi::EQUAL => Ordering::Equal,
        ffi::GREATER => Ordering::Greater,
        _ => unreachable!("no such order"),
    }
}

pub fn sizes_of(config: u64) -> Result<[u64; ffi::SIZES], Refusal> {
    let mut sizes = [0; ffi::SIZES];
    // SAFETY: `sizes` is an array of the named length.
    let number = unsafe { ffi::zamgulekt_sizes_of(config, &mut sizes) };
    answered(number, sizes)
}

pub fn empty(config: u64, f: &mut Filter) -> Result<(), Refusal> {
    // SAFETY: `f` is lent by `&mut`, and its three parts are apart.
    let number = unsafe {
        ffi::zamgulekt_empty(
            config,
            &mut f.record,
            f.top.as_mut_ptr(),
            f.top.len(),
            f.blocks.as_mut_ptr(),
            f.blocks.len(),
        )
    };
    answered(number, ())
}

pub fn toggle(f: &mut Filter, list: &[u32]) -> Result<(), Refusal> {
    // SAFETY: `f` is lent by `&mut`, and its three parts are apart; `list` is only read.
    let number = unsafe {
        ffi::zamgulekt_toggle(
            &mut f.record,
            f.top.as_mut_ptr(),
            f.top.len(),
            f.blocks.as_mut_ptr(),
            f.blocks.len(),
            list.as_ptr(),
            list.len(),
        )
    };
    answered(number, ())
}

pub fn symmetric_difference(a: &Filter, b: &Filter, to: &mut Filter) -> Result<(), Refusal> {
    // SAFETY: `a` and `b`, which may be one, are only read; `to` is lent by `&mut`, and its three
    // parts are apart.
    let number = unsafe {
        ffi::zamgulekt_symmetric_difference(
            &a.record,
            a.top.as_ptr(),
            a.top.len(),
            a.blocks.as_ptr(),
            a.blocks.len(),
            &b.record,
            b.top.as_ptr(),
            b.top.len(),
            b.blocks.as_ptr(),
            b.blocks.len(),
            &mut to.record,
            to.top.as_mut_ptr(),
            to.top.len(),
            to.blocks.as_mut_ptr(),
            to.blocks.len(),
        )
    };
    answered(number, ())
}

pub fn builder_new(config: u64, split: usize, b: &mut Builder) -> Result<(), Refusal> {
    // SAFETY: `b` is lent by `&mut`, and its three parts are apart.
    let number = unsafe {
        ffi::zamgulekt_builder_new(
            config,
            split,
            &mut b.record,
            b.pending.as_mut_ptr(),
            b.pending.len(),
            b.bits.as_mut_ptr(),
            b.bits.len(),
        )
    };
    answered(number, ())
}

pub fn builder_push(b: &mut Builder, list: &[u32]) -> Result<(), Refusal> {
    // SAFETY: `b` is lent by `&mut`, and its three parts are apart; `list` is only read.
    let number = unsafe {
        ffi::zamgulekt_builder_push(
            &mut b.record,
            b.pending.as_mut_ptr(),
            b.pending.len(),
            b.bits.as_mut_ptr(),
            b.bits.len(),
            list.as_ptr(),
            list.len(),
        )
    };
    answered(number, ())
}

pub fn builder_raise(b: &mut Builder, to: usize) -> Result<(), Refusal> {
    // SAFETY: `b` is lent by `&mut`, and its three parts are apart.
    let number = unsafe {
        ffi::zamgulekt_builder_raise(
            &mut b.record,
            b.pending.as_ptr(),
            b.pending.len(),
            b.bits.as_ptr(),
            b.bits.len(),
            to,
        )
    };
    answered(number, ())
}

pub fn builder_finish(b: &Builder, to: &mut Filter) -> Result<(), Refusal> {
    // SAFETY: `b` is only read; `to` is lent by `&mut`, and its three parts are apart.
    let number = unsafe {
        ffi::zamgulekt_builder_finish(
            &b.record,
            b.pending.as_ptr(),
            b.pending.len(),
            b.bits.as_ptr(),
            b.bits.len(),
            &mut to.record,
            to.top.as_mut_ptr(),
            to.top.len(),
            to.blocks.as_mut_ptr(),
            to.blocks.len(),
        )
    };
    answered(number, ())
}

pub fn exact_count(f: &Filter) -> Result<u64, Refusal> {
    let mut count = 0;
    // SAFETY: `f` is only read; `count` is one cell.
    let number = unsafe {
        ffi::zamgulekt_exact_count(
            &f.record,
            f.top.as_ptr(),
            f.top.len(),
            f.blocks.as_ptr(),
            f.blocks.len(),
            &mut count,
        )
    };
    answered(number, count)
}

pub fn limited_count(f: &Filter) -> Result<[u64; ffi::LIMITED], Refusal> {
    let mut limited = [0; ffi::LIMITED];
    // SAFETY: `f` is only read; `limited` is an array of the named length.
    let number = unsafe {
        ffi::zamgulekt_limited_count(
            &f.record,
            f.top.as_ptr(),
            f.top.len(),
            f.blocks.as_ptr(),
            f.blocks.len(),
            &mut limited,
        )
    };
    answered(number, limited)
}

pub fn exact_difference(a: &Filter, b: &Filter) -> Result<u64, Refusal> {
    let mut count = 0;
    // SAFETY: `a` and `b`, which may be one, are only read; `count` is one cell.
    let number = unsafe {
        ffi::zamgulekt_exact_difference(
            &a.record,
            a.top.as_ptr(),
            a.top.len(),
            a.blocks.as_ptr(),
            a.blocks.len(),
            &b.record,
            b.top.as_ptr(),
            b.top.len(),
            b.blocks.as_ptr(),
            b.blocks.len(),
            &mut count,
        )
    };
    answered(number, count)
}

pub fn limited_difference(a: &Filter, b: &Filter) -> Result<[u64; ffi::LIMITED], Refusal> {
    let mut limited = [0; ffi::LIMITED];
    // SAFETY: `a` and `b`, which may be one, are only read; `limited` is an array of the named
    // length.
    let number = unsafe {
        ffi::zamgulekt_limited_difference(
            &a.record,
            a.top.as_ptr(),
            a.top.len(),
            a.blocks.as_ptr(),
            a.blocks.len(),
            &b.record,
            b.top.as_ptr(),
            b.top.len(),
            b.blocks.as_ptr(),
            b.blocks.len(),
            &mut limited,
        )
    };
    answered(number, limited)
}

pub fn cmp_masked(a: &Filter, b: &Filter, mask: u64, size: usize) -> Result<Ordering, Refusal> {
    let mut order = 0;
    // SAFETY: `a` and `b`, which may be one, are only read; `order` is one cell.
    let number = unsafe {
        ffi::zamgulekt_cmp_masked(
            &a.record,
            a.top.as_ptr(),
            a.top.len(),
            a.blocks.as_ptr(),
            a.blocks.len(),
            &b.record,
            b.top.as_ptr(),
            b.top.len(),
            b.blocks.as_ptr(),
            b.blocks.len(),
            mask,
            size,
            &mut order,
        )
    };
    answered(number, ordering(order))
}

pub fn masked_sort_key(f: &Filter, mask: u64, size: usize) -> Result<u64, Refusal> {
    let mut key = 0;
    // SAFETY: `f` is only read; `key` is one cell.
    let number = unsafe {
        ffi::zamgulekt_masked_sort_key(
            &f.record,
            f.top.as_ptr(),
            f.top.len(),
            f.blocks.as_ptr(),
            f.blocks.len(),
            mask,
            size,
            &mut key,
        )
    };
    answered(number, key)
}

pub fn write(f: &Filter, row: &mut [u8]) -> Result<u64, Refusal> {
    let mut length = 0;
    // SAFETY: `f` is only read; `row` is lent by `&mut`; `length` is one cell.
    let number = unsafe {
        ffi::zamgulekt_write(
            &f.record,
            f.top.as_ptr(),
            f.top.len(),
            f.blocks.as_ptr(),
            f.blocks.len(),
            row.as_mut_ptr(),
            row.len(),
            &mut length,
        )
    };
    answered(number, length)
}

pub fn read(config: u64, row: &[u8], to: &mut Filter) -> Result<(), Refusal> {
    // SAFETY: `row` is only read; `to` is lent by `&mut`, and its three parts are apart.
    let number = unsafe {
        ffi::zamgulekt_read(
            config,
            row.as_ptr(),
            row.len(),
            &mut to.record,
            to.top.as_mut_ptr(),
            to.top.len(),
            to.blocks.as_mut_ptr(),
            to.blocks.len(),
        )
    };
    answered(number, ())
}

pub fn open(config: u64, row: &[u8]) -> Result<u64, Refusal> {
    let mut count = 0;
    // SAFETY: `row` is only read; `count` is one cell.
    let number = unsafe { ffi::zamgulekt_open(config, row.as_ptr(), row.len(), &mut count) };
    answered(number, count)
}

pub fn cmp_rows(
    config: u64,
    mask: u64,
    size: usize,
    first: &[u8],
    second: &[u8],
) -> Result<Ordering, Refusal> {
    let mut order = 0;
    // SAFETY: `first` and `second`, which may overlap, are only read; `order` is one cell.
    let number = unsafe {
        ffi::zamgulekt_cmp_rows(
            config,
            mask,
            size,
            first.as_ptr(),
            first.len(),
            second.as_ptr(),
            second.len(),
            &mut order,
        )
    };
    answered(number, ordering(order))
}

/// 0 where it is the first row, 1 where it is the second.
pub fn greater_row(
    config: u64,
    mask: u64,
    size: usize,
    first: &[u8],
    second: &[u8],
) -> Result<u64, Refusal> {
    let mut which = 0;
    // SAFETY: `first` and `second`, which may overlap, are only read; `which` is one cell.
    let number = unsafe {
        ffi::zamgulekt_greater_row(
            config,
            mask,
            size,
            first.as_ptr(),
            first.len(),
            second.as_ptr(),
            second.len(),
            &mut which,
        )
    };
    answered(number, which)
}

/// Refuses nothing.
pub fn row_reader_new(config: u64, place: usize) -> [u64; ffi::READER] {
    let mut reader = [0; ffi::READER];
    // SAFETY: `reader` is an array of the named length.
    unsafe { ffi::zamgulekt_row_reader_new(config, place, &mut reader) };
    reader
}

pub fn row_reader_step(
    reader: &mut [u64; ffi::READER],
    row: &[u8],
) -> Result<[u64; ffi::STEP], Refusal> {
    let mut step = [0; ffi::STEP];
    // SAFETY: `reader` is lent by `&mut`; `row` is only read; `step` is an array of the named
    // length.
    let number =
        unsafe { ffi::zamgulekt_row_reader_step(reader, row.as_ptr(), row.len(), &mut step) };
    answered(number, step)
}

pub fn step_at(row: &[u8], config: u64, place: usize) -> Result<[u64; ffi::STEPPED], Refusal> {
    let mut stepped = [0; ffi::STEPPED];
    // SAFETY: `row` is only read; `stepped` is an array of the named length.
    let number =
        unsafe { ffi::zamgulekt_step_at(row.as_ptr(), row.len(), config, place, &mut stepped) };
    answered(number, stepped)
}

pub fn compare_text(input: &[u8], text: &mut [u8]) -> Result<u64, Refusal> {
    let mut length = 0;
    // SAFETY: `input` is only read; `text` is lent by `&mut`; `length` is one cell.
    let number = unsafe {
        ffi::zamgulekt_compare_text(
            input.as_ptr(),
            input.len(),
            text.as_mut_ptr(),
            text.len(),
            &mut length,
        )
    };
    answered(number, length)
}
