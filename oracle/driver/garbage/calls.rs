//! The exported calls: what each is given, what it may write, and the numbers it can answer.

use super::arguments::Thing::*;
use super::arguments::{Arguments, Thing};
use crate::ffi;

/// In the place of 3, where it is for the buffer.
pub const BUFFER: u8 = 12;

/// The numbers that a call may answer, where they are known without judging.
pub type Allowed = Option<&'static [u8]>;

pub struct Call {
    pub name: &'static str,
    pub things: &'static [Thing],
    /// The slices that it may write.
    pub writes: &'static [usize],
    /// The numbers that it can refuse with.
    pub refusals: &'static [u8],
    pub ask: fn(&mut Arguments) -> u8,
}

#[rustfmt::skip]
pub const CALLS: [Call; 23] = [
    Call {
        name: "sizes_of",
        things: &[Config, Cells(ffi::SIZES)],
        writes: &[0],
        refusals: &[1],
        ask: |a| unsafe { ffi::zamgulekt_sizes_of(a.n(0), a.at(0)) },
    },
    Call {
        name: "empty",
        things: &[Config, FilterRoom],
        writes: &[0, 1, 2],
        refusals: &[1, 3],
        ask: |a| unsafe { ffi::zamgulekt_empty(a.n(0), a.at(0), a.at(1), a.len(1), a.at(2), a.len(2)) },
    },
    Call {
        name: "toggle",
        things: &[Filter, List],
        writes: &[0, 1, 2],
        refusals: &[1, 3, 8, 2],
        ask: |a| unsafe {
            ffi::zamgulekt_toggle(a.at(0), a.at(1), a.len(1), a.at(2), a.len(2), a.at(3), a.len(3))
        },
    },
    Call {
        name: "symmetric_difference",
        things: &[Filter, Filter, FilterRoom],
        writes: &[6, 7, 8],
        refusals: &[1, 3, 8, 9],
        ask: |a| unsafe {
            ffi::zamgulekt_symmetric_difference(
                a.at(0), a.at(1), a.len(1), a.at(2), a.len(2),
                a.at(3), a.at(4), a.len(4), a.at(5), a.len(5),
                a.at(6), a.at(7), a.len(7), a.at(8), a.len(8),
            )
        },
    },
    Call {
        name: "builder_new",
        things: &[Config, Split, BuilderRoom],
        writes: &[0, 1, 2],
        refusals: &[1, 3, 2],
        ask: |a| unsafe {
            ffi::zamgulekt_builder_new(a.n(0), a.size(1), a.at(0), a.at(1), a.len(1), a.at(2), a.len(2))
        },
    },
    Call {
        name: "builder_push",
        things: &[Builder, List],
        writes: &[0, 1, 2],
        refusals: &[1, 3, 8, 2],
        ask: |a| unsafe {
            ffi::zamgulekt_builder_push(a.at(0), a.at(1), a.len(1), a.at(2), a.len(2), a.at(3), a.len(3))
        },
    },
    Call {
        name: "builder_raise",
        things: &[Builder, Split],
        writes: &[0],
        refusals: &[1, 3, 8, 2],
        ask: |a| unsafe {
            ffi::zamgulekt_builder_raise(a.at(0), a.at(1), a.len(1), a.at(2), a.len(2), a.size(0))
        },
    },
    Call {
        name: "builder_finish",
        things: &[Builder, FilterRoom],
        writes: &[3, 4, 5],
        refusals: &[1, 3, 8],
        ask: |a| unsafe {
            ffi::zamgulekt_builder_finish(
                a.at(0), a.at(1), a.len(1), a.at(2), a.len(2),
                a.at(3), a.at(4), a.len(4), a.at(5), a.len(5),
            )
        },
    },
    Call {
        name: "exact_count",
        things: &[Filter, Cells(1)],
        writes: &[3],
        refusals: &[1, 3, 8],
        ask: |a| unsafe {
            ffi::zamgulekt_exact_count(a.at(0), a.at(1), a.len(1), a.at(2), a.len(2), a.at(3))
        },
    },
    Call {
        name: "limited_count",
        things: &[Filter, Cells(ffi::LIMITED)],
        writes: &[3],
        refusals: &[1, 3, 8],
        ask: |a| unsafe {
            ffi::zamgulekt_limited_count(a.at(0), a.at(1), a.len(1), a.at(2), a.len(2), a.at(3))
        },
    },
    Call {
        name: "exact_difference",
        things: &[Filter, Filter, Cells(1)],
        writes: &[6],
        refusals: &[1, 3, 8, 9],
        ask: |a| unsafe {
            ffi::zamgulekt_exact_difference(
                a.at(0), a.at(1), a.len(1), a.at(2), a.len(2),
                a.at(3), a.at(4), a.len(4), a.at(5), a.len(5), a.at(6),
            )
        },
    },
    Call {
        name: "limited_difference",
        things: &[Filter, Filter, Cells(ffi::LIMITED)],
        writes: &[6],
        refusals: &[1, 3, 8, 9],
        ask: |a| unsafe {
            ffi::zamgulekt_limited_difference(
                a.at(0), a.at(1), a.len(1), a.at(2), a.len(2),
                a.at(3), a.at(4), a.len(4), a.at(5), a.len(5), a.at(6),
            )
        },
    },
    Call {
        name: "cmp_masked",
        things: &[Filter, Filter, Mask, Cells(1)],
        writes: &[6],
        refusals: &[1, 3, 8, 9, 6, 7],
        ask: |a| unsafe {
            ffi::zamgulekt_cmp_masked(
                a.at(0), a.at(1), a.len(1), a.at(2), a.len(2),
                a.at(3), a.at(4), a.len(4), a.at(5), a.len(5),
                a.n(0), a.size(1), a.at(6),
            )
        },
    },
    Call {
        name: "masked_sort_key",
        things: &[Filter, Mask, Cells(1)],
        writes: &[3],
        // 10 is in the table, but no bucket below W is too large for its slot
        refusals: &[1, 3, 8, 6, 7],
        ask: |a| unsafe {
            ffi::zamgulekt_masked_sort_key(
                a.at(0), a.at(1), a.len(1), a.at(2), a.len(2), a.n(0), a.size(1), a.at(3),
            )
        },
    },
    Call {
        name: "write",
        things: &[Filter, Buffer, Cells(1)],
        writes: &[3, 4],
        refusals: &[1, 3, 8, BUFFER],
        ask: |a| unsafe {
            ffi::zamgulekt_write(a.at(0), a.at(1), a.len(1), a.at(2), a.len(2), a.at(3), a.len(3), a.at(4))
        },
    },
    Call {
        name: "read",
        things: &[Config, Row, FilterRoom],
        writes: &[1, 2, 3],
        refusals: &[1, 3, 4, 2, 5],
        ask: |a| unsafe {
            ffi::zamgulekt_read(a.n(0), a.at(0), a.len(0), a.at(1), a.at(2), a.len(2), a.at(3), a.len(3))
        },
    },
    Call {
        name: "open",
        things: &[Config, Row, Cells(1)],
        writes: &[1],
        refusals: &[1, 4, 2, 5],
        ask: |a| unsafe { ffi::zamgulekt_open(a.n(0), a.at(0), a.len(0), a.at(1)) },
    },
    Call {
        name: "cmp_rows",
        things: &[Config, Mask, Row, Row, Cells(1)],
        writes: &[2],
        refusals: &[1, 6, 7, 4, 2, 5],
        ask: |a| unsafe {
            ffi::zamgulekt_cmp_rows(a.n(0), a.n(1), a.size(2), a.at(0), a.len(0), a.at(1), a.len(1), a.at(2))
        },
    },
    Call {
        name: "greater_row",
        things: &[Config, Mask, Row, Row, Cells(1)],
        writes: &[2],
        refusals: &[1, 6, 7, 4, 2, 5],
        ask: |a| unsafe {
            ffi::zamgulekt_greater_row(a.n(0), a.n(1), a.size(2), a.at(0), a.len(0), a.at(1), a.len(1), a.at(2))
        },
    },
    Call {
        name: "row_reader_new",
        things: &[Number, Number, Cells(ffi::READER)],
        writes: &[0],
        refusals: &[],
        ask: |a| unsafe { ffi::zamgulekt_row_reader_new(a.n(0), a.size(1), a.at(0)) },
    },
    Call {
        name: "row_reader_step",
        things: &[Reader, Row, Cells(ffi::STEP)],
        writes: &[0, 2],
        refusals: &[1, 4, 2, 5],
        ask: |a| unsafe { ffi::zamgulekt_row_reader_step(a.at(0), a.at(1), a.len(1), a.at(2)) },
    },
    Call {
        name: "step_at",
        things: &[Row, Config, Number, Cells(ffi::STEPPED)],
        writes: &[1],
        refusals: &[1, 4, 2, 5],
        ask: |a| unsafe { ffi::zamgulekt_step_at(a.at(0), a.len(0), a.n(0), a.size(1), a.at(1)) },
    },
    Call {
        name: "compare_text",
        things: &[Text, Buffer, Cells(1)],
        writes: &[1, 2],
        refusals: &[BUFFER],
        ask: |a| unsafe { ffi::zamgulekt_compare_text(a.at(0), a.len(0), a.at(1), a.len(1), a.at(2)) },
    },
];
