//! The functions of the archive, as `include/zamgulekt.h` declares them.
//!
//! Each answers 0, or the number of a refusal, which leaves every lent cell as it was. A pointer is
//! valid for its length, and no cell that a call writes is lent to it twice.

/// The cells of each record that is lent as an array.
pub const SIZES: usize = 9;
pub const FILTER: usize = 3;
pub const BUILDER: usize = 3;
pub const LIMITED: usize = 2;
pub const READER: usize = 2;
pub const STEP: usize = 2;
pub const STEPPED: usize = 3;

/// An order: the first against the second.
pub const LESS: u64 = 0;
pub const EQUAL: u64 = 1;
pub const GREATER: u64 = 2;

/// Which of two rows: the first, or else the second.
pub const FIRST: u64 = 0;

/// Bytes that are always enough for an answer of `zamgulekt_compare_text`.
pub const TEXT: usize = 322;

#[link(name = "exports", kind = "static")]
extern "C" {
    pub fn zamgulekt_sizes_of(config: u64, sizes: *mut [u64; SIZES]) -> u8;

    pub fn zamgulekt_empty(
        config: u64,
        record: *mut [u64; FILTER],
        top: *mut u32,
        top_len: usize,
        blocks: *mut u64,
        blocks_len: usize,
    ) -> u8;
    pub fn zamgulekt_toggle(
        record: *mut [u64; FILTER],
        top: *mut u32,
        top_len: usize,
        blocks: *mut u64,
        blocks_len: usize,
        list: *const u32,
        list_len: usize,
    ) -> u8;
    pub fn zamgulekt_symmetric_difference(
        a: *const [u64; FILTER],
        top: *const u32,
        top_len: usize,
        blocks: *const u64,
        blocks_len: usize,
        b: *const [u64; FILTER],
        top2: *const u32,
        top2_len: usize,
        blocks2: *const u64,
        blocks2_len: usize,
        to: *mut [u64; FILTER],
        to_top: *mut u32,
        to_top_len: usize,
        to_blocks: *mut u64,
        to_blocks_len: usize,
    ) -> u8;

    pub fn zamgulekt_builder_new(
        config: u64,
        split: usize,
        builder: *mut [u64; BUILDER],
        pending: *mut u32,
        pending_len: usize,
        bits: *mut u64,
        bits_len: usize,
    ) -> u8;
    pub fn zamgulekt_builder_push(
        builder: *mut [u64; BUILDER],
        pending: *mut u32,
        pending_len: usize,
        bits: *mut u64,
        bits_len: usize,
        list: *const u32,
        list_len: usize,
    ) -> u8;
    pub fn zamgulekt_builder_raise(
        builder: *mut [u64; BUILDER],
        pending: *const u32,
        pending_len: usize,
        bits: *const u64,
        bits_len: usize,
        to: usize,
    ) -> u8;
    pub fn zamgulekt_builder_finish(
        builder: *const [u64; BUILDER],
        pending: *const u32,
        pending_len: usize,
        bits: *const u64,
        bits_len: usize,
        record: *mut [u64; FILTER],
        top: *mut u32,
        top_len: usize,
        blocks: *mut u64,
        blocks_len: usize,
    ) -> u8;

    pub fn zamgulekt_exact_count(
        record: *const [u64; FILTER],
        top: *const u32,
        top_len: usize,
        blocks: *const u64,
        blocks_len: usize,
        count: *mut u64,
    ) -> u8;
    pub fn zamgulekt_limited_count(
        record: *const [u64; FILTER],
        top: *const u32,
        top_len: usize,
        blocks: *const u64,
        blocks_len: usize,
        limited: *mut [u64; LIMITED],
    ) -> u8;
    pub fn zamgulekt_exact_difference(
        a: *const [u64; FILTER],
        top: *const u32,
        top_len: usize,
        blocks: *const u64,
        blocks_len: usize,
        b: *const [u64; FILTER],
        top2: *const u32,
        top2_len: usize,
        blocks2: *const u64,
        blocks2_len: usize,
        count: *mut u64,
    ) -> u8;
    pub fn zamgulekt_limited_difference(
        a: *const [u64; FILTER],
        top: *const u32,
        top_len: usize,
        blocks: *const u64,
        blocks_len: usize,
        b: *const [u64; FILTER],
        top2: *const u32,
        top2_len: usize,
        blocks2: *const u64,
        blocks2_len: usize,
        limited: *mut [u64; LIMITED],
    ) -> u8;

    pub fn zamgulekt_cmp_masked(
        a: *const [u64; FILTER],
        top: *const u32,
        top_len: usize,
        blocks: *const u64,
        blocks_len: usize,
        b: *const [u64; FILTER],
        top2: *const u32,
        top2_len: usize,
        blocks2: *const u64,
        blocks2_len: usize,
        mask: u64,
        size: usize,
        order: *mut u64,
    ) -> u8;
    pub fn zamgulekt_masked_sort_key(
        record: *const [u64; FILTER],
        top: *const u32,
        top_len: usize,
        blocks: *const u64,
        blocks_len: usize,
        mask: u64,
        size: usize,
        key: *mut u64,
    ) -> u8;

    pub fn zamgulekt_write(
        record: *const [u64; FILTER],
        top: *const u32,
        top_len: usize,
        blocks: *const u64,
        blocks_len: usize,
        row: *mut u8,
        row_len: usize,
        length: *mut u64,
    ) -> u8;
    pub fn zamgulekt_read(
        config: u64,
        row: *const u8,
        row_len: usize,
        record: *mut [u64; FILTER],
        top: *mut u32,
        top_len: usize,
        blocks: *mut u64,
        blocks_len: usize,
    ) -> u8;
    pub fn zamgulekt_open(config: u64, row: *const u8, row_len: usize, count: *mut u64) -> u8;

    pub fn zamgulekt_cmp_rows(
        config: u64,
        mask: u64,
        size: usize,
        first: *const u8,
        first_len: usize,
        second: *const u8,
        second_len: usize,
        order: *mut u64,
    ) -> u8;
    pub fn zamgulekt_greater_row(
        config: u64,
        mask: u64,
        size: usize,
        first: *const u8,
        first_len: usize,
        second: *const u8,
        second_len: usize,
        which: *mut u64,
    ) -> u8;

    pub fn zamgulekt_row_reader_new(config: u64, place: usize, reader: *mut [u64; READER]) -> u8;
    pub fn zamgulekt_row_reader_step(
        reader: *mut [u64; READER],
        row: *const u8,
        row_len: usize,
        step: *mut [u64; STEP],
    ) -> u8;
    pub fn zamgulekt_step_at(
        row: *const u8,
        row_len: usize,
        config: u64,
        place: usize,
        stepped: *mut [u64; STEPPED],
    ) -> u8;

    pub fn zamgulekt_compare_text(
        input: *const u8,
        input_len: usize,
        text: *mut u8,
        text_len: usize,
        length: *mut u64,
    ) -> u8;
}
