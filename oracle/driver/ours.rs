//! Our library, by its C face. Each area that is lent has guard cells behind it: some that are lent
//! with it, and some behind what is lent. None of them may ever change.

use crate::ffi::*;

/// The answer of a call, or the number by which it refused.
pub type Answer<T> = Result<T, u8>;

fn answer<T>(number: u8, value: T) -> Answer<T> {
    match number {
        0 => Ok(value),
        _ => Err(number),
    }
}

/// A line of 01's table of the configurations.
#[derive(Clone, Copy, Debug, PartialEq)]
pub struct Sizes {
    pub config: u32,
    /// B
    pub level_bits: usize,
    /// M
    pub top: usize,
    pub entry_bytes: usize,
    pub budget: usize,
    /// W
    pub buckets: usize,
    pub blocks: usize,
    pub position_bits: usize,
    pub window: usize,
    pub longest: usize,
}

#[rustfmt::skip]
pub fn sizes_of(config: u32) -> Answer<Sizes> {
    let mut cells = [0; SIZES];
    let number = unsafe { zamgulekt_sizes_of(config.into(), &mut cells) };
    let [level_bits, top, entry_bytes, budget, buckets, blocks, position_bits, window, longest] =
        cells.map(|cell| cell as usize);
    let sizes =
        Sizes { config, level_bits, top, entry_bytes, budget, buckets, blocks, position_bits, window, longest };
    answer(number, sizes)
}

impl Sizes {
    /// 2^B
    pub fn level(&self) -> usize {
        1 << self.level_bits
    }
}

pub trait Cell: Copy + PartialEq + Default {
    const GUARD: Self;
}

#[rustfmt::skip]
impl Cell for u32 { const GUARD: Self = 0xa5a5_a5a5; }

#[rustfmt::skip]
impl Cell for u64 { const GUARD: Self = 0xa5a5_a5a5_a5a5_a5a5; }

/// Guard cells behind what is lent.
const GUARDS: usize = 8;

/// An area: its cells, then guards, the first of which may be lent with it. It begins full of the
/// guards' value, since no call may care what it held.
#[derive(Clone, PartialEq)]
struct Area<T> {
    cells: Vec<T>,
    length: usize,
    lent: usize,
}

impl<T: Cell> Area<T> {
    fn new(length: usize, past: usize) -> Self {
        Self { cells: vec![T::GUARD; length + past + GUARDS], length, lent: length + past }
    }

    fn holds(&self, used: &[T]) -> bool {
        used.len() <= self.length
            && self.cells[..used.len()] == *used
            && all(&self.cells[used.len()..self.length], T::default())
            && self.guarded()
    }

    fn guarded(&self) -> bool {
        all(&self.cells[self.length..], T::GUARD)
    }

    fn untouched(&self) -> bool {
        all(&self.cells, T::GUARD)
    }

    fn copy_from(&mut self, other: &Self) {
        self.cells[..self.length].copy_from_slice(&other.cells[..self.length]);
    }
}

fn all<T: Cell>(cells: &[T], value: T) -> bool {
    cells.iter().fold(true, |all, &cell| all & (cell == value))
}

/// A filter, with the areas of the top list and of the blocks; or a builder, with those of the
/// pending buckets and of the bits.
#[derive(Clone, PartialEq)]
pub struct Lent {
    pub record: [u64; FILTER],
    list: Area<u32>,
    blocks: Area<u64>,
}

/// Record and areas in text; of the blocks those that are not 0, with their places.
pub fn shown(record: [u64; FILTER], list: &[u32], blocks: &[u64]) -> String {
    let blocks: Vec<(usize, &u64)> = blocks.iter().enumerate().filter(|(_, &block)| block != 0).collect();
    format!("record {record:?} list {list:?} blocks {blocks:?}")
}

type Read = (*const [u64; FILTER], *const u32, usize, *const u64, usize);
type Written = (*mut [u64; FILTER], *mut u32, usize, *mut u64, usize);

impl Lent {
    /// Areas for a filter; `past` of the guard cells are lent with each.
    pub fn filter(sizes: &Sizes, past: usize) -> Self {
        Self::new(sizes.top, sizes.blocks, past)
    }

    pub fn builder(sizes: &Sizes, past: usize) -> Self {
        Self::new(2 * sizes.top, sizes.blocks, past)
    }

    fn new(cells: usize, blocks: usize, past: usize) -> Self {
        let (list, blocks) = (Area::new(cells, past), Area::new(blocks, past));
        Self { record: [u64::GUARD; FILTER], list, blocks }
    }

    /// Record and areas are these, with zeroes behind, and the guards stand.
    pub fn holds(&self, record: [u64; FILTER], list: &[u32], blocks: &[u64]) -> bool {
        self.record == record && self.list.holds(list) && self.blocks.holds(blocks)
    }

    /// The guards stand.
    pub fn guarded(&self) -> bool {
        self.list.guarded() && self.blocks.guarded()
    }

    pub fn fill_with_guards(&mut self) {
        self.record.fill(u64::GUARD);
        self.list.cells.fill(u32::GUARD);
        self.blocks.cells.fill(u64::GUARD);
    }

    /// Nothing was written since it was filled with guards.
    pub fn untouched(&self) -> bool {
        self.record == [u64::GUARD; FILTER] && self.list.untouched() && self.blocks.untouched()
    }

    pub fn copy_from(&mut self, other: &Self) {
        self.record = other.record;
        self.list.copy_from(&other.list);
        self.blocks.copy_from(&other.blocks);
    }

    /// All cells, with the guards.
    pub fn shown(&self) -> String {
        shown(self.record, &self.list.cells, &self.blocks.cells)
    }

    fn read_from(&self) -> Read {
        let Self { record, list, blocks } = self;
        (record, list.cells.as_ptr(), list.lent, blocks.cells.as_ptr(), blocks.lent)
    }

    fn written_to(&mut self) -> Written {
        let Self { record, list, blocks } = self;
        (record, list.cells.as_mut_ptr(), list.lent, blocks.cells.as_mut_ptr(), blocks.lent)
    }
}

/// The calls on filters.
#[rustfmt::skip]
impl Lent {
    pub fn empty(&mut self, config: u32) -> Answer<()> {
        let (a, t, tn, b, bn) = self.written_to();
        answer(unsafe { zamgulekt_empty(config.into(), a, t, tn, b, bn) }, ())
    }

    pub fn toggle(&mut self, list: &[u32]) -> Answer<()> {
        let (a, t, tn, b, bn) = self.written_to();
        answer(unsafe { zamgulekt_toggle(a, t, tn, b, bn, list.as_ptr(), list.len()) }, ())
    }

    pub fn symmetric_difference(&self, other: &Self, to: &mut Self) -> Answer<()> {
        let (a, t, tn, b, bn) = self.read_from();
        let (a2, t2, tn2, b2, bn2) = other.read_from();
        let (a3, t3, tn3, b3, bn3) = to.written_to();
        let number = unsafe {
            zamgulekt_symmetric_difference(a, t, tn, b, bn, a2, t2, tn2, b2, bn2, a3, t3, tn3, b3, bn3)
        };
        answer(number, ())
    }

    pub fn exact_count(&self) -> Answer<usize> {
        let ((a, t, tn, b, bn), mut count) = (self.read_from(), 0);
        let number = unsafe { zamgulekt_exact_count(a, t, tn, b, bn, &mut count) };
        answer(number, count as usize)
    }

    pub fn limited_count(&self) -> Answer<(usize, usize)> {
        let ((a, t, tn, b, bn), mut limited) = (self.read_from(), [0; LIMITED]);
        let number = unsafe { zamgulekt_limited_count(a, t, tn, b, bn, &mut limited) };
        answer(number, (limited[0] as usize, limited[1] as usize))
    }

    pub fn exact_difference(&self, other: &Self) -> Answer<usize> {
        let ((a, t, tn, b, bn), (a2, t2, tn2, b2, bn2)) = (self.read_from(), other.read_from());
        let mut count = 0;
        let number =
            unsafe { zamgulekt_exact_difference(a, t, tn, b, bn, a2, t2, tn2, b2, bn2, &mut count) };
        answer(number, count as usize)
    }

    pub fn limited_difference(&self, other: &Self) -> Answer<(usize, usize)> {
        let ((a, t, tn, b, bn), (a2, t2, tn2, b2, bn2)) = (self.read_from(), other.read_from());
        let mut limited = [0; LIMITED];
        let number =
            unsafe { zamgulekt_limited_difference(a, t, tn, b, bn, a2, t2, tn2, b2, bn2, &mut limited) };
        answer(number, (limited[0] as usize, limited[1] as usize))
    }

    pub fn cmp_masked(&self, other: &Self, mask: u64, size: usize) -> Answer<u64> {
        let ((a, t, tn, b, bn), (a2, t2, tn2, b2, bn2)) = (self.read_from(), other.read_from());
        let mut order = u64::GUARD;
        let number = unsafe {
            zamgulekt_cmp_masked(a, t, tn, b, bn, a2, t2, tn2, b2, bn2, mask, size, &mut order)
        };
        answer(number, order)
    }

    pub fn masked_sort_key(&self, mask: u64, size: usize) -> Answer<u64> {
        let ((a, t, tn, b, bn), mut key) = (self.read_from(), u64::GUARD);
        let number = unsafe { zamgulekt_masked_sort_key(a, t, tn, b, bn, mask, size, &mut key) };
        answer(number, key)
    }

    /// Writes to the beginning of `lent`.
    pub fn write(&self, lent: &mut [u8]) -> Answer<usize> {
        let ((a, t, tn, b, bn), mut length) = (self.read_from(), 0);
        let number =
            unsafe { zamgulekt_write(a, t, tn, b, bn, lent.as_mut_ptr(), lent.len(), &mut length) };
        answer(number, length as usize)
    }

    pub fn read(&mut self, config: u32, row: &[u8]) -> Answer<()> {
        let (a, t, tn, b, bn) = self.written_to();
        let number = unsafe { zamgulekt_read(config.into(), row.as_ptr(), row.len(), a, t, tn, b, bn) };
        answer(number, ())
    }
}

/// The calls on builders.
#[rustfmt::skip]
impl Lent {
    pub fn builder_new(&mut self, config: u32, split: usize) -> Answer<()> {
        let (a, p, pn, b, bn) = self.written_to();
        answer(unsafe { zamgulekt_builder_new(config.into(), split, a, p, pn, b, bn) }, ())
    }

    pub fn builder_push(&mut self, list: &[u32]) -> Answer<()> {
        let (a, p, pn, b, bn) = self.written_to();
        answer(unsafe { zamgulekt_builder_push(a, p, pn, b, bn, list.as_ptr(), list.len()) }, ())
    }

    pub fn builder_raise(&mut self, to: usize) -> Answer<()> {
        let (a, p, pn, b, bn) = self.written_to();
        answer(unsafe { zamgulekt_builder_raise(a, p, pn, b, bn, to) }, ())
    }

    pub fn builder_finish(&self, to: &mut Self) -> Answer<()> {
        let ((a, p, pn, b, bn), (a2, t, tn, b2, bn2)) = (self.read_from(), to.written_to());
        answer(unsafe { zamgulekt_builder_finish(a, p, pn, b, bn, a2, t, tn, b2, bn2) }, ())
    }
}

pub fn open(config: u32, row: &[u8]) -> Answer<usize> {
    let mut count = 0;
    let number = unsafe { zamgulekt_open(config.into(), row.as_ptr(), row.len(), &mut count) };
    answer(number, count as usize)
}

pub fn cmp_rows(config: u32, mask: u64, size: usize, a: &[u8], b: &[u8]) -> Answer<u64> {
    let ((first, first_len), (second, second_len)) = ((a.as_ptr(), a.len()), (b.as_ptr(), b.len()));
    let (config, mut order) = (config.into(), u64::GUARD);
    let number =
        unsafe { zamgulekt_cmp_rows(config, mask, size, first, first_len, second, second_len, &mut order) };
    answer(number, order)
}

/// 0 where the first is handed back, 1 where the second.
pub fn greater_row(config: u32, mask: u64, size: usize, a: &[u8], b: &[u8]) -> Answer<u64> {
    let ((first, first_len), (second, second_len)) = ((a.as_ptr(), a.len()), (b.as_ptr(), b.len()));
    let (config, mut which) = (config.into(), u64::GUARD);
    let number = unsafe {
        zamgulekt_greater_row(config, mask, size, first, first_len, second, second_len, &mut which)
    };
    answer(number, which)
}

/// Given, bucket, next place.
pub fn step_at(config: u32, row: &[u8], place: usize) -> Answer<[u64; STEPPED]> {
    let mut stepped = [u64::GUARD; STEPPED];
    let (bytes, length) = (row.as_ptr(), row.len());
    let number = unsafe { zamgulekt_step_at(bytes, length, config.into(), place, &mut stepped) };
    answer(number, stepped)
}

/// A reader made at the place, and one step of it: given, bucket, next place.
pub fn reader_step(config: u32, row: &[u8], place: usize) -> Answer<[u64; STEPPED]> {
    let (mut reader, mut step) = ([u64::GUARD; READER], [u64::GUARD; STEP]);
    answer(unsafe { zamgulekt_row_reader_new(config.into(), place, &mut reader) }, ())?;
    let (bytes, length) = (row.as_ptr(), row.len());
    let number = unsafe { zamgulekt_row_reader_step(&mut reader, bytes, length, &mut step) };
    answer(number, [step[0], step[1], reader[1]])
}
