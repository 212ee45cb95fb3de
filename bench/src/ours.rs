//! The port behind its C face: records and areas held ready, and a method for each call. No call may
//! be refused, but for those that judge: each is refused, or ends, when it has judged.

use crate::ffi::*;

fn taken(refused: u8) {
    assert_eq!(refused, 0, "refused");
}

/// Of a configuration's sizes, those that the areas and rows want.
#[derive(Clone, Copy)]
pub struct Sizes {
    pub config: u64,
    pub top: usize,
    pub buckets: usize,
    pub longest: usize,
}

impl Sizes {
    pub fn of(config: u64) -> Self {
        let mut cells = [0; SIZES];
        taken(unsafe { zamgulekt_sizes_of(config, &mut cells) });
        let [_, top, _, _, buckets, _, _, _, longest] = cells.map(|cell| cell as usize);
        Self {
            config,
            top,
            buckets,
            longest,
        }
    }

    /// A bucket that no set has.
    pub fn outside(self) -> u32 {
        self.buckets as u32
    }
}

type Lent = (*const [u64; 3], *const u32, usize, *const u64, usize);
type LentMut = (*mut [u64; 3], *mut u32, usize, *mut u64, usize);

/// A record and two areas.
#[derive(Clone)]
struct Cells {
    record: [u64; 3],
    list: Vec<u32>,
    blocks: Vec<u64>,
}

impl Cells {
    fn new(list: usize, blocks: usize) -> Self {
        Self {
            record: [0; 3],
            list: vec![0; list],
            blocks: vec![0; blocks],
        }
    }

    fn lent(&self) -> Lent {
        let (list, blocks) = (&self.list, &self.blocks);
        (
            &self.record,
            list.as_ptr(),
            list.len(),
            blocks.as_ptr(),
            blocks.len(),
        )
    }

    fn lent_mut(&mut self) -> LentMut {
        let (list, blocks) = (&mut self.list, &mut self.blocks);
        (
            &mut self.record,
            list.as_mut_ptr(),
            list.len(),
            blocks.as_mut_ptr(),
            blocks.len(),
        )
    }
}

#[derive(Clone)]
pub struct Filter(Cells);

impl Filter {
    pub fn empty(sizes: Sizes) -> Self {
        let mut cells = Cells::new(sizes.top, sizes.buckets / 64);
        let (f, t, tn, b, bn) = cells.lent_mut();
        taken(unsafe { zamgulekt_empty(sizes.config, f, t, tn, b, bn) });
        Self(cells)
    }

    pub fn toggle(&mut self, list: &[u32]) {
        taken(self.toggle_or_refuse(list));
    }

    fn toggle_or_refuse(&mut self, list: &[u32]) -> u8 {
        let (f, t, tn, b, bn) = self.0.lent_mut();
        unsafe { zamgulekt_toggle(f, t, tn, b, bn, list.as_ptr(), list.len()) }
    }

    pub fn symmetric_difference(&self, other: &Self, to: &mut Self) {
        let ((f, t, tn, b, bn), (f2, t2, tn2, b2, bn2)) = (self.0.lent(), other.0.lent());
        let (f3, t3, tn3, b3, bn3) = to.0.lent_mut();
        taken(unsafe {
            zamgulekt_symmetric_difference(
                f, t, tn, b, bn, f2, t2, tn2, b2, bn2, f3, t3, tn3, b3, bn3,
            )
        });
    }

    pub fn exact_count(&self) -> u64 {
        let ((f, t, tn, b, bn), mut count) = (self.0.lent(), 0);
        taken(unsafe { zamgulekt_exact_count(f, t, tn, b, bn, &mut count) });
        count
    }

    pub fn limited_count(&self) -> [u64; LIMITED] {
        let ((f, t, tn, b, bn), mut limited) = (self.0.lent(), [0; LIMITED]);
        taken(unsafe { zamgulekt_limited_count(f, t, tn, b, bn, &mut limited) });
        limited
    }

    pub fn exact_difference(&self, other: &Self) -> u64 {
        let ((f, t, tn, b, bn), (f2, t2, tn2, b2, bn2)) = (self.0.lent(), other.0.lent());
        let mut count = 0;
        taken(unsafe {
            zamgulekt_exact_difference(f, t, tn, b, bn, f2, t2, tn2, b2, bn2, &mut count)
        });
        count
    }

    pub fn limited_difference(&self, other: &Self) -> [u64; LIMITED] {
        let ((f, t, tn, b, bn), (f2, t2, tn2, b2, bn2)) = (self.0.lent(), other.0.lent());
        let mut limited = [0; LIMITED];
        taken(unsafe {
            zamgulekt_limited_difference(f, t, tn, b, bn, f2, t2, tn2, b2, bn2, &mut limited)
        });
        limited
    }

    pub fn cmp_masked(&self, other: &Self, mask: u64, size: usize) -> u64 {
        let mut order = 0;
        taken(self.order_or_refuse(other, mask, size, &mut order));
        order
    }

    fn order_or_refuse(&self, other: &Self, mask: u64, size: usize, order: &mut u64) -> u8 {
        let ((f, t, tn, b, bn), (f2, t2, tn2, b2, bn2)) = (self.0.lent(), other.0.lent());
        unsafe { zamgulekt_cmp_masked(f, t, tn, b, bn, f2, t2, tn2, b2, bn2, mask, size, order) }
    }

    pub fn masked_sort_key(&self, mask: u64, size: usize) -> u64 {
        let mut key = 0;
        taken(self.key_or_refuse(mask, size, &mut key));
        key
    }

    fn key_or_refuse(&self, mask: u64, size: usize, key: &mut u64) -> u8 {
        let (f, t, tn, b, bn) = self.0.lent();
        unsafe { zamgulekt_masked_sort_key(f, t, tn, b, bn, mask, size, key) }
    }

    /// Answers the row's length.
    pub fn write(&self, row: &mut [u8]) -> u64 {
        let ((f, t, tn, b, bn), mut length) = (self.0.lent(), 0);
        let (to, to_len) = (row.as_mut_ptr(), row.len());
        taken(unsafe { zamgulekt_write(f, t, tn, b, bn, to, to_len, &mut length) });
        length
    }

    pub fn row(&self, sizes: Sizes) -> Vec<u8> {
        let mut row = vec![0; sizes.longest];
        let length = self.write(&mut row);
        row.truncate(length as usize);
        row
    }

    pub fn read(&mut self, config: u64, row: &[u8]) {
        let (f, t, tn, b, bn) = self.0.lent_mut();
        taken(unsafe { zamgulekt_read(config, row.as_ptr(), row.len(), f, t, tn, b, bn) });
    }

    /// Judges the filter: a key of mask size 0 is refused 6.
    pub fn judge(&self) {
        assert_eq!(self.key_or_refuse(0, 0, &mut 0), 6);
    }

    /// Judges two filters: an order of mask size 0 is refused 6.
    pub fn judge_two(&self, other: &Self) {
        assert_eq!(self.order_or_refuse(other, 0, 0, &mut 0), 6);
    }

    /// Judges the filter and a list that ends outside: refused 2.
    pub fn judge_list(&mut self, list: &[u32]) {
        assert_eq!(self.toggle_or_refuse(list), 2);
    }
}

#[derive(Clone)]
pub struct Builder(Cells);

impl Builder {
    /// From the split 0.
    pub fn new(sizes: Sizes) -> Self {
        let mut cells = Cells::new(2 * sizes.top, sizes.buckets / 64);
        let (f, p, pn, b, bn) = cells.lent_mut();
        taken(unsafe { zamgulekt_builder_new(sizes.config, 0, f, p, pn, b, bn) });
        Self(cells)
    }

    pub fn push(&mut self, list: &[u32]) {
        taken(self.push_or_refuse(list));
    }

    fn push_or_refuse(&mut self, list: &[u32]) -> u8 {
        let (f, p, pn, b, bn) = self.0.lent_mut();
        unsafe { zamgulekt_builder_push(f, p, pn, b, bn, list.as_ptr(), list.len()) }
    }

    pub fn finish(&self, to: &mut Filter) {
        let ((f, p, pn, b, bn), (f2, t2, tn2, b2, bn2)) = (self.0.lent(), to.0.lent_mut());
        taken(unsafe { zamgulekt_builder_finish(f, p, pn, b, bn, f2, t2, tn2, b2, bn2) });
    }

    /// Judges the builder: raising the split to 0 does nothing else.
    pub fn judge(&mut self) {
        let (f, p, pn, b, bn) = self.0.lent_mut();
        taken(unsafe { zamgulekt_builder_raise(f, p, pn, b, bn, 0) });
    }

    /// Judges the builder and a list that ends outside: refused 2.
    pub fn judge_list(&mut self, list: &[u32]) {
        assert_eq!(self.push_or_refuse(list), 2);
    }
}

/// Answers the set's size.
pub fn open(config: u64, row: &[u8]) -> u64 {
    let mut count = 0;
    taken(unsafe { zamgulekt_open(config, row.as_ptr(), row.len(), &mut count) });
    count
}

pub fn cmp_rows(config: u64, mask: u64, size: usize, first: &[u8], second: &[u8]) -> u64 {
    let mut order = 0;
    let (a, an, b, bn) = (first.as_ptr(), first.len(), second.as_ptr(), second.len());
    taken(unsafe { zamgulekt_cmp_rows(config, mask, size, a, an, b, bn, &mut order) });
    order
}

/// Judges a row: as the first of two, of which the second is a byte long, refused 4.
pub fn judge_row(config: u64, row: &[u8]) {
    let (a, an, b) = (row.as_ptr(), row.len(), [0u8]);
    let refused = unsafe { zamgulekt_cmp_rows(config, 0, 63, a, an, b.as_ptr(), 1, &mut 0) };
    assert_eq!(refused, 4);
}

/// What a reader's step gives, the reader being at a place.
pub fn step(config: u64, place: usize, row: &[u8]) -> Option<u32> {
    let (mut reader, mut given) = ([config, place as u64], [0; STEP]);
    let (row, len) = (row.as_ptr(), row.len());
    taken(unsafe { zamgulekt_row_reader_step(&mut reader, row, len, &mut given) });
    (given[0] == 1).then_some(given[1] as u32)
}
