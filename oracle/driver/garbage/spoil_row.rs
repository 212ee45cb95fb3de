//! Ways to spoil a row.

use super::arguments::{Arguments, Given};
use super::calls::Allowed;
use super::judge::sizes;
use super::numbers::at_least;
use super::sizes::Sizes;
use crate::random::Random;

/// A sound row, as far as spoiling it goes.
struct Row {
    sizes: Sizes,
    slice: usize,
    len: usize,
    /// The bytes of M entries.
    full: usize,
    entries: usize,
}

impl Row {
    fn of(a: &Arguments, given: Given) -> Option<Self> {
        let sizes = sizes(a)?;
        let len = a.lent.slices[given.slice].len;
        let full = sizes.top * sizes.entry;
        Some(Row { sizes, slice: given.slice, len, full, entries: len.min(full) / sizes.entry })
    }

    /// The same, of a row with blocks.
    fn with_blocks(a: &Arguments, given: Given) -> Option<Self> {
        Self::of(a, given).filter(|row| row.len > row.full && row.len == row.sound_length(a))
    }

    fn sound_length(&self, a: &Arguments) -> usize {
        self.sizes.row_length(self.entries, self.entry(a, self.entries - 1))
    }

    fn entry(&self, a: &Arguments, i: usize) -> u64 {
        let at = i * self.sizes.entry;
        (0..self.sizes.entry).map(|k| a.lent.get(self.slice, at + k) << (8 * k)).sum()
    }

    fn put_entry(&self, a: &mut Arguments, i: usize, entry: u64) {
        let at = i * self.sizes.entry;
        for k in 0..self.sizes.entry {
            a.lent.put(self.slice, at + k, entry >> (8 * k));
        }
    }
}

/// One byte more or less: no row has such a length.
pub fn one_byte(a: &mut Arguments, given: Given, random: &mut Random) -> Allowed {
    let len = a.lent.slices[given.slice].len;
    a.lent.slices[given.slice].len = if len == 0 || random.once_in(2) { len + 1 } else { len - 1 };
    Some(&[4])
}

/// Cut behind the last entry, or behind a block.
pub fn fewer_blocks(a: &mut Arguments, given: Given, random: &mut Random) -> Allowed {
    let row = Row::with_blocks(a, given)?;
    let left = random.number((row.len - row.full) as u64 / 8) as usize;
    a.lent.slices[given.slice].len = if left == 0 { row.full } else { row.full + 1 + 8 * left };
    Some(&[5])
}

/// A block more; where there was none, a spare byte as well.
pub fn more_blocks(a: &mut Arguments, given: Given, _: &mut Random) -> Allowed {
    let row = Row::of(a, given)?;
    if row.len < row.full {
        return None;
    }
    let len = row.len + if row.len == row.full { 9 } else { 8 };
    a.lent.slices[given.slice].len = len;
    Some(if len > row.sizes.longest { &[4] } else { &[5] })
}

pub fn row_entry_above(a: &mut Arguments, given: Given, random: &mut Random) -> Allowed {
    let row = Row::of(a, given).filter(|row| row.entries > 0)?;
    let entry = at_least(row.sizes.buckets, 8 * row.sizes.entry as u64, random);
    row.put_entry(a, random.number(row.entries as u64) as usize, entry);
    Some(&[2])
}

/// An entry is that before it.
pub fn row_not_falling(a: &mut Arguments, given: Given, random: &mut Random) -> Allowed {
    let row = Row::of(a, given).filter(|row| row.entries > 1)?;
    let i = 1 + random.number(row.entries as u64 - 1) as usize;
    row.put_entry(a, i, row.entry(a, i - 1));
    Some(&[5])
}

pub fn spare_byte(a: &mut Arguments, given: Given, random: &mut Random) -> Allowed {
    let row = Row::with_blocks(a, given)?;
    let byte = a.lent.get(row.slice, row.full);
    a.lent.put(row.slice, row.full, byte ^ (1 << random.number(8)));
    Some(&[5])
}

/// A bit of the last block, at or above the boundary.
pub fn row_bit_above(a: &mut Arguments, given: Given, random: &mut Random) -> Allowed {
    let row = Row::with_blocks(a, given)?;
    let boundary = row.entry(a, row.entries - 1);
    let free = boundary.next_multiple_of(64) - boundary;
    if free == 0 {
        return None;
    }
    let p = boundary + random.number(free);
    let at = row.full + 1 + p as usize / 8;
    let byte = a.lent.get(row.slice, at);
    a.lent.put(row.slice, at, byte | 1 << (p % 8));
    Some(&[5])
}

/// Any byte is another: the row may be another set's.
pub fn any_byte(a: &mut Arguments, given: Given, random: &mut Random) -> Allowed {
    let len = a.lent.slices[given.slice].len;
    if len == 0 {
        return None;
    }
    let i = random.number(len as u64) as usize;
    let byte = a.lent.get(given.slice, i);
    a.lent.put(given.slice, i, byte ^ (1 + random.number(255)));
    Some(&[0, 2, 5])
}

/// Cut anywhere: where entries are left alone, the row may be another set's.
pub fn cut(a: &mut Arguments, given: Given, random: &mut Random) -> Allowed {
    let len = a.lent.slices[given.slice].len;
    if len == 0 {
        return None;
    }
    a.lent.slices[given.slice].len = random.number(len as u64) as usize;
    Some(&[0, 4, 5])
}
