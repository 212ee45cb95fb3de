use std::cmp::Ordering;
use std::fmt;
use std::iter::{Copied, FusedIterator};
use std::slice;

use crate::calls;
use crate::config::sizes_of;
use crate::ffi;
use crate::refusal::Refusal;

/// The filter of a set of buckets, in a configuration.
///
/// It lists the largest buckets of the set and holds the others in bits. One set has one filter, so
/// two filters of one configuration are equal exactly where their sets are.
///
/// Only the archive writes it, so it is sound at all times: a call on it is refused for the sake of
/// its other arguments alone.
#[derive(Clone, PartialEq, Eq, Hash)]
pub struct Filter {
    pub(crate) record: [u64; ffi::FILTER],
    pub(crate) top: Vec<u32>,
    pub(crate) blocks: Vec<u64>,
}

/// A count of the largest buckets of a set.
#[derive(Clone, Copy, Debug, PartialEq, Eq, Hash)]
pub struct Limited {
    /// How many buckets were seen.
    pub count: usize,
    /// Every bucket of the set at or above this one is counted; but a count of exactly M with bound
    /// 0 says no more than that the window held none, and there may be more below it.
    pub bound: usize,
}

impl Filter {
    /// The filter of the empty set.
    ///
    /// # Errors
    ///
    /// 1 where the configuration is not 7, 10 or 13.
    pub fn empty(config: u64) -> Result<Filter, Refusal> {
        let mut filter = Filter::room(config)?;
        calls::empty(config, &mut filter)?;
        Ok(filter)
    }

    /// The filter of the set that has this row.
    ///
    /// ```
    /// use zamgulekt::Filter;
    ///
    /// let filter = Filter::from_row(7, &[6, 0, 5, 0])?;
    /// assert_eq!(filter.top(), [6, 5]);
    /// assert_eq!(Filter::from_row(7, &[5, 0, 6, 0]).unwrap_err().number, 5);
    /// # Ok::<(), zamgulekt::Refusal>(())
    /// ```
    ///
    /// # Errors
    ///
    /// 1 where the configuration is not 7, 10 or 13; 4, 2 or 5 where no set has the row.
    pub fn from_row(config: u64, row: &[u8]) -> Result<Filter, Refusal> {
        let mut filter = Filter::room(config)?;
        calls::read(config, row, &mut filter)?;
        Ok(filter)
    }

    /// Room for a filter of a configuration, not yet written.
    pub(crate) fn room(config: u64) -> Result<Filter, Refusal> {
        let sizes = sizes_of(config)?;
        Ok(Filter {
            record: [0; ffi::FILTER],
            top: vec![0; sizes.top],
            blocks: vec![0; sizes.blocks],
        })
    }

    /// Flips the membership of each listed bucket, once for each time that it is listed.
    ///
    /// Each call judges the filter first, which takes time even for one bucket: hand in one long
    /// list rather than many short ones.
    ///
    /// ```
    /// use zamgulekt::Filter;
    ///
    /// let mut filter = Filter::empty(7)?;
    /// filter.toggle(&[5, 7, 9])?;
    /// filter.toggle(&[7])?;
    /// assert_eq!(filter.top(), [9, 5]);
    /// # Ok::<(), zamgulekt::Refusal>(())
    /// ```
    ///
    /// # Errors
    ///
    /// 2 where a listed bucket is out of range; then none was flipped.
    pub fn toggle(&mut self, list: &[u32]) -> Result<(), Refusal> {
        calls::toggle(self, list)
    }

    /// The filter of the buckets that exactly one of the two holds.
    ///
    /// # Errors
    ///
    /// 9 where the configurations differ.
    pub fn symmetric_difference(&self, other: &Filter) -> Result<Filter, Refusal> {
        let mut to = Filter::room(self.config())?;
        calls::symmetric_difference(self, other, &mut to)?;
        Ok(to)
    }

    /// How many buckets the set has.
    pub fn exact_count(&self) -> usize {
        sound(calls::exact_count(self)) as usize
    }

    /// A count that looks at the largest buckets alone, with its bound.
    pub fn limited_count(&self) -> Limited {
        limited(sound(calls::limited_count(self)))
    }

    /// How many buckets exactly one of the two holds: 0 exactly where the sets are the same.
    ///
    /// # Errors
    ///
    /// 9 where the configurations differ.
    pub fn exact_difference(&self, other: &Filter) -> Result<usize, Refusal> {
        Ok(calls::exact_difference(self, other)? as usize)
    }

    /// The limited count of the buckets that exactly one of the two holds.
    ///
    /// # Errors
    ///
    /// 9 where the configurations differ.
    pub fn limited_difference(&self, other: &Filter) -> Result<Limited, Refusal> {
        Ok(limited(calls::limited_difference(self, other)?))
    }

    /// The order under a mask, which keeps bucket p where bit p mod `size` of it is set. Mask 1 of
    /// size 1 keeps all, mask 0 none.
    ///
    /// The holder of the largest kept bucket that the other lacks is the greater. `Equal` speaks of
    /// the kept buckets alone.
    ///
    /// ```
    /// use std::cmp::Ordering;
    /// use zamgulekt::Filter;
    ///
    /// let ours = Filter::from_row(7, &[5, 0])?;
    /// let theirs = Filter::from_row(7, &[5, 0, 0, 0])?;
    /// assert_eq!(ours.cmp_masked(&theirs, 1, 1)?, Ordering::Less);
    /// assert_eq!(ours.cmp_masked(&theirs, 0b10, 2)?, Ordering::Equal);
    /// assert_eq!(ours.cmp_masked(&theirs, 8, 3).unwrap_err().number, 7);
    /// # Ok::<(), zamgulekt::Refusal>(())
    /// ```
    ///
    /// # Errors
    ///
    /// 9 where the configurations differ; 6 where the size is not 1 to 63; 7 where a mask bit at or
    /// above the size is set.
    pub fn cmp_masked(&self, other: &Filter, mask: u64, size: usize) -> Result<Ordering, Refusal> {
        calls::cmp_masked(self, other, mask, size)
    }

    /// The key of the largest kept buckets. Under one mask and configuration, a greater filter
    /// never has a smaller key. Equal keys decide nothing: then ask
    /// [`cmp_masked`](Filter::cmp_masked).
    ///
    /// # Errors
    ///
    /// 6 where the size is not 1 to 63; 7 where a mask bit at or above the size is set.
    pub fn masked_sort_key(&self, mask: u64, size: usize) -> Result<u64, Refusal> {
        calls::masked_sort_key(self, mask, size)
    }

    /// The row of the set. It does not name its configuration: keep that beside it.
    ///
    /// ```
    /// use zamgulekt::Filter;
    ///
    /// let mut filter = Filter::empty(7)?;
    /// filter.toggle(&[5, 6])?;
    /// assert_eq!(filter.to_row(), [6, 0, 5, 0]);
    /// assert_eq!(Filter::from_row(7, &filter.to_row())?, filter);
    /// # Ok::<(), zamgulekt::Refusal>(())
    /// ```
    pub fn to_row(&self) -> Vec<u8> {
        let mut row = vec![0; sound(sizes_of(self.config())).longest];
        let length = sound(calls::write(self, &mut row));
        row.truncate(length as usize);
        row.shrink_to_fit();
        row
    }

    /// The buckets of the set, from the largest down.
    ///
    /// ```
    /// use zamgulekt::Filter;
    ///
    /// let mut filter = Filter::empty(10)?;
    /// filter.toggle(&[3, 66_559, 64])?;
    /// assert!(filter.buckets().eq([66_559, 64, 3]));
    /// # Ok::<(), zamgulekt::Refusal>(())
    /// ```
    pub fn buckets(&self) -> Buckets<'_> {
        Buckets {
            top: self.top().iter().copied(),
            blocks: self.blocks(),
            block: 0,
        }
    }

    /// The configuration: 7, 10 or 13.
    pub fn config(&self) -> u64 {
        let [config, _, _] = self.record;
        config
    }

    /// The largest buckets, strictly falling: M of them, or all if there are fewer.
    pub fn top(&self) -> &[u32] {
        let [_, count, _] = self.record;
        &self.top[..count as usize]
    }

    /// The last entry of a top list of M, otherwise 0. The buckets below it are in the blocks.
    pub fn boundary(&self) -> usize {
        let [_, _, boundary] = self.record;
        boundary as usize
    }

    /// The blocks of 64 bits that the boundary needs: bit p mod 64 of block p / 64 is set where p
    /// is in the set and below the boundary.
    pub fn blocks(&self) -> &[u64] {
        &self.blocks[..self.boundary().div_ceil(64)]
    }
}

/// The answer of a call on sound filters, whose other arguments cannot be refused.
pub(crate) fn sound<T>(answer: Result<T, Refusal>) -> T {
    answer.expect("a filter or builder is sound at all times")
}

fn limited([count, bound]: [u64; ffi::LIMITED]) -> Limited {
    Limited {
        count: count as usize,
        bound: bound as usize,
    }
}

impl fmt::Display for Filter {
    fn fmt(&self, f: &mut fmt::Formatter) -> fmt::Result {
        write!(
            f,
            "configuration {}, {} buckets, boundary {}",
            self.config(),
            self.exact_count(),
            self.boundary()
        )
    }
}

impl fmt::Debug for Filter {
    fn fmt(&self, f: &mut fmt::Formatter) -> fmt::Result {
        f.debug_struct("Filter")
            .field("config", &self.config())
            .field("buckets", &self.buckets())
            .finish()
    }
}

impl<'a> IntoIterator for &'a Filter {
    type Item = u32;
    type IntoIter = Buckets<'a>;

    fn into_iter(self) -> Buckets<'a> {
        self.buckets()
    }
}

/// The buckets of a filter, from the largest down: see [`Filter::buckets`].
#[derive(Clone)]
pub struct Buckets<'a> {
    top: Copied<slice::Iter<'a, u32>>,
    /// The blocks that were not begun.
    blocks: &'a [u64],
    /// What is left of the block behind them.
    block: u64,
}

impl Iterator for Buckets<'_> {
    type Item = u32;

    fn next(&mut self) -> Option<u32> {
        if let Some(bucket) = self.top.next() {
            return Some(bucket);
        }
        while self.block == 0 {
            let (&block, rest) = self.blocks.split_last()?;
            (self.block, self.blocks) = (block, rest);
        }
        let bit = self.block.ilog2();
        self.block ^= 1 << bit;
        Some(self.blocks.len() as u32 * 64 + bit)
    }
}

impl FusedIterator for Buckets<'_> {}

impl fmt::Debug for Buckets<'_> {
    fn fmt(&self, f: &mut fmt::Formatter) -> fmt::Result {
        f.debug_list().entries(self.clone()).finish()
    }
}
