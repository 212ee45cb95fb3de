use std::cmp::Ordering;
use std::iter::FusedIterator;

use crate::calls;
use crate::ffi;
use crate::refusal::Refusal;

/// The size of the set whose row this is.
///
/// A row that was cut can be another set's row, and opens: if a whole number of entries is left,
/// fewer than M. Keep the length of a row beside it.
///
/// ```
/// assert_eq!(zamgulekt::open(7, &[5, 0, 0, 0])?, 2);
/// assert_eq!(zamgulekt::open(7, &[5, 0])?, 1);
/// # Ok::<(), zamgulekt::Refusal>(())
/// ```
///
/// # Errors
///
/// 1 where the configuration is not 7, 10 or 13; 4, 2 or 5 where no set has the row.
pub fn open(config: u64, row: &[u8]) -> Result<usize, Refusal> {
    Ok(calls::open(config, row)? as usize)
}

/// The order of two rows under a mask, as [`Filter::cmp_masked`](crate::Filter::cmp_masked) tells
/// it of the filters of their sets.
///
/// # Errors
///
/// 1 where the configuration is not 7, 10 or 13; 6 where the size is not 1 to 63; 7 where a mask
/// bit at or above the size is set; 4, 2 or 5 where no set has the first row, then where none has
/// the second.
pub fn cmp_rows(
    config: u64,
    mask: u64,
    size: usize,
    first: &[u8],
    second: &[u8],
) -> Result<Ordering, Refusal> {
    calls::cmp_rows(config, mask, size, first, second)
}

/// The greater of two rows under a mask, itself and not a copy: the first if they are equal.
///
/// ```
/// let (ours, theirs) = ([5, 0], [5, 0, 0, 0]);
/// assert_eq!(zamgulekt::greater_row(7, 1, 1, &ours, &theirs)?, theirs);
/// # Ok::<(), zamgulekt::Refusal>(())
/// ```
///
/// # Errors
///
/// As [`cmp_rows`].
pub fn greater_row<'a>(
    config: u64,
    mask: u64,
    size: usize,
    first: &'a [u8],
    second: &'a [u8],
) -> Result<&'a [u8], Refusal> {
    match calls::greater_row(config, mask, size, first, second)? {
        ffi::FIRST => Ok(first),
        _ => Ok(second),
    }
}

/// The bucket at a place of a row, or `None` past the last. The largest bucket is at place 0.
///
/// ```
/// use zamgulekt::step_at;
///
/// assert_eq!(step_at(7, &[6, 0, 5, 0], 1)?, Some(5));
/// assert_eq!(step_at(7, &[6, 0, 5, 0], 2)?, None);
/// # Ok::<(), zamgulekt::Refusal>(())
/// ```
///
/// # Errors
///
/// As [`open`].
pub fn step_at(config: u64, row: &[u8], place: usize) -> Result<Option<u32>, Refusal> {
    let [given, bucket, _] = calls::step_at(row, config, place)?;
    Ok((given == 1).then_some(bucket as u32))
}

/// Gives the buckets of a lent row, from the largest down.
///
/// Each step judges the whole row and then walks from the largest bucket to its place. To see many
/// buckets of a long row, read it: [`Filter::from_row`](crate::Filter::from_row), and then
/// [`Filter::buckets`](crate::Filter::buckets).
///
/// A reader can be made of any bytes. On a row that no set has, it gives the refusal, once, and
/// then nothing.
///
/// ```
/// use zamgulekt::RowReader;
///
/// let row = [6, 0, 5, 0];
/// let mut reader = RowReader::new(7, &row);
/// assert_eq!(reader.open()?, 2);
/// assert_eq!(reader.next(), Some(Ok(6)));
/// assert_eq!(reader.place(), 1);
/// assert_eq!(reader.collect::<Result<Vec<u32>, _>>()?, [5]);
/// # Ok::<(), zamgulekt::Refusal>(())
/// ```
#[derive(Clone, Debug)]
pub struct RowReader<'a> {
    row: &'a [u8],
    record: [u64; ffi::READER],
    refused: bool,
}

impl<'a> RowReader<'a> {
    /// A reader before the largest bucket. It judges nothing.
    pub fn new(config: u64, row: &'a [u8]) -> RowReader<'a> {
        RowReader {
            row,
            record: calls::row_reader_new(config, 0),
            refused: false,
        }
    }

    /// The size of the set whose row this is, wherever the reader stands.
    ///
    /// # Errors
    ///
    /// As the function [`open`].
    pub fn open(&self) -> Result<usize, Refusal> {
        let [config, _] = self.record;
        open(config, self.row)
    }

    /// How many buckets it has given.
    pub fn place(&self) -> usize {
        let [_, place] = self.record;
        place as usize
    }
}

impl Iterator for RowReader<'_> {
    type Item = Result<u32, Refusal>;

    fn next(&mut self) -> Option<Result<u32, Refusal>> {
        if self.refused {
            return None;
        }
        match calls::row_reader_step(&mut self.record, self.row) {
            Ok([given, bucket]) => (given == 1).then_some(Ok(bucket as u32)),
            Err(refusal) => {
                self.refused = true;
                Some(Err(refusal))
            }
        }
    }
}

impl FusedIterator for RowReader<'_> {}
