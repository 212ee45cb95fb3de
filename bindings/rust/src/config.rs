use crate::calls;
use crate::refusal::Refusal;

/// The sizes of a configuration.
#[derive(Clone, Copy, Debug, PartialEq, Eq, Hash)]
#[non_exhaustive]
pub struct Sizes {
    /// B: there are 2^B buckets per level.
    pub level: usize,
    /// M: how many of the largest buckets a filter lists.
    pub top: usize,
    /// The bytes per listed bucket of a row.
    pub entry: usize,
    /// The byte budget.
    pub budget: usize,
    /// W: all buckets, numbered 0 to W - 1.
    pub buckets: usize,
    /// The blocks of 64 bits that W buckets take.
    pub blocks: usize,
    /// The bits of a bucket's position in a key.
    pub bits: usize,
    /// The blocks that the limited count looks at.
    pub window: usize,
    /// The bytes of the longest row.
    pub longest: usize,
}

/// The sizes of a configuration.
///
/// ```
/// assert_eq!(zamgulekt::sizes_of(7)?.buckets, 8320);
/// assert_eq!(zamgulekt::sizes_of(8).unwrap_err().number, 1);
/// # Ok::<(), zamgulekt::Refusal>(())
/// ```
///
/// # Errors
///
/// 1 where the number is not 7, 10 or 13.
pub fn sizes_of(config: u64) -> Result<Sizes, Refusal> {
    let [level, top, entry, budget, buckets, blocks, bits, window, longest] =
        calls::sizes_of(config)?.map(|size| size as usize);
    Ok(Sizes {
        level,
        top,
        entry,
        budget,
        buckets,
        blocks,
        bits,
        window,
        longest,
    })
}
