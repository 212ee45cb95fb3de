use std::fmt;

use crate::calls;
use crate::config::sizes_of;
use crate::ffi;
use crate::filter::{sound, Filter};
use crate::refusal::Refusal;

/// Builds a filter of many buckets that come in pieces.
///
/// The buckets that were pushed an odd number of times make the set, as toggling them would; but a
/// push does not bring the filter into shape each time.
///
/// ```
/// use zamgulekt::Builder;
///
/// let mut builder = Builder::new(7, 0)?;
/// builder.push(&[5, 8319, 7])?;
/// builder.push(&[5, 200])?;
/// assert_eq!(builder.finish().top(), [8319, 200, 7]);
/// # Ok::<(), zamgulekt::Refusal>(())
/// ```
#[derive(Clone)]
pub struct Builder {
    pub(crate) record: [u64; ffi::BUILDER],
    pub(crate) pending: Vec<u32>,
    pub(crate) bits: Vec<u64>,
}

impl Builder {
    /// A builder of the empty set.
    ///
    /// The split, a number from 0 to W, matters for the time that pushing takes and not for what is
    /// built: buckets below it go to their place at once, the others wait.
    ///
    /// # Errors
    ///
    /// 1 where the configuration is not 7, 10 or 13; 2 where the split exceeds W.
    pub fn new(config: u64, split: usize) -> Result<Builder, Refusal> {
        let sizes = sizes_of(config)?;
        let mut builder = Builder {
            record: [0; ffi::BUILDER],
            pending: vec![0; 2 * sizes.top],
            bits: vec![0; sizes.blocks],
        };
        calls::builder_new(config, split, &mut builder)?;
        Ok(builder)
    }

    /// Flips the membership of each listed bucket, once for each time that it is listed.
    ///
    /// # Errors
    ///
    /// 2 where a listed bucket is out of range; then none was flipped.
    pub fn push(&mut self, list: &[u32]) -> Result<(), Refusal> {
        calls::builder_push(self, list)
    }

    /// Raises the split. A value no higher than the present one changes nothing.
    ///
    /// # Errors
    ///
    /// 2 where the value exceeds W.
    pub fn raise(&mut self, to: usize) -> Result<(), Refusal> {
        calls::builder_raise(self, to)
    }

    /// The filter of the set. The builder stays as it is: it may be pushed to and finished again.
    pub fn finish(&self) -> Filter {
        let mut filter = sound(Filter::room(self.config()));
        sound(calls::builder_finish(self, &mut filter));
        filter
    }

    /// The configuration: 7, 10 or 13.
    pub fn config(&self) -> u64 {
        let [config, _, _] = self.record;
        config
    }
}

impl fmt::Debug for Builder {
    fn fmt(&self, f: &mut fmt::Formatter) -> fmt::Result {
        let [config, split, count] = self.record;
        f.debug_struct("Builder")
            .field("config", &config)
            .field("split", &split)
            .field("pending", &&self.pending[..count as usize])
            .finish_non_exhaustive()
    }
}
