use std::error::Error;
use std::fmt;

/// Why a call was refused. It has left everything as it was.
///
/// ```
/// let refusal = zamgulekt::open(7, &[5, 0, 0]).unwrap_err();
/// assert_eq!(refusal.number, 4);
/// ```
#[derive(Clone, Copy, Debug, PartialEq, Eq, Hash)]
#[non_exhaustive]
pub struct Refusal {
    /// The number of the refusal; the manual has a page on each.
    pub number: u8,
}

impl Refusal {
    /// When exactly this number is given. M is [`Sizes::top`](crate::Sizes::top), W is
    /// [`Sizes::buckets`](crate::Sizes::buckets).
    pub fn meaning(&self) -> &'static str {
        match self.number {
            1 => "the configuration is not 7, 10 or 13",
            2 => {
                "a listed bucket or a row's top entry is W or more, \
                 or a split handed in exceeds W"
            }
            3 => "a lent slice is shorter than its area, or than the row to be written",
            4 => {
                "row length is above the longest, \
                 or neither a multiple of the entry size up to M entries, \
                 nor M entries + 1 + 8k with k at least 1"
            }
            5 => "another reason why no set has this row",
            6 => "mask size is not 1 to 63",
            7 => "a mask bit at or above the size is set",
            8 => {
                "record and areas are no set's filter; \
                 or the builder has over 2M pending, a pending bucket of W or more, \
                 split above W, a bit at or above the split, or a nonzero unused cell"
            }
            9 => "two filters have different configurations",
            10 => "a bucket does not fit its key slot",
            11 => "the program's text is malformed",
            _ => "a number that this version does not know",
        }
    }
}

impl fmt::Display for Refusal {
    fn fmt(&self, f: &mut fmt::Formatter) -> fmt::Result {
        write!(f, "refused {}: {}", self.number, self.meaning())
    }
}

impl Error for Refusal {}
