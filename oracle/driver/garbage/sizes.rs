//! 01's sizes of a configuration, as far as judging needs them.

use super::lent::Kind;

#[derive(Clone, Copy)]
pub struct Sizes {
    /// M
    pub top: usize,
    /// The bytes of a top entry in a row.
    pub entry: usize,
    /// W
    pub buckets: u64,
    pub longest: usize,
}

pub fn sizes_of(config: u64) -> Option<Sizes> {
    let (top, entry, buckets, longest) = match config {
        7 => (12, 2, 8_320, 1_065),
        10 => (64, 4, 66_560, 8_569),
        13 => (384, 4, 532_480, 68_049),
        _ => return None,
    };
    Some(Sizes { top, entry, buckets, longest })
}

impl Sizes {
    /// The cells of an area.
    pub fn area(&self, kind: Kind) -> usize {
        match kind {
            Kind::Top => self.top,
            Kind::Pending => 2 * self.top,
            Kind::Blocks => self.buckets as usize / 64,
            Kind::Record | Kind::List | Kind::Bytes => unreachable!("no area"),
        }
    }

    /// The length of a row with so many top entries and this boundary.
    pub fn row_length(&self, entries: usize, boundary: u64) -> usize {
        let blocks = boundary.div_ceil(64) as usize;
        entries * self.entry + if boundary > 0 { 1 + 8 * blocks } else { 0 }
    }
}
