//! What plain code makes of a set, by 01's definitions.

use crate::ours::Sizes;
use geo_filters::probe::{Made, Parts};

/// The filter of a set, and its row.
pub fn made(sizes: &Sizes, set: &[u32]) -> Made {
    let (list, bits) = set.split_at(sizes.top.min(set.len()));
    let boundary = list.get(sizes.top - 1).map_or(0, |&last| last as usize);
    let mut blocks = vec![0; boundary.div_ceil(64)];
    for &bucket in bits {
        blocks[bucket as usize / 64] |= 1 << (bucket % 64);
    }
    let mut row = entries(sizes, list);
    if boundary > 0 {
        row.push(63 - ((boundary - 1) % 64) as u8);
        row.extend(blocks.iter().flat_map(|block: &u64| block.to_le_bytes()));
    }
    Made { parts: Parts { list: list.to_vec(), boundary, blocks }, row }
}

/// Top entries as a row has them.
pub fn entries(sizes: &Sizes, list: &[u32]) -> Vec<u8> {
    list.iter().flat_map(|entry| entry.to_le_bytes().into_iter().take(sizes.entry_bytes)).collect()
}
