//! The buckets of hashed items. Hashes are pseudo-random numbers, and the bucket is the one that the
//! Rust takes for a hash. An item that hits a bucket again takes it out.

use crate::sets::Config;
use geo_filters::held::bucket_of;
use std::collections::HashSet;

pub const MILLION: usize = 1_000_000;

/// How much a filter holds.
#[derive(Clone, Copy)]
pub enum Load {
    /// half as many members as the top list has cells
    Sparse,
    /// ten times as many
    Medium,
    /// the buckets of a million items
    Dense,
    /// the buckets of so many items
    Items(usize),
}

impl Load {
    pub fn name(self) -> String {
        match self {
            Load::Sparse => "sparse".into(),
            Load::Medium => "medium".into(),
            Load::Dense => "dense".into(),
            Load::Items(n) => n.to_string(),
        }
    }

    /// The items of two sets, half of which they share.
    pub fn two_sets<C: Config>(self, top: usize) -> [Vec<u32>; 2] {
        let mut shared = Vec::new();
        self.add_items::<C>(&mut shared, 1, top, 2);
        [2, 3].map(|seed| {
            let mut list = shared.clone();
            self.add_items::<C>(&mut list, seed, top, 1);
            list
        })
    }

    /// Adds items to a list until it has this part of the load.
    fn add_items<C: Config>(self, list: &mut Vec<u32>, seed: u64, top: usize, part: usize) {
        match self {
            Load::Sparse => add_members::<C>(list, seed, top / 2 / part),
            Load::Medium => add_members::<C>(list, seed, top * 10 / part),
            Load::Dense => Load::Items(MILLION).add_items::<C>(list, seed, top, part),
            Load::Items(n) => list.extend(items::<C>(seed).take(n / part - list.len())),
        }
    }
}

/// The buckets of endlessly many items (splitmix64). Another seed gives others.
pub fn items<C: Config>(seed: u64) -> impl Iterator<Item = u32> {
    let (config, mut state) = (C::default(), seed << 32);
    std::iter::repeat_with(move || {
        state = state.wrapping_add(0x9E37_79B9_7F4A_7C15);
        let mut hash = state;
        hash = (hash ^ (hash >> 30)).wrapping_mul(0xBF58_476D_1CE4_E5B9);
        hash = (hash ^ (hash >> 27)).wrapping_mul(0x94D0_49BB_1331_11EB);
        bucket_of(&config, hash ^ (hash >> 31))
    })
}

/// Adds items to a list until the set has so many members.
fn add_members<C: Config>(list: &mut Vec<u32>, seed: u64, wanted: usize) {
    let mut members = HashSet::new();
    for &bucket in list.iter() {
        flip(&mut members, bucket);
    }
    let mut more = items::<C>(seed);
    while members.len() < wanted {
        list.extend(more.next());
        flip(&mut members, list[list.len() - 1]);
    }
}

fn flip(members: &mut HashSet<u32>, bucket: u32) {
    if !members.remove(&bucket) {
        members.insert(bucket);
    }
}
