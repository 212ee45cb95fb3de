//! The probe: plain questions, answered by the nine files. Each says which function there answers.
//! A configuration is named by its number, 7, 10 or 13.
#![warn(dead_code, unused)]

use crate::config::HashToBucketLookup;
use crate::diff_count::*;

/// A filter: of the buckets listed, each flipped once, or read from a row.
#[derive(Clone, Copy)]
pub enum Given<'a> {
    Ones(&'a [u32]),
    Row(&'a [u8]),
}

/// What is done to a builder: buckets pushed one by one, or in one batch; the split raised.
pub enum Step<'a> {
    Push(&'a [u32]),
    Batch(&'a [u32]),
    Raise(usize),
}

/// Of a filter: top list, boundary, blocks. Of a builder: pending buckets, split, blocks.
#[derive(Debug, PartialEq)]
pub struct Parts {
    pub list: Vec<u32>,
    pub boundary: usize,
    pub blocks: Vec<u64>,
}

/// A filter that was made: its parts, and its row by `write`.
#[derive(Debug, PartialEq)]
pub struct Made {
    pub parts: Parts,
    pub row: Vec<u8>,
}

/// What a configuration tells of itself.
#[derive(Debug, PartialEq)]
pub struct Sizes {
    pub bits_per_level: usize,
    pub max_msb_len: usize,
    pub entry_bytes: usize,
    pub max_bytes: usize,
    pub bucket_position_bits: u32,
}

/// `from_ones_with_config`, `from_bytes_with_config`
fn filter<C: GeoConfig<Diff> + Default>(given: Given<'_>) -> GeoDiffCount<'_, C> {
    match given {
        Given::Ones(ones) => {
            GeoDiffCount::from_ones_with_config(C::default(), ones.iter().map(|&b| bucket::<C>(b)))
        }
        Given::Row(row) => GeoDiffCount::from_bytes_with_config(C::default(), row),
    }
}

fn bucket<C: GeoConfig<Diff>>(number: u32) -> C::BucketType {
    let bucket = C::BucketType::from_usize(number as usize);
    assert_eq!(bucket.into_usize(), number as usize, "wider than a bucket");
    bucket
}

/// What `Direct` takes back to this bucket.
fn hash<C: GeoConfig<Diff>>(number: u32) -> u64 {
    bucket::<C>(number).into_usize() as u64
}

fn written<C: GeoConfig<Diff>>(filter: &GeoDiffCount<'_, C>) -> Vec<u8> {
    let mut row = Vec::new();
    let length = filter.write(&mut row).unwrap();
    assert_eq!(length, row.len(), "write answers another length");
    row
}

fn made<C: GeoConfig<Diff>>(filter: &GeoDiffCount<'_, C>) -> Made {
    Made { parts: filter_parts(filter), row: written(filter) }
}

fn filter_parts<C: GeoConfig<Diff>>(filter: &GeoDiffCount<'_, C>) -> Parts {
    parts(&filter.msb, filter.lsb.num_bits(), filter.lsb.blocks())
}

fn parts<T: IsBucketType>(list: &[T], boundary: usize, blocks: &[Unaligned<u64>]) -> Parts {
    let list = list.iter().map(|b| b.into_usize() as u32).collect();
    let blocks = blocks.iter().map(|b| b.get()).collect();
    Parts { list, boundary, blocks }
}

/// None of the nine files' functions: the lines by which `reserve` sets a higher split.
fn raise<C: GeoConfig<Diff>>(builder: &mut GeoDiffCountBuilder<C>, to: usize) {
    if to > builder.split {
        builder.split = to;
        builder.blocks.resize(to.div_ceil(BITS_PER_BLOCK), Unaligned::default());
    }
}

/// `lookup` of `HashToBucketLookup`, as `hash_to_bucket` calls it. That one would first make a table of estimates
/// too, which takes seconds.
pub fn bucket_step(config: u32) -> impl Fn(u64) -> u32 {
    let table = HashToBucketLookup::new(sizes(config).bits_per_level.ilog2() as usize);
    move |hash| table.lookup(hash) as u32
}

macro_rules! by_number {
    ($($(#[$doc:meta])* fn $name:ident($($arg:ident: $ty:ty),*) -> $out:ty $body:block)*) => {$(
        $(#[$doc])*
        pub fn $name(config: u32, $($arg: $ty),*) -> $out {
            fn answer<C: GeoConfig<Diff> + Default>($($arg: $ty),*) -> $out $body
            match config {
                7 => answer::<GeoDiffConfig7>($($arg),*),
                10 => answer::<GeoDiffConfig10>($($arg),*),
                13 => answer::<GeoDiffConfig13>($($arg),*),
                _ => panic!("no configuration {config}"),
            }
        }
    )*};
}

by_number! {
    /// The functions of `GeoConfig` with these names
    fn sizes() -> Sizes {
        let config = C::default();
        Sizes {
            bits_per_level: config.bits_per_level(),
            max_msb_len: config.max_msb_len(),
            entry_bytes: size_of::<C::BucketType>(),
            max_bytes: config.max_bytes(),
            bucket_position_bits: config.bucket_position_bits(),
        }
    }
    /// `write`
    fn row_of(given: Given) -> Vec<u8> { written(&filter::<C>(given)) }
    /// The fields `msb` and `lsb`; `num_bits`, `blocks`
    fn parts_of(given: Given) -> Parts { filter_parts(&filter::<C>(given)) }
    /// `iter_ones`
    fn ones_of(given: Given) -> Vec<u32> {
        filter::<C>(given).iter_ones().map(|b| b.into_usize() as u32).collect()
    }
    /// `xor_bit` for each bucket in turn
    fn toggle(given: Given, buckets: &[u32]) -> Made {
        let mut filter = filter::<C>(given);
        buckets.iter().for_each(|&b| filter.xor_bit(bucket::<C>(b)));
        made(&filter)
    }
    /// `symmetric_difference`
    fn symmetric_difference(a: Given, b: Given) -> Made {
        made(&GeoDiffCount::symmetric_difference(&filter::<C>(a), &filter::<C>(b)))
    }
    /// `cmp_masked`
    fn order(a: Given, b: Given, mask: u64, size: usize) -> Ordering {
        filter::<C>(a).cmp_masked(&filter::<C>(b), mask, size)
    }
    /// The order derived for `GeoDiffCount`, in a configuration that has an order, as the three have none
    fn derived_order(a: Given, b: Given) -> Ordering {
        let (a, b) = (filter::<Direct<C>>(a), filter::<Direct<C>>(b));
        a.cmp(&b)
    }
    /// `masked_sort_key`
    fn key(given: Given, mask: u64, size: usize) -> u64 { filter::<C>(given).masked_sort_key(mask, size) }
    /// None of the nine files' functions: the length of `msb`, and `count_ones` of `lsb`
    fn exact(given: Given) -> usize {
        let filter = filter::<C>(given);
        filter.msb.len() + filter.lsb.count_ones()
    }
    /// `symmetric_difference`, then as of one
    fn exact_difference(a: Given, b: Given) -> usize {
        let filter = GeoDiffCount::symmetric_difference(&filter::<C>(a), &filter::<C>(b));
        filter.msb.len() + filter.lsb.count_ones()
    }
    /// `count_ones_from_msb_and_lsb` of what `estimate_size` hands to it
    fn limited(given: Given) -> (usize, usize) {
        let GeoDiffCount { config, msb, lsb } = filter::<C>(given);
        let (last, chunks) = (msb.last().copied().unwrap_or_default(), lsb.bit_chunks().peekable());
        count_ones_from_msb_and_lsb(msb.len(), last, chunks, config.max_bytes(), config.max_msb_len())
    }
    /// `count_ones_from_bitchunks` of what `estimate_diff_size` hands to it
    fn limited_difference(a: Given, b: Given) -> (usize, usize) {
        let (config, a, b) = (C::default(), filter::<C>(a), filter::<C>(b));
        let chunks = xor_bit_chunks(a.bit_chunks(), b.bit_chunks()).peekable();
        count_ones_from_bitchunks::<C::BucketType>(chunks, config.max_bytes(), config.max_msb_len())
    }
    /// `with_capacity`; `push_hash`, or `extend_by_hashes`, which first raises the split by its own
    /// estimate, or `raise`. Answers the builder's inside, and the filter by `build`.
    fn build(split: usize, steps: &[Step]) -> (Parts, Made) {
        let mut builder = GeoDiffCountBuilder::with_capacity(Direct(C::default()), 0);
        raise(&mut builder, split);
        for step in steps {
            match step {
                Step::Push(list) => list.iter().for_each(|&b| builder.push_hash(hash::<C>(b))),
                Step::Batch(list) => builder.extend_by_hashes(list.iter().map(|&b| hash::<C>(b))),
                Step::Raise(to) => raise(&mut builder, *to),
            }
        }
        (parts(&builder.numbers, builder.split, &builder.blocks), made(&builder.build()))
    }
}

/// The configuration `C` with a bucket step that returns its argument, and with an order, in which all are equal.
#[derive(Clone, Default, PartialEq, Eq)]
pub struct Direct<C>(pub C);

#[rustfmt::skip]
impl<C: Eq> PartialOrd for Direct<C> { fn partial_cmp(&self, other: &Self) -> Option<Ordering> { Some(self.cmp(other)) } }

#[rustfmt::skip]
impl<C: Eq> Ord for Direct<C> { fn cmp(&self, _: &Self) -> Ordering { Ordering::Equal } }

#[rustfmt::skip]
impl<C: GeoConfig<Diff>> GeoConfig<Diff> for Direct<C> {
    type BucketType = C::BucketType;
    type BuildHasher = C::BuildHasher;
    fn hash_to_bucket(&self, hash: u64) -> C::BucketType { C::BucketType::from_usize(hash as usize) }
    fn max_msb_len(&self) -> usize { self.0.max_msb_len() }
    fn max_bytes(&self) -> usize { self.0.max_bytes() }
    fn bits_per_level(&self) -> usize { self.0.bits_per_level() }
    fn bucket_position_bits(&self) -> u32 { self.0.bucket_position_bits() }
    fn phi(&self) -> f32 { self.0.phi() }
    fn phi_f64(&self) -> f64 { self.0.phi_f64() }
    fn expected_items(&self, buckets: usize) -> f32 { self.0.expected_items(buckets) }
}
