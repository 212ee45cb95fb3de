//! Filters and builders held ready, so that the benchmark can time a call alone. The nine files' own types, and
//! a function for each call that is private there or has a bucket among its arguments. All are generic, and so
//! compiled with their user, as the Rust's public functions are.
#![warn(dead_code, unused)]

pub use super::probe::Direct;
pub use crate::config::GeoConfig;
use crate::diff_count::*;
pub use crate::diff_count::{
    GeoDiffConfig10, GeoDiffConfig13, GeoDiffConfig7, GeoDiffCount, GeoDiffCountBuilder,
};

/// `hash_to_bucket`
#[inline]
pub fn bucket_of<C: GeoConfig<Diff>>(config: &C, hash: u64) -> u32 {
    config.hash_to_bucket(hash).into_usize() as u32
}

/// `xor_bit`
#[inline]
pub fn toggle<C: GeoConfig<Diff>>(filter: &mut GeoDiffCount<'_, C>, bucket: u32) {
    filter.xor_bit(C::BucketType::from_usize(bucket as usize));
}

/// `iter_ones`, and of that the bucket at a place
#[inline]
pub fn one_at<C: GeoConfig<Diff>>(filter: &GeoDiffCount<'_, C>, place: usize) -> Option<u32> {
    filter.iter_ones().nth(place).map(|bucket| bucket.into_usize() as u32)
}

/// None of the nine files' functions: the length of `msb`, and `count_ones` of `lsb`
#[inline]
pub fn exact<C: GeoConfig<Diff>>(filter: &GeoDiffCount<'_, C>) -> usize {
    filter.msb.len() + filter.lsb.count_ones()
}

/// `count_ones_from_msb_and_lsb` of what `estimate_size` hands to it
#[inline]
pub fn limited<C: GeoConfig<Diff>>(filter: &GeoDiffCount<'_, C>) -> (usize, usize) {
    let GeoDiffCount { config, msb, lsb } = filter;
    let (last, chunks) = (msb.last().copied().unwrap_or_default(), lsb.bit_chunks().peekable());
    count_ones_from_msb_and_lsb(msb.len(), last, chunks, config.max_bytes(), config.max_msb_len())
}

/// `count_ones_from_bitchunks` of what `estimate_diff_size` hands to it
#[inline]
pub fn limited_difference<C: GeoConfig<Diff>>(
    a: &GeoDiffCount<'_, C>,
    b: &GeoDiffCount<'_, C>,
) -> (usize, usize) {
    let chunks = xor_bit_chunks(a.bit_chunks(), b.bit_chunks()).peekable();
    count_ones_from_bitchunks::<C::BucketType>(chunks, a.config.max_bytes(), a.config.max_msb_len())
}
