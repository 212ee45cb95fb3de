//! The crate root that the nine files want, with no more in it than builds them unchanged.

pub mod build_hasher;
#[allow(dead_code, unused)]
mod config;
#[allow(dead_code, unused)]
mod diff_count;

pub use diff_count::{GeoDiffMetric as held, OnesMetric as probe};

pub trait Method: Clone + Eq {}

#[derive(Clone, PartialEq, Eq)]
pub struct Diff;

impl Method for Diff {}

pub trait Count<M: Method> {
    fn push_hash(&mut self, hash: u64);
    fn push<I: std::hash::Hash>(&mut self, item: I);
    fn push_sketch(&mut self, other: &Self);
    fn size_f32(&self) -> f32;
    fn size_with_sketch_f32(&self, other: &Self) -> f32;
    fn bytes_in_memory(&self) -> usize;
}
