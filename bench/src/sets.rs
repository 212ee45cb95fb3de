//! Sets that both sides hold: the port in its areas, the Rust in its own type, and the row.

use crate::ours::{Filter, Sizes};
use geo_filters::held::{self, Direct, GeoConfig, GeoDiffCount, GeoDiffCountBuilder};
use geo_filters::Diff;

pub trait Config: GeoConfig<Diff> + Default + 'static {}
impl<C: GeoConfig<Diff> + Default + 'static> Config for C {}

#[derive(Clone)]
pub struct Set<C: Config> {
    pub items: Vec<u32>,
    pub ours: Filter,
    pub rust: GeoDiffCount<'static, C>,
    pub row: Vec<u8>,
}

impl<C: Config> Set<C> {
    pub fn of(items: Vec<u32>, sizes: Sizes) -> Self {
        let mut ours = Filter::empty(sizes);
        ours.toggle(&items);
        let mut rust = GeoDiffCount::new(C::default());
        toggle_each(&mut rust, &items);
        let row = ours.row(sizes);
        assert_eq!(row, written(&rust), "toggling");
        Self {
            items,
            ours,
            rust,
            row,
        }
    }
}

/// The Rust takes a bucket at a time.
pub fn toggle_each<C: Config>(filter: &mut GeoDiffCount<'_, C>, items: &[u32]) {
    items
        .iter()
        .for_each(|&bucket| held::toggle(filter, bucket));
}

/// The Rust's builder, from the split 0.
pub fn new_builder<C: Config>() -> GeoDiffCountBuilder<Direct<C>> {
    GeoDiffCountBuilder::with_capacity(Direct(C::default()), 0)
}

pub fn push_each<C: Config>(builder: &mut GeoDiffCountBuilder<Direct<C>>, list: &[u32]) {
    for &bucket in list {
        builder.push_hash(bucket.into());
    }
}

/// The Rust's filter of a row, which borrows the row.
pub fn reading<C: Config>(row: &[u8]) -> GeoDiffCount<'_, C> {
    GeoDiffCount::from_bytes_with_config(C::default(), row)
}

pub fn written<C: GeoConfig<Diff>>(filter: &GeoDiffCount<'_, C>) -> Vec<u8> {
    let mut row = Vec::new();
    filter
        .write(&mut row)
        .expect("a vector takes what is written");
    row
}
