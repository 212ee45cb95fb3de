//! Both sides answer alike: a time tells nothing of a call that does something else.

use crate::ffi;
use crate::ours::{self, Builder, Filter, Sizes};
use crate::sets::{new_builder, push_each, reading, toggle_each, written, Config, Set};
use geo_filters::held::{self, GeoDiffCount};
use std::cmp::Ordering;

pub fn of_difference<C: Config>(sizes: Sizes, a: &Set<C>, b: &Set<C>) {
    let mut to = Filter::empty(sizes);
    a.ours.symmetric_difference(&b.ours, &mut to);
    let rust = GeoDiffCount::symmetric_difference(&a.rust, &b.rust);
    assert_eq!(to.row(sizes), written(&rust), "symmetric difference");
    let exact = a.ours.exact_difference(&b.ours);
    assert_eq!(exact, held::exact(&rust) as u64, "exact difference");
    let limited = a.ours.limited_difference(&b.ours);
    let (count, bound) = held::limited_difference(&a.rust, &b.rust);
    assert_eq!(
        limited,
        [count, bound].map(|n| n as u64),
        "limited difference"
    );
}

pub fn of_order<C: Config>(sizes: Sizes, a: &Set<C>, b: &Set<C>, mask: u64, size: usize) {
    let rust = match a.rust.cmp_masked(&b.rust, mask, size) {
        Ordering::Less => ffi::LESS,
        Ordering::Equal => ffi::EQUAL,
        Ordering::Greater => ffi::GREATER,
    };
    assert_eq!(a.ours.cmp_masked(&b.ours, mask, size), rust, "order");
    let of_rows = ours::cmp_rows(sizes.config, mask, size, &a.row, &b.row);
    assert_eq!(of_rows, rust, "order of rows");
}

pub fn of_counts<C: Config>(a: &Set<C>) {
    let exact = held::exact(&a.rust) as u64;
    assert_eq!(a.ours.exact_count(), exact, "exact count");
    let (count, bound) = held::limited(&a.rust);
    let limited = [count, bound].map(|n| n as u64);
    assert_eq!(a.ours.limited_count(), limited, "limited count");
}

pub fn of_key<C: Config>(a: &Set<C>, mask: u64, size: usize) {
    let key = a.rust.masked_sort_key(mask, size);
    assert_eq!(a.ours.masked_sort_key(mask, size), key, "key");
}

pub fn of_reading<C: Config>(sizes: Sizes, a: &Set<C>) {
    let mut read = Filter::empty(sizes);
    read.read(sizes.config, &a.row);
    assert_eq!(read.row(sizes), written(&reading::<C>(&a.row)), "reading");
}

pub fn of_opening<C: Config>(sizes: Sizes, a: &Set<C>) {
    let count = held::exact(&reading::<C>(&a.row)) as u64;
    assert_eq!(ours::open(sizes.config, &a.row), count, "opening");
}

pub fn of_step<C: Config>(sizes: Sizes, a: &Set<C>, place: usize) {
    let bucket = held::one_at(&reading::<C>(&a.row), place);
    assert_eq!(ours::step(sizes.config, place, &a.row), bucket, "step");
}

pub fn of_toggling<C: Config>(sizes: Sizes, from: &Set<C>, list: &[u32]) {
    let (mut ours, mut rust) = (from.ours.clone(), from.rust.clone());
    ours.toggle(list);
    toggle_each(&mut rust, list);
    assert_eq!(ours.row(sizes), written(&rust), "toggling");
}

pub fn of_building<C: Config>(sizes: Sizes, list: &[u32]) {
    let (mut ours, mut finished) = (Builder::new(sizes), Filter::empty(sizes));
    ours.push(list);
    ours.finish(&mut finished);
    let mut rust = new_builder::<C>();
    push_each(&mut rust, list);
    assert_eq!(finished.row(sizes), written(&rust.build()), "building");
}
