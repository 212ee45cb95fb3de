//! The differences that docs/DIFFERENCES.md lists besides those in rows, and its smallest pairs for the
//! two orders: seen in the Rust and in ours, in configuration 7.

use crate::caught::caught;
use crate::ours::{sizes_of, Lent, Sizes};
use geo_filters::probe::{self, Given::Ones, Step};
use std::cmp::Ordering;

/// The names of those that are not as listed.
pub fn not_as_listed() -> Vec<&'static str> {
    let sizes = sizes_of(7).expect("configuration 7");
    let listed: [(&str, fn(&Sizes) -> bool); 6] = [
        ("a bucket of W", bucket),
        ("a mask size of 0 or 64", mask_size),
        ("a mask bit at the size", mask_bit),
        ("a split past W", split),
        ("more than 2M pending", pending),
        ("the derived order", derived_order),
    ];
    listed.into_iter().filter(|(_, holds)| !holds(&sizes)).map(|(name, _)| name).collect()
}

fn filter(sizes: &Sizes, set: &[u32]) -> Lent {
    let mut filter = Lent::filter(sizes, 0);
    filter.empty(7).and_then(|()| filter.toggle(set)).expect("a filter");
    filter
}

fn builder(sizes: &Sizes, split: usize, lists: &[&[u32]]) -> Lent {
    let mut builder = Lent::builder(sizes, 0);
    builder.builder_new(7, split).expect("a builder");
    lists.iter().for_each(|list| builder.builder_push(list).expect("a list"));
    builder
}

/// The row of the finished filter.
fn finished(sizes: &Sizes, builder: &Lent) -> Vec<u8> {
    let (mut filter, mut row) = (Lent::filter(sizes, 0), vec![0; sizes.longest]);
    builder.builder_finish(&mut filter).expect("a filter");
    let length = filter.write(&mut row).expect("a row");
    row[..length].to_vec()
}

fn bucket(sizes: &Sizes) -> bool {
    let (mut filter, mut builder) = (filter(sizes, &[]), builder(sizes, 0, &[]));
    probe::row_of(7, Ones(&[8320])) == [0x80, 0x20]
        && filter.toggle(&[8320]) == Err(2)
        && builder.builder_push(&[8320]) == Err(2)
}

fn mask_size(sizes: &Sizes) -> bool {
    let (one, none) = (filter(sizes, &[1]), filter(sizes, &[]));
    [0, 64].into_iter().all(|size| {
        caught(|| probe::key(7, Ones(&[1]), 1, size)).is_err()
            && caught(|| probe::order(7, Ones(&[1]), Ones(&[]), 1, size)).is_err()
            && one.masked_sort_key(1, size) == Err(6)
            && one.cmp_masked(&none, 1, size) == Err(6)
    })
}

fn mask_bit(sizes: &Sizes) -> bool {
    let (one, none) = (filter(sizes, &[1]), filter(sizes, &[]));
    probe::key(7, Ones(&[1]), 2, 1) == 0
        && probe::order(7, Ones(&[1]), Ones(&[]), 2, 1) == Ordering::Greater
        && one.masked_sort_key(2, 1) == Err(7)
        && one.cmp_masked(&none, 2, 1) == Err(7)
}

fn split(sizes: &Sizes) -> bool {
    let list: Vec<u32> = (8295..8320).rev().collect();
    let (inside, made) = probe::build(7, 8200, &[Step::Push(&list)]);
    let ours = builder(sizes, 8200, &[&list]);
    inside.boundary == 8328 && ours.record[1] == 8320 && made.row == finished(sizes, &ours)
}

fn pending(sizes: &Sizes) -> bool {
    let list: Vec<u32> = (0..24).collect();
    let (inside, made) = probe::build(7, 0, &[Step::Push(&list), Step::Batch(&[24])]);
    let ours = builder(sizes, 0, &[&list, &[24]]);
    inside.list.len() == 25 && ours.record[2] <= 24 && made.row == finished(sizes, &ours)
}

fn derived_order(_: &Sizes) -> bool {
    let both = |a: &[u32], b: &[u32], mask, size| {
        (probe::derived_order(7, Ones(a), Ones(b)), probe::order(7, Ones(a), Ones(b), mask, size))
    };
    both(&[0], &[], 0, 1) == (Ordering::Greater, Ordering::Equal)
        && both(&[1], &[0], 1, 2) == (Ordering::Greater, Ordering::Less)
}
