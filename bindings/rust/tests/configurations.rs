//! Each configuration: its sizes, and that every way of making a filter gives the filter of the
//! set.

use std::collections::BTreeSet;
use std::thread;

use zamgulekt::{cmp_rows, sizes_of, Builder, Filter, RowReader};

/// So many buckets below W, some of them more than once.
fn list(config: u64, length: usize) -> Vec<u32> {
    let buckets = sizes_of(config).unwrap().buckets as u64;
    let mut state = config + length as u64;
    let mut draw = || {
        state = state
            .wrapping_mul(6_364_136_223_846_793_005)
            .wrapping_add(1);
        ((state >> 33) % buckets) as u32
    };
    (0..length).map(|_| draw()).collect()
}

/// The buckets that are listed an odd number of times, from the largest down.
fn set(list: &[u32]) -> Vec<u32> {
    let mut set = BTreeSet::new();
    for &bucket in list {
        if !set.insert(bucket) {
            set.remove(&bucket);
        }
    }
    set.into_iter().rev().collect()
}

/// Lengths on both sides of a full top list and of a full pending area, and a long one.
fn lengths(config: u64) -> [usize; 7] {
    let top = sizes_of(config).unwrap().top;
    [0, 1, top, top + 1, 2 * top, 2 * top + 1, 1500]
}

fn toggled(config: u64, list: &[u32]) -> Filter {
    let mut filter = Filter::empty(config).unwrap();
    filter.toggle(list).unwrap();
    filter
}

fn built(config: u64, split: usize, list: &[u32]) -> Filter {
    let mut builder = Builder::new(config, split).unwrap();
    let (one, two) = list.split_at(list.len() / 3);
    builder.push(one).unwrap();
    builder.raise(split / 2 * 3).unwrap();
    builder.push(two).unwrap();
    assert_eq!(builder.finish(), builder.clone().finish());
    builder.finish()
}

fn each_way(config: u64, length: usize) {
    let list = list(config, length);
    let set = set(&list);
    let filter = toggled(config, &list);
    assert!(filter.buckets().eq(set.iter().copied()));
    assert_eq!(filter.exact_count(), set.len());
    assert_eq!(filter.config(), config);

    let half = sizes_of(config).unwrap().buckets / 2;
    assert_eq!(built(config, 0, &list), filter);
    assert_eq!(built(config, half, &list), filter);

    let row = filter.to_row();
    assert_eq!(Filter::from_row(config, &row).as_ref(), Ok(&filter));
    assert!(RowReader::new(config, &row).eq(set.into_iter().map(Ok)));

    let (one, two) = list.split_at(list.len() / 2);
    let (one, two) = (toggled(config, one), toggled(config, two));
    assert_eq!(one.symmetric_difference(&two).as_ref(), Ok(&filter));
    assert_eq!(one.exact_difference(&two), Ok(filter.exact_count()));
    assert_eq!(one.limited_difference(&two), Ok(filter.limited_count()));
    assert_eq!(
        one.cmp_masked(&two, 5, 3),
        cmp_rows(config, 5, 3, &one.to_row(), &two.to_row())
    );
}

#[test]
fn the_sizes_are_those_of_the_table() {
    let table = [
        (7, [7, 12, 2, 112, 8_320, 130, 14, 11, 1_065]),
        (10, [10, 64, 4, 896, 66_560, 1_040, 17, 80, 8_569]),
        (13, [13, 384, 4, 7_138, 532_480, 8_320, 20, 700, 68_049]),
    ];
    for (config, line) in table {
        let s = sizes_of(config).unwrap();
        let sizes = [
            s.level, s.top, s.entry, s.budget, s.buckets, s.blocks, s.bits, s.window, s.longest,
        ];
        assert_eq!(sizes, line);
    }
}

/// The configurations go side by side: the calls share nothing.
#[test]
fn each_way_gives_the_filter_of_the_set() {
    thread::scope(|scope| {
        for config in [7, 10, 13] {
            scope.spawn(move || {
                for length in lengths(config) {
                    each_way(config, length);
                }
            });
        }
    });
}

#[test]
fn a_filter_and_itself_have_no_difference() {
    let filter = toggled(10, &list(10, 500));
    assert_eq!(filter.exact_difference(&filter), Ok(0));
    let empty = Filter::empty(10).unwrap();
    assert_eq!(filter.symmetric_difference(&filter), Ok(empty));
    assert!(filter.cmp_masked(&filter, 1, 1).unwrap().is_eq());
}
