//! Both sides of each edge that 01 names, in configuration 7.

use std::cmp::Ordering;

use zamgulekt::{open, Filter, Limited, Refusal};

fn filter_of(list: impl IntoIterator<Item = u32>) -> Filter {
    let mut filter = Filter::empty(7).unwrap();
    filter
        .toggle(&list.into_iter().collect::<Vec<_>>())
        .unwrap();
    filter
}

fn number<T>(answer: Result<T, Refusal>) -> u8 {
    answer.map_or_else(|refusal| refusal.number, |_| 0)
}

/// The spare byte of a row of twelve entries, and how many blocks follow it.
fn bit_part(filter: &Filter) -> (u8, usize) {
    let row = filter.to_row();
    (row[24], (row.len() - 25) / 8)
}

#[test]
fn the_empty_row_is_the_empty_set() {
    let empty = Filter::from_row(7, &[]).unwrap();
    assert_eq!(empty, Filter::empty(7).unwrap());
    assert_eq!(empty.exact_count(), 0);
    assert!(empty.to_row().is_empty());
}

#[test]
fn a_bucket_toggled_twice_is_gone() {
    assert_eq!(filter_of([5, 5]), Filter::empty(7).unwrap());
}

#[test]
fn twelve_buckets_down_to_0_have_no_bit_part() {
    let row = filter_of(0..12).to_row();
    assert_eq!(row.len(), 24);
    assert_eq!(open(7, &row), Ok(12));
}

#[test]
fn twelve_buckets_down_to_1_have_one() {
    let row = filter_of(1..13).to_row();
    assert_eq!(row.len(), 33);
    assert_eq!(row[24..], [63, 0, 0, 0, 0, 0, 0, 0, 0]);
    assert_eq!(open(7, &row), Ok(12));
    assert_eq!(number(open(7, &row[..24])), 5);
}

#[test]
fn the_thirteenth_bucket_moves_the_smallest_to_the_bits() {
    let twelve = filter_of(1..13);
    let mut filter = twelve.clone();
    filter.toggle(&[13]).unwrap();
    assert_eq!(filter.boundary(), 2);
    assert_eq!(filter.blocks(), [2]);
    assert_eq!(bit_part(&filter), (62, 1));
    filter.toggle(&[13]).unwrap();
    assert_eq!(filter, twelve);
}

#[test]
fn a_boundary_of_64_needs_one_block_and_65_two() {
    assert_eq!(bit_part(&filter_of(64..76)), (0, 1));
    assert_eq!(bit_part(&filter_of(65..77)), (63, 2));
}

#[test]
fn the_last_bucket_is_8319() {
    let mut filter = filter_of([8319]);
    assert_eq!(number(filter.toggle(&[8320])), 2);
    assert_eq!(filter.top(), [8319]);
}

#[test]
fn the_window_ends_at_7616() {
    let limited = |last| filter_of((8308..8320).chain([last])).limited_count();
    let seen = Limited {
        count: 13,
        bound: 7616,
    };
    let unseen = Limited {
        count: 12,
        bound: 0,
    };
    assert_eq!(limited(7616), seen);
    assert_eq!(limited(7615), unseen);
    let empty = Filter::empty(7).unwrap();
    let difference = |last| empty.limited_difference(&filter_of((8308..8320).chain([last])));
    assert_eq!(difference(7616), Ok(seen));
    assert_eq!(difference(7615), Ok(unseen));
}

#[test]
fn a_mask_runs_on_over_the_blocks() {
    let empty = Filter::empty(7).unwrap();
    let order = |bucket| filter_of([bucket]).cmp_masked(&empty, 5, 3);
    assert_eq!(order(63), Ok(Ordering::Greater));
    assert_eq!(order(64), Ok(Ordering::Equal));
    assert_eq!(order(65), Ok(Ordering::Greater));
    assert_eq!(empty.cmp_masked(&filter_of([65]), 5, 3), Ok(Ordering::Less));
}

#[test]
fn masks_have_1_to_63_bits() {
    let filter = filter_of([5]);
    let judged = |mask, size| number(filter.masked_sort_key(mask, size));
    assert_eq!(judged(8, 3), 7);
    assert_eq!(judged(7, 3), 0);
    assert_eq!(judged(0, 63), 0);
    assert_eq!(judged(0, 0), 6);
    assert_eq!(judged(0, 64), 6);
}

#[test]
fn the_fifth_bucket_leaves_its_high_bits_in_the_key() {
    let low = |fifth| {
        filter_of([400, 300, 200, 100, fifth])
            .masked_sort_key(1, 1)
            .unwrap()
            & 255
    };
    assert_eq!(low(64), 1);
    assert_eq!(low(63), 0);
}
