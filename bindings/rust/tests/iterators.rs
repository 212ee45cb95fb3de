//! The buckets of filters and rows, one by one.

use zamgulekt::{step_at, Filter, RowReader};

/// Buckets on both sides of blocks' edges, from the largest down; more than the twelve that are
/// listed.
const BUCKETS: [u32; 20] = [
    8319, 8256, 8255, 4000, 3999, 1000, 999, 640, 639, 576, 575, 512, 193, 192, 191, 128, 127, 64,
    63, 0,
];

fn filter() -> Filter {
    let mut filter = Filter::empty(7).unwrap();
    filter.toggle(&BUCKETS).unwrap();
    filter
}

#[test]
fn a_filter_gives_its_buckets_from_the_largest_down() {
    let filter = filter();
    assert_eq!(filter.top(), &BUCKETS[..12]);
    assert!(filter.buckets().eq(BUCKETS));
    let mut seen = Vec::new();
    for bucket in &filter {
        seen.push(bucket);
    }
    assert_eq!(seen, BUCKETS);
}

#[test]
fn at_the_end_a_filter_gives_nothing() {
    let empty = Filter::empty(13).unwrap();
    assert_eq!(empty.buckets().next(), None);
    let filter = filter();
    let mut buckets = filter.buckets();
    assert_eq!(buckets.by_ref().count(), 20);
    assert_eq!(buckets.next(), None);
    assert_eq!(buckets.next(), None);
}

#[test]
fn a_reader_gives_the_buckets_of_its_row() {
    let row = filter().to_row();
    let mut reader = RowReader::new(7, &row);
    assert_eq!(reader.open(), Ok(20));
    for (place, bucket) in BUCKETS.into_iter().enumerate() {
        assert_eq!(reader.place(), place);
        assert_eq!(step_at(7, &row, place), Ok(Some(bucket)));
        assert_eq!(reader.next(), Some(Ok(bucket)));
    }
    assert_eq!(reader.next(), None);
    assert_eq!(reader.next(), None);
    assert_eq!(reader.place(), 20);
    assert_eq!(reader.open(), Ok(20));
    assert_eq!(step_at(7, &row, 20), Ok(None));
    assert_eq!(step_at(7, &row, usize::MAX), Ok(None));
}

#[test]
fn the_empty_row_gives_nothing() {
    assert_eq!(RowReader::new(7, &[]).next(), None);
    assert_eq!(step_at(7, &[], 0), Ok(None));
}

#[test]
fn a_reader_of_no_row_gives_its_refusal_once() {
    let row = filter().to_row();
    let mut reader = RowReader::new(7, &row[..24]);
    assert_eq!(reader.next().unwrap().unwrap_err().number, 5);
    assert_eq!(reader.next(), None);
    assert_eq!(reader.place(), 0);
    assert_eq!(RowReader::new(8, &row).count(), 1);
}

#[test]
fn filters_are_shown_by_their_buckets() {
    let mut few = Filter::empty(7).unwrap();
    few.toggle(&[5, 7]).unwrap();
    assert_eq!(few.to_string(), "configuration 7, 2 buckets, boundary 0");
    assert_eq!(format!("{few:?}"), "Filter { config: 7, buckets: [7, 5] }");
    assert_eq!(
        filter().to_string(),
        "configuration 7, 20 buckets, boundary 512"
    );
}
