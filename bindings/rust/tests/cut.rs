//! Which beginnings of a row are rows themselves, tried at every length: the whole row, and a whole
//! number of entries below M. It is proved of all rows: `open_beginning` and `open_cut` in
//! crates/rows/proofs/Theorems.antt.

use zamgulekt::{open, sizes_of, Filter};

/// Tries every beginning of the row of these buckets, and gives the lengths of those that pass.
fn passing(config: u64, buckets: impl IntoIterator<Item = u32>) -> Vec<usize> {
    let sizes = sizes_of(config).unwrap();
    let list: Vec<u32> = buckets.into_iter().collect();
    let mut filter = Filter::empty(config).unwrap();
    filter.toggle(&list).unwrap();
    let row = filter.to_row();
    let passes = |&length: &usize| {
        let entries = length / sizes.entry;
        let size = if length == row.len() {
            Some(list.len())
        } else if length % sizes.entry == 0 && entries < sizes.top {
            Some(entries)
        } else {
            None
        };
        assert_eq!(open(config, &row[..length]).ok(), size, "{length} bytes");
        size.is_some()
    };
    (0..=row.len()).filter(passes).collect()
}

#[test]
fn every_beginning_of_some_rows() {
    for (config, top) in [(7, 12), (10, 64), (13, 384)] {
        passing(config, []);
        passing(config, [0]);
        passing(config, 1..top);
        passing(config, 0..top);
        passing(config, 1..top + 1);
        passing(config, 0..top + 300);
        passing(config, (0..3 * top).map(|i| i * 21));
    }
}

#[test]
fn in_configuration_7_every_even_length_below_24() {
    let mut lengths: Vec<usize> = (0..24).step_by(2).collect();
    lengths.push(33);
    assert_eq!(passing(7, 1..13), lengths);
}

#[test]
fn in_10_and_13_every_multiple_of_4_with_24_among_them() {
    for (config, buckets, whole) in [(10, 1..65, 256), (13, 1..385, 1536)] {
        let mut lengths: Vec<usize> = (0..whole).step_by(4).collect();
        assert!(lengths.contains(&24));
        lengths.push(whole + 9);
        assert_eq!(passing(config, buckets), lengths);
    }
}
