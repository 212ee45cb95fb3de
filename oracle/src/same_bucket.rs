//! How often two scores fall into the same bucket, by the Rust's own step from hash to bucket; and two tables
//! of scores that differ and have the same row. It writes the same at every run.

use geo_filters::held::{GeoDiffConfig7, GeoDiffCount};
use geo_filters::probe::bucket_step;
use geo_filters::Count;
use std::collections::HashMap;

const HASHES: u128 = 1 << 64;

fn main() {
    println!("How often two scores fall into the same bucket, if their hashes are random and independent:");
    for config in [7, 10, 13] {
        let once_in = once_in(&counts(bucket_step(config)));
        println!("{config}: once in {once_in} (by the formula {:.2})", formula(config));
    }
    print_example();
}

/// How many of the 2^64 hashes fall into each bucket, from the last bucket down; buckets with none are left out.
/// The bucket falls as the hash rises, so the hashes of a bucket are neighbours.
fn counts(bucket_of: impl Fn(u64) -> u32) -> Vec<u128> {
    let (mut counts, mut first) = (vec![], 0);
    while first < HASHES {
        let bucket = bucket_of(first as u64);
        let end = end(first, |hash| bucket_of(hash) == bucket);
        assert!(end == HASHES || bucket_of(end as u64) < bucket, "the bucket does not fall at hash {end}");
        counts.push(end - first);
        first = end;
    }
    assert_eq!(counts.iter().sum::<u128>(), HASHES, "the counts do not add up");
    counts
}

/// The first hash after `first` that is not in its bucket, by bisection; 2^64 if there is none.
fn end(first: u128, in_bucket: impl Fn(u64) -> bool) -> u128 {
    let (mut inside, mut end) = (first, HASHES);
    while end - inside > 1 {
        let middle = (inside + end) / 2;
        match in_bucket(middle as u64) {
            true => inside = middle,
            false => end = middle,
        }
    }
    end
}

/// The chance is the sum of the squared shares, which is the sum of the squared counts over 2^128. This is one
/// over the chance, to the nearest whole number, with no other rounding. 2^128 is one more than u128 holds.
fn once_in(counts: &[u128]) -> u128 {
    let squares: u128 = counts.iter().map(|count| count * count).sum();
    let (whole, rest) = (u128::MAX / squares, u128::MAX % squares + 1);
    whole + (2 * rest >= squares) as u128
}

/// The same for shares of (1 - phi) phi^i, i from 0 without end: their squares add up to (1 - phi) / (1 + phi).
fn formula(config: u32) -> f64 {
    let phi = 0.5f64.powf(0.5f64.powi(config as i32));
    (1.0 + phi) / (1.0 - phi)
}

fn print_example() {
    let step = bucket_step(7);
    let bucket_of = |score| step(hash(score));
    let (one, other) = first_pair(bucket_of);
    let rest: Vec<u64> = scores().filter(|&score| score != one && score != other).take(2).collect();
    let tables = [one, other].map(|last| [rest[0], rest[1], last]);
    assert_eq!(row(&tables[0]), row(&tables[1]), "the rows differ");
    println!("Two tables in configuration 7 that differ in one score. Splitmix64 stands in for the archive's hash:");
    for table in tables {
        let scores = table.map(|score| score.to_string()).join(" ");
        let buckets = table.map(|score| bucket_of(score).to_string()).join(" ");
        println!("scores {scores}: buckets {buckets}, row {}", row(&table));
    }
}

fn scores() -> impl Iterator<Item = u64> {
    (10..).step_by(10)
}

/// Splitmix64.
fn hash(score: u64) -> u64 {
    let z = score.wrapping_add(0x9e37_79b9_7f4a_7c15);
    let z = (z ^ z >> 30).wrapping_mul(0xbf58_476d_1ce4_e5b9);
    let z = (z ^ z >> 27).wrapping_mul(0x94d0_49bb_1331_11eb);
    z ^ z >> 31
}

/// The first score that falls into the bucket of an earlier one, after that one.
fn first_pair(bucket_of: impl Fn(u64) -> u32) -> (u64, u64) {
    let mut by_bucket = HashMap::new();
    let pair = |score| Some((by_bucket.insert(bucket_of(score), score)?, score));
    scores().find_map(pair).expect("there are more scores than buckets")
}

/// The row of a table, by the Rust: `push_hash` for each score, then `write`.
fn row(table: &[u64]) -> String {
    let (mut filter, mut row) = (GeoDiffCount::<GeoDiffConfig7>::default(), vec![]);
    table.iter().for_each(|&score| filter.push_hash(hash(score)));
    filter.write(&mut row).expect("the row is written");
    row.iter().map(|byte| format!("{byte:02x}")).collect()
}
