//! Many buckets that come in pieces: a builder for each of three tables, and then the tables in
//! order. Writes what bindings/many.stdout holds.

use zamgulekt::{Builder, Filter, Refusal};

const CONFIG: u64 = 13;

/// The bucket of a score: its level is geometric, so half of all scores fall into the lowest, a
/// quarter into the next, and so on.
fn bucket(table: u64, score: u64) -> u32 {
    let mut hash = (table << 32 | score).wrapping_mul(0x9e37_79b9_7f4a_7c15);
    hash = (hash ^ hash >> 29).wrapping_mul(0xbf58_476d_1ce4_e5b9);
    let level = (hash ^ hash >> 32).trailing_zeros();
    level << CONFIG | (hash >> (64 - CONFIG)) as u32
}

/// The filter of so many scores of a table, taken a thousand at a time.
fn filter_of(table: u64, scores: u64) -> Result<Filter, Refusal> {
    let mut builder = Builder::new(CONFIG, 0)?;
    let buckets: Vec<u32> = (0..scores).map(|score| bucket(table, score)).collect();
    for piece in buckets.chunks(1000) {
        builder.push(piece)?;
    }
    Ok(builder.finish())
}

fn main() -> Result<(), Refusal> {
    let mut filters = vec![
        filter_of(1, 100_000)?,
        filter_of(2, 10_000)?,
        filter_of(3, 1_000)?,
    ];
    filters.sort_by(|a, b| {
        a.cmp_masked(b, 1, 1)
            .expect("one configuration, and a mask that is taken")
    });
    for filter in filters {
        let limited = filter.limited_count();
        println!("{filter}, row of {} bytes", filter.to_row().len());
        println!("  {} at or above {}", limited.count, limited.bound);
        println!("  key {:016x}", filter.masked_sort_key(1, 1)?);
    }
    Ok(())
}
