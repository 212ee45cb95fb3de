//! Our archive and a mirror keep a row of the same table: how far do the two agree, and whose row
//! is the greater? Writes what bindings/mirror.stdout holds.

use std::cmp::Ordering;

use zamgulekt::{cmp_rows, greater_row, open, Filter, Refusal, RowReader};

const CONFIG: u64 = 7;

fn filter_of(name: &str, list: &[u32]) -> Result<Filter, Refusal> {
    let mut filter = Filter::empty(CONFIG)?;
    filter.toggle(list)?;
    let length = filter.to_row().len();
    println!("{name}: {filter}, row of {length} bytes");
    Ok(filter)
}

/// Under mask 1 of size 1, which keeps every bucket.
fn compare(ours: &[u8], mirror: &[u8]) -> Result<(), Refusal> {
    let order = match cmp_rows(CONFIG, 1, 1, ours, mirror)? {
        Ordering::Less => "less",
        Ordering::Equal => "equal",
        Ordering::Greater => "greater",
    };
    println!("order: {order}");
    let greater = greater_row(CONFIG, 1, 1, ours, mirror)?;
    print!("buckets of the greater:");
    for bucket in RowReader::new(CONFIG, greater) {
        print!(" {}", bucket?);
    }
    println!();
    Ok(())
}

fn main() -> Result<(), Refusal> {
    let ours = filter_of("ours", &[12, 11, 10, 9, 8, 7, 6, 5, 4, 3, 2, 1])?;
    let mirror = filter_of("mirror", &[13, 12, 11, 10, 9, 8, 7, 6, 5, 4, 3, 2, 1])?;
    println!("difference: {}", ours.exact_difference(&mirror)?);
    compare(&ours.to_row(), &mirror.to_row())?;

    match open(CONFIG, &mirror.to_row()[..24]) {
        Ok(count) => println!("cut at 24 bytes: {count} buckets"),
        Err(refusal) => println!("cut at 24 bytes: refused {}", refusal.number),
    }
    Ok(())
}
