//! Things that are wholly garbage: numbers of any magnitude, slices of any length, with noise or zeros in them.

use super::arguments::{Arguments, Thing};
use super::lent::Kind;
use super::numbers::any_number;
use super::sizes::{sizes_of, Sizes};
use crate::random::Random;

/// A configuration: mostly the one with the small areas.
pub fn known(random: &mut Random) -> u64 {
    *random.one_of(&[7, 7, 7, 7, 7, 10, 10, 10, 13, 13])
}

/// A number that is no configuration, near one more often than not.
pub fn unknown(random: &mut Random) -> u64 {
    let near = [0, 6, 8, 9, 11, 12, 14, 7 + (1 << 8), 10 + (1 << 16), 13 + (1 << 32), 7 + (1 << 63)];
    let number = if random.once_in(2) { *random.one_of(&near) } else { any_number(64, random) };
    match sizes_of(number) {
        Some(_) => u64::MAX,
        None => number,
    }
}

fn config(random: &mut Random) -> u64 {
    if random.once_in(4) {
        unknown(random)
    } else {
        known(random)
    }
}

pub fn lend(a: &mut Arguments, thing: Thing, random: &mut Random) {
    let sizes = sizes_of(known(random)).unwrap();
    match thing {
        Thing::Config => a.numbers.push(config(random)),
        Thing::Split | Thing::Number => a.numbers.push(any_number(64, random)),
        Thing::Mask => {
            let size = if random.once_in(2) { random.number(66) } else { any_number(64, random) };
            a.numbers.extend([any_number(64, random), size]);
        }
        Thing::Filter | Thing::FilterRoom => lend_areas(a, Kind::Top, &sizes, random),
        Thing::Builder | Thing::BuilderRoom => lend_areas(a, Kind::Pending, &sizes, random),
        Thing::Reader => {
            let cells = [config(random), any_number(64, random)];
            a.lent.lend_record(&cells, random);
        }
        Thing::List => lend_any(a, Kind::List, 40, random),
        Thing::Row | Thing::Buffer => {
            let most = *random.one_of(&[40, 1_000, sizes.longest + 9]);
            lend_any(a, Kind::Bytes, most, random);
        }
        Thing::Text => {
            let most = if random.once_in(50) { 40_010 } else { 200 };
            lend_any(a, Kind::Bytes, most, random);
        }
        Thing::Cells(n) => a.lent.lend_noise(Kind::Record, n, random),
    }
}

/// Any record, with two slices about as long as the areas of a configuration.
fn lend_areas(a: &mut Arguments, first: Kind, sizes: &Sizes, random: &mut Random) {
    let record = [config(random), any_number(64, random), any_number(64, random)];
    a.lent.lend_record(&record, random);
    for kind in [first, Kind::Blocks] {
        lend_any(a, kind, sizes.area(kind) + 3, random);
    }
}

/// A slice of at most so many cells.
fn lend_any(a: &mut Arguments, kind: Kind, most: usize, random: &mut Random) {
    let len = if random.once_in(2) { most } else { random.number(most as u64 + 1) as usize };
    if random.once_in(2) {
        a.lent.lend_noise(kind, len, random);
    } else {
        a.lent.lend_zeros(kind, len, random);
    }
    if random.once_in(8) {
        a.lent.empty(a.lent.slices.len() - 1, random);
    }
}
