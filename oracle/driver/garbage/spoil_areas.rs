//! Ways to spoil a configuration number, a record or one of its areas.

use super::arguments::{Arguments, Given, Thing};
use super::calls::{Allowed, BUFFER};
use super::numbers::{any_number, at_least};
use super::sizes::{sizes_of, Sizes};
use super::wild::{known, unknown};
use crate::random::Random;

/// No configuration, or another one; then what is lent may be too short, refused as it is, or sound.
fn other_config(config: u64, random: &mut Random) -> (u64, Allowed) {
    let other = known(random);
    if other == config || random.once_in(2) {
        return (unknown(random), Some(&[1]));
    }
    (other, Some(&[0, 3, 8, 9, 4, 2, 5, BUFFER]))
}

pub fn config(a: &mut Arguments, given: Given, random: &mut Random) -> Allowed {
    let (other, allowed) = other_config(a.numbers[given.number], random);
    a.numbers[given.number] = other;
    allowed
}

pub fn config_cell(a: &mut Arguments, given: Given, random: &mut Random) -> Allowed {
    let (other, allowed) = other_config(a.lent.get(given.slice, 0), random);
    a.lent.put(given.slice, 0, other);
    allowed
}

pub fn place(a: &mut Arguments, given: Given, random: &mut Random) -> Allowed {
    a.lent.put(given.slice, 1, any_number(64, random));
    Some(&[0])
}

fn own_sizes(a: &Arguments, given: Given) -> Option<Sizes> {
    sizes_of(a.lent.get(given.slice, 0))
}

/// The cell of a record that tells how many entries of its first area are used.
fn count_cell(given: Given) -> usize {
    if given.thing == Thing::Filter {
        1
    } else {
        2
    }
}

/// How many entries of the first area are used, and how many cells it has.
fn used(a: &Arguments, given: Given) -> Option<(u64, u64)> {
    let area = own_sizes(a, given)?.area(a.lent.slices[given.slice + 1].kind);
    Some((a.lent.get(given.slice, count_cell(given)), area as u64))
}

/// One entry fewer where that leaves a cell that is not 0; or more than there is room for.
pub fn count(a: &mut Arguments, given: Given, random: &mut Random) -> Allowed {
    let (count, area) = used(a, given)?;
    let above = [count + (1 << 32), at_least(area + 1, 64, random)];
    let fewer = count > 0 && a.lent.get(given.slice + 1, count as usize - 1) != 0 && random.once_in(2);
    let other = if fewer { count - 1 } else { *random.one_of(&above) };
    a.lent.put(given.slice, count_cell(given), other);
    Some(&[8])
}

pub fn boundary(a: &mut Arguments, given: Given, random: &mut Random) -> Allowed {
    let boundary = a.lent.get(given.slice, 2);
    let bit = 1 << random.number(64);
    let other = *random.one_of(&[boundary + 1, boundary.wrapping_sub(1), boundary ^ bit]);
    a.lent.put(given.slice, 2, other);
    Some(&[8])
}

/// An entry is that before it, or above it.
pub fn not_falling(a: &mut Arguments, given: Given, random: &mut Random) -> Allowed {
    let (count, _) = used(a, given).filter(|&(count, _)| count > 1)?;
    let i = 1 + random.number(count - 1) as usize;
    let entry = a.lent.get(given.slice + 1, i - 1) + random.number(3);
    a.lent.put(given.slice + 1, i, entry);
    Some(&[8])
}

pub fn entry_above(a: &mut Arguments, given: Given, random: &mut Random) -> Allowed {
    let (count, _) = used(a, given).filter(|&(count, _)| count > 0)?;
    let i = random.number(count) as usize;
    let entry = at_least(own_sizes(a, given)?.buckets, 32, random);
    a.lent.put(given.slice + 1, i, entry);
    Some(&[8])
}

pub fn unused(a: &mut Arguments, given: Given, random: &mut Random) -> Allowed {
    let (count, area) = used(a, given).filter(|(count, area)| count < area)?;
    let i = count + random.number(area - count);
    let cell = at_least(1, 32, random);
    a.lent.put(given.slice + 1, i as usize, cell);
    Some(&[8])
}

/// A bit at or above the boundary, or the split.
pub fn bit_above(a: &mut Arguments, given: Given, random: &mut Random) -> Allowed {
    let end = own_sizes(a, given)?.buckets;
    let from = a.lent.get(given.slice, if given.thing == Thing::Filter { 2 } else { 1 });
    if from == end {
        return None;
    }
    let some = from + random.number(end - from);
    let p = *random.one_of(&[from, some, end - 1]);
    let block = a.lent.get(given.slice + 2, p as usize / 64);
    a.lent.put(given.slice + 2, p as usize / 64, block | 1 << (p % 64));
    Some(&[8])
}

pub fn split_above(a: &mut Arguments, given: Given, random: &mut Random) -> Allowed {
    let split = at_least(own_sizes(a, given)?.buckets + 1, 64, random);
    a.lent.put(given.slice, 1, split);
    Some(&[8])
}

/// The split comes down onto the highest bit, or below it.
pub fn split_lowered(a: &mut Arguments, given: Given, random: &mut Random) -> Allowed {
    let blocks = own_sizes(a, given)?.buckets as usize / 64;
    let block = (0..blocks).rev().find(|&i| a.lent.get(given.slice + 2, i) != 0)?;
    let highest = 64 * block as u64 + 63 - a.lent.get(given.slice + 2, block).leading_zeros() as u64;
    let below = random.number(highest + 1);
    let split = *random.one_of(&[highest, below]);
    a.lent.put(given.slice, 1, split);
    Some(&[8])
}

/// One of the two slices behind a record.
fn one_slice(given: Given, random: &mut Random) -> usize {
    given.slice + 1 + random.number(2) as usize
}

pub fn shorter(a: &mut Arguments, given: Given, random: &mut Random) -> Allowed {
    a.lent.shorten(one_slice(given, random), random);
    Some(&[3])
}

pub fn longer(a: &mut Arguments, given: Given, random: &mut Random) -> Allowed {
    a.lent.lengthen(one_slice(given, random), random);
    Some(&[0])
}
