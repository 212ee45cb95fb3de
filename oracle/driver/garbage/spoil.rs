//! Ways to spoil one sound thing. Each tells the numbers that 01 allows the call then, all else being sound. Where a
//! thing cannot be spoiled so, it stays as it is and nothing is told.

use super::arguments::{Arguments, Given, Thing};
use super::calls::{Allowed, BUFFER};
use super::judge::sizes;
use super::numbers::{any_number, at_least};
use super::spoil_areas::*;
use super::spoil_row::*;
use crate::random::Random;

type Way = fn(&mut Arguments, Given, &mut Random) -> Allowed;

/// Spoils a thing in any of its ways.
pub fn spoil(a: &mut Arguments, given: Given, random: &mut Random) -> Allowed {
    let ways: &[Way] = match given.thing {
        Thing::Config => &[config],
        Thing::Split => &[split],
        Thing::Mask => &[mask_size, mask_bit],
        Thing::Number => &[number],
        Thing::Filter => {
            &[config_cell, count, boundary, not_falling, entry_above, unused, bit_above, shorter, longer]
        }
        Thing::Builder => {
            &[config_cell, count, split_above, split_lowered, entry_above, unused, bit_above, shorter, longer]
        }
        Thing::FilterRoom | Thing::BuilderRoom => &[shorter, longer],
        Thing::List => &[bucket_above, emptied],
        Thing::Row => &[
            one_byte,
            fewer_blocks,
            more_blocks,
            row_entry_above,
            row_not_falling,
            spare_byte,
            row_bit_above,
            any_byte,
            cut,
            emptied,
        ],
        Thing::Reader => &[config_cell, place],
        Thing::Text => &[text],
        Thing::Buffer => &[buffer_shorter, buffer_longer],
        Thing::Cells(_) => return None,
    };
    random.one_of(ways)(a, given, random)
}

fn split(a: &mut Arguments, given: Given, random: &mut Random) -> Allowed {
    a.numbers[given.number] = at_least(sizes(a)?.buckets + 1, 64, random);
    Some(&[2])
}

fn mask_size(a: &mut Arguments, given: Given, random: &mut Random) -> Allowed {
    let size = &mut a.numbers[given.number + 1];
    let above = at_least(64, 64, random);
    *size = *random.one_of(&[0, *size + (1 << 8), *size + (1 << 32), above]);
    Some(&[6])
}

fn mask_bit(a: &mut Arguments, given: Given, random: &mut Random) -> Allowed {
    let size = a.numbers[given.number + 1];
    a.numbers[given.number] |= 1 << (size + random.number(64 - size));
    Some(&[7])
}

fn number(a: &mut Arguments, given: Given, random: &mut Random) -> Allowed {
    a.numbers[given.number] = any_number(64, random);
    Some(&[0])
}

fn bucket_above(a: &mut Arguments, given: Given, random: &mut Random) -> Allowed {
    let bucket = at_least(sizes(a)?.buckets, 32, random);
    let i = random.number(a.lent.slices[given.slice].len as u64) as usize;
    a.lent.put(given.slice, i, bucket);
    Some(&[2])
}

/// The empty list, or the empty row.
fn emptied(a: &mut Arguments, given: Given, random: &mut Random) -> Allowed {
    a.lent.empty(given.slice, random);
    Some(&[0])
}

/// A byte is another, or some are cut off, or some more are lent. What the program answers then is not known here.
fn text(a: &mut Arguments, given: Given, random: &mut Random) -> Allowed {
    let len = a.lent.slices[given.slice].len as u64;
    match random.number(4) {
        0 => a.lent.put(given.slice, random.number(len) as usize, any_number(8, random)),
        1 => a.lent.slices[given.slice].len = random.number(len) as usize,
        2 => a.lent.lengthen(given.slice, random),
        _ => a.lent.empty(given.slice, random),
    }
    Some(&[0, BUFFER])
}

fn buffer_shorter(a: &mut Arguments, given: Given, random: &mut Random) -> Allowed {
    if a.needed == 0 {
        return None;
    }
    a.lent.slices[given.slice].len = a.needed;
    a.lent.shorten(given.slice, random);
    Some(&[BUFFER])
}

fn buffer_longer(a: &mut Arguments, given: Given, random: &mut Random) -> Allowed {
    a.lent.lengthen(given.slice, random);
    Some(&[0])
}
