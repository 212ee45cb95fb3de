//! The number with which 01 refuses what a call is given; written from 01's table and its order, for anything given.

use super::arguments::{Arguments, Given, Thing};
use super::calls::BUFFER;
use super::sizes::{sizes_of, Sizes};

/// The configuration numbers that are judged, in the order of the parameters.
fn configs(a: &Arguments) -> impl Iterator<Item = u64> + '_ {
    a.given.iter().filter_map(|given| match given.thing {
        Thing::Config => Some(a.numbers[given.number]),
        Thing::Filter | Thing::Builder | Thing::Reader => Some(a.lent.get(given.slice, 0)),
        _ => None,
    })
}

/// The sizes by which a call goes: those of the first configuration number.
pub fn sizes(a: &Arguments) -> Option<Sizes> {
    configs(a).next().and_then(sizes_of)
}

/// The number that a call must answer: 0 where nothing is refused, `BUFFER` for 3 where it is for the buffer.
pub fn judged(a: &Arguments) -> u8 {
    if configs(a).any(|config| sizes_of(config).is_none()) {
        return 1;
    }
    let refused = sizes(a).map_or(0, |sizes| first_fault(a, &sizes));
    let short = |g: &Given| g.thing == Thing::Buffer && a.lent.slices[g.slice].len < a.needed;
    match refused {
        0 if a.given.iter().any(short) => BUFFER,
        _ => refused,
    }
}

/// 01's order, between 1 and 3 for the buffer.
const ORDER: [u8; 8] = [3, 8, 9, 6, 7, 4, 2, 5];

/// Of two rows the second counts only where the first passes.
fn first_fault(a: &Arguments, sizes: &Sizes) -> u8 {
    let mut first = ORDER.len();
    let mut row_refused = false;
    for &given in &a.given {
        if given.thing == Thing::Row && row_refused {
            continue;
        }
        let number = fault(a, given, sizes);
        row_refused |= given.thing == Thing::Row && number != 0;
        first = ORDER.iter().position(|&n| n == number).map_or(first, |place| place.min(first));
    }
    ORDER.get(first).map_or(0, |&number| number)
}

/// The first number that one thing is refused with.
fn fault(a: &Arguments, Given { thing, number, slice }: Given, sizes: &Sizes) -> u8 {
    match thing {
        Thing::Filter => filter(a, slice, configs(a).next()),
        Thing::Builder => builder(a, slice, sizes),
        Thing::FilterRoom | Thing::BuilderRoom => refused(short(a, slice, sizes), 3),
        Thing::Mask => mask(a.numbers[number], a.numbers[number + 1]),
        Thing::Row => row(a.lent.bytes(slice), sizes),
        Thing::Split => refused(a.numbers[number] > sizes.buckets, 2),
        Thing::List => refused(cells(a.lent.bytes(slice), 4).any(|p| p >= sizes.buckets), 2),
        _ => 0,
    }
}

fn refused(is: bool, number: u8) -> u8 {
    if is {
        number
    } else {
        0
    }
}

/// The numbers that stand in bytes, the lowest byte first.
fn cells(bytes: &[u8], width: usize) -> impl Iterator<Item = u64> + '_ {
    bytes.chunks_exact(width).map(move |cell| {
        let mut wide = [0; 8];
        wide[..width].copy_from_slice(cell);
        u64::from_le_bytes(wide)
    })
}

/// Whether one of the two slices behind a record is shorter than its area.
fn short(a: &Arguments, record: usize, sizes: &Sizes) -> bool {
    a.lent.slices[record + 1..record + 3].iter().any(|slice| slice.len < sizes.area(slice.kind))
}

/// Whether a bucket from `from` on has its bit set.
fn bits_from(blocks: &[u8], from: u64) -> bool {
    let mut rest =
        blocks.chunks_exact(8).skip(from as usize / 64).map(|b| u64::from_le_bytes(b.try_into().unwrap()));
    rest.next().is_some_and(|block| block >> (from % 64) != 0) || rest.any(|block| block != 0)
}

/// 3, 8, and 9 where it is not of the first filter's configuration.
fn filter(a: &Arguments, slice: usize, config: Option<u64>) -> u8 {
    let own = a.lent.get(slice, 0);
    let sizes = sizes_of(own).unwrap();
    if short(a, slice, &sizes) {
        return 3;
    }
    let count = a.lent.get(slice, 1);
    let boundary = a.lent.get(slice, 2);
    let top: Vec<u64> = cells(&a.lent.bytes(slice + 1)[..4 * sizes.top], 4).collect();
    let blocks = &a.lent.bytes(slice + 2)[..sizes.buckets as usize / 8];
    if !is_a_sets(count, boundary, &top, blocks, &sizes) {
        return 8;
    }
    refused(config != Some(own), 9)
}

/// Whether record and areas are some set's filter.
fn is_a_sets(count: u64, boundary: u64, top: &[u64], blocks: &[u8], sizes: &Sizes) -> bool {
    if count > sizes.top as u64 {
        return false;
    }
    let (entries, unused) = top.split_at(count as usize);
    let falls = entries.windows(2).all(|pair| pair[0] > pair[1]);
    let lowest = if unused.is_empty() { entries[sizes.top - 1] } else { 0 };
    falls
        && entries.iter().all(|&p| p < sizes.buckets)
        && unused.iter().all(|&cell| cell == 0)
        && boundary == lowest
        && !bits_from(blocks, boundary)
}

/// 3 and 8.
fn builder(a: &Arguments, slice: usize, sizes: &Sizes) -> u8 {
    if short(a, slice, sizes) {
        return 3;
    }
    let split = a.lent.get(slice, 1);
    let count = a.lent.get(slice, 2);
    if split > sizes.buckets || count > 2 * sizes.top as u64 {
        return 8;
    }
    let (pending, unused) = a.lent.bytes(slice + 1)[..8 * sizes.top].split_at(4 * count as usize);
    let blocks = &a.lent.bytes(slice + 2)[..sizes.buckets as usize / 8];
    let sound = cells(pending, 4).all(|p| p < sizes.buckets)
        && unused.iter().all(|&byte| byte == 0)
        && !bits_from(blocks, split);
    refused(!sound, 8)
}

fn mask(mask: u64, size: u64) -> u8 {
    match size {
        1..=63 => refused(mask >> size != 0, 7),
        _ => 6,
    }
}

fn row(row: &[u8], sizes: &Sizes) -> u8 {
    let full = sizes.top * sizes.entry;
    let fits = match row.len() {
        short if short <= full => short % sizes.entry == 0,
        long => long <= sizes.longest && long >= full + 9 && (long - full - 1) % 8 == 0,
    };
    if !fits {
        return 4;
    }
    let (entries, bits) = row.split_at(row.len().min(full));
    let top: Vec<u64> = cells(entries, sizes.entry).collect();
    if top.iter().any(|&p| p >= sizes.buckets) {
        return 2;
    }
    refused(!is_a_row(&top, bits, sizes), 5)
}

/// Whether a set has the row of these entries and these bytes behind them.
fn is_a_row(top: &[u64], bits: &[u8], sizes: &Sizes) -> bool {
    let boundary = if top.len() == sizes.top { top[sizes.top - 1] } else { 0 };
    let falls = top.windows(2).all(|pair| pair[0] > pair[1]);
    let length = sizes.row_length(top.len(), boundary) - sizes.row_length(top.len(), 0);
    falls
        && bits.len() == length
        && (boundary == 0 || bits[0] as u64 == 63 - (boundary - 1) % 64 && !bits_from(&bits[1..], boundary))
}
