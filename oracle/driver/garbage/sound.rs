//! Sound things. Filters, builders, rows and texts are made once, from 01's definitions, and lent from there.

use super::arguments::{Arguments, Thing};
use super::lent::{bytes_of, Kind};
use super::sizes::{sizes_of, Sizes};
use crate::random::Random;
use std::collections::BTreeSet;
use std::fmt::Write;

type Set = BTreeSet<u64>;

/// The bytes of a record and its two areas.
type Parts = [Vec<u8>; 3];

struct Pool {
    sizes: Sizes,
    filters: Vec<Parts>,
    builders: Vec<Parts>,
    rows: Vec<Vec<u8>>,
}

pub struct Sound {
    pools: [(u64, Pool); 3],
    texts: Vec<Vec<u8>>,
}

impl Sound {
    pub fn new(random: &mut Random) -> Self {
        let pools = [7, 10, 13].map(|config| (config, Pool::new(config, random)));
        let mut texts = REFUSED.map(|text| text.as_bytes().to_vec()).to_vec();
        for (config, pool) in &pools[..2] {
            texts.extend(pool.rows.windows(2).map(|rows| text(*config, &rows[0], &rows[1], random)));
        }
        Sound { pools, texts }
    }

    /// Lends a sound thing. All but texts are of the configuration; a buffer is as long as it must be, or longer.
    pub fn lend(&self, a: &mut Arguments, thing: Thing, config: u64, random: &mut Random) {
        let (_, pool) = self.pools.iter().find(|(own, _)| *own == config).unwrap();
        let sizes = &pool.sizes;
        match thing {
            Thing::Config => a.numbers.push(config),
            Thing::Split => a.numbers.push(below(sizes.buckets + 1, random)),
            Thing::Mask => a.numbers.extend(mask(random)),
            Thing::Number => a.numbers.push(random.number(60)),
            Thing::Filter => lend_parts(a, Kind::Top, random.one_of(&pool.filters), random),
            Thing::Builder => lend_parts(a, Kind::Pending, random.one_of(&pool.builders), random),
            Thing::FilterRoom => lend_room(a, Kind::Top, sizes, random),
            Thing::BuilderRoom => lend_room(a, Kind::Pending, sizes, random),
            Thing::List => {
                let list: Vec<u64> = (0..=random.number(20)).map(|_| below(sizes.buckets, random)).collect();
                a.lent.lend(Kind::List, &bytes_of(&list, 4), random);
            }
            Thing::Row => a.lent.lend(Kind::Bytes, random.one_of::<Vec<u8>>(&pool.rows), random),
            Thing::Reader => {
                let place = random.number(60);
                a.lent.lend_record(&[config, place], random);
            }
            Thing::Text => a.lent.lend(Kind::Bytes, random.one_of::<Vec<u8>>(&self.texts), random),
            Thing::Buffer => {
                a.measure();
                let len = a.needed + *random.one_of(&[0, 0, 1, 8, 300]);
                a.lent.lend_noise(Kind::Bytes, len, random);
            }
            Thing::Cells(n) => a.lent.lend_noise(Kind::Record, n, random),
        }
    }
}

/// A number below `end`, the edges more often than others.
fn below(end: u64, random: &mut Random) -> u64 {
    let some = random.number(end);
    *random.one_of(&[0, some, some, some, some, some, some, end - 1])
}

fn mask(random: &mut Random) -> [u64; 2] {
    let size = 1 + random.number(63);
    [random.number(1 << size), size]
}

fn lend_parts(a: &mut Arguments, first: Kind, parts: &Parts, random: &mut Random) {
    for (kind, part) in [Kind::Record, first, Kind::Blocks].into_iter().zip(parts) {
        a.lent.lend(kind, part, random);
    }
}

fn lend_room(a: &mut Arguments, first: Kind, sizes: &Sizes, random: &mut Random) {
    a.lent.lend_noise(Kind::Record, 3, random);
    for kind in [first, Kind::Blocks] {
        a.lent.lend_noise(kind, sizes.area(kind), random);
    }
}

impl Pool {
    fn new(config: u64, random: &mut Random) -> Self {
        let sizes = sizes_of(config).unwrap();
        let sets = sets(&sizes, random);
        let filters: Vec<Parts> = sets.iter().map(|set| filter(config, set)).collect();
        let rows = sets.iter().map(|set| row(set, &sizes)).collect();
        let builders = sets.iter().map(|set| builder(config, set, random)).collect();
        Pool { sizes, filters, builders, rows }
    }
}

/// Sets around the edges of the top list and of a block, sparse and dense ones, and ones with the longest row.
fn sets(sizes: &Sizes, random: &mut Random) -> Vec<Set> {
    let (m, w) = (sizes.top as u64, sizes.buckets);
    let mut sets: Vec<Set> =
        [(1, m + 5), (5, 40), (m - 1, w), (m, w), (m + 1, w), (2 * m, 4 * m), (300, w / 2)]
            .map(|(size, end)| (0..size).map(|_| random.number(end)).collect())
            .into();
    sets.extend([Set::new(), (100..105 + m).collect()]);
    sets.extend([0, 1, 63, 64, 65, w - m].map(|low| (low..low + m).collect()));
    sets.push((0..w).step_by(3).collect());
    sets.push((w - m..w).chain((0..200).map(|_| random.number(w))).collect());
    sets
}

/// The boundary of a set.
fn boundary(set: &Set, sizes: &Sizes) -> u64 {
    set.iter().rev().nth(sizes.top - 1).map_or(0, |&p| p)
}

/// W/64 blocks with the buckets of a set that are below `end`.
fn blocks(set: &Set, end: u64, sizes: &Sizes) -> Vec<u8> {
    let mut blocks = vec![0; sizes.buckets as usize / 8];
    for &p in set.range(..end) {
        blocks[p as usize / 8] |= 1 << (p % 8);
    }
    blocks
}

fn filter(config: u64, set: &Set) -> Parts {
    let sizes = sizes_of(config).unwrap();
    let mut top: Vec<u64> = set.iter().rev().take(sizes.top).copied().collect();
    let count = top.len() as u64;
    top.resize(sizes.top, 0);
    let boundary = boundary(set, &sizes);
    [bytes_of(&[config, count, boundary], 8), bytes_of(&top, 4), blocks(set, boundary, &sizes)]
}

fn row(set: &Set, sizes: &Sizes) -> Vec<u8> {
    let top: Vec<u64> = set.iter().rev().take(sizes.top).copied().collect();
    let boundary = boundary(set, sizes);
    let mut row = bytes_of(&top, sizes.entry);
    if boundary > 0 {
        row.push(63 - ((boundary - 1) % 64) as u8);
        row.extend(&blocks(set, boundary, sizes)[..8 * boundary.div_ceil(64) as usize]);
    }
    row
}

/// A builder with any split, the set's buckets below it for bits, and any buckets pending.
fn builder(config: u64, set: &Set, random: &mut Random) -> Parts {
    let sizes = sizes_of(config).unwrap();
    let full = 2 * sizes.top as u64;
    let some = random.number(sizes.buckets);
    let split = *random.one_of(&[0, 64, 1 << config, some, sizes.buckets]);
    let count = *random.one_of(&[0, 1, some % full, full - 3, full]);
    let mut pending: Vec<u64> = (0..count).map(|_| below(sizes.buckets, random)).collect();
    pending.resize(full as usize, 0);
    [bytes_of(&[config, split, count], 8), bytes_of(&pending, 4), blocks(set, split, &sizes)]
}

/// Inputs that the comparing program refuses, at each line and behind them.
const REFUSED: [&str; 6] = [
    "config 13\n",
    "config\nmask 1 64\n",
    "config\nmask 8 3\n",
    "config\nmask 1 1\n05\n",
    "config\nmask 1 1\n\n05\n",
    "config\nmask 1 1\n\n\n\n",
];

/// An input of the comparing program with two rows.
fn text(config: u64, first: &[u8], second: &[u8], random: &mut Random) -> Vec<u8> {
    let [mask, size] = mask(random);
    format!("config {config}\nmask {mask} {size}\n{}\n{}\n", hex(first), hex(second)).into_bytes()
}

fn hex(row: &[u8]) -> String {
    row.iter().fold(String::new(), |mut line, byte| {
        write!(line, "{byte:02x}").unwrap();
        line
    })
}
