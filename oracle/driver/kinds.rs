//! The kinds of rows that we refuse, and what the Rust does with each.
//!
//! A kind is a fault, in the order in which 01 and docs/DECISIONS.md judge a row; a row is of the kind
//! of its first. Whatever its faults, the Rust reads a row unless its length or its spare byte forbids
//! it, writes the same bytes back, and counts its entries and bits. A row with one fault alone is asked
//! more: see `QUESTIONS`.

use crate::ours::Sizes;

/// A row taken apart, whether a set has it or not.
pub struct Shown<'a> {
    pub sizes: &'a Sizes,
    pub row: &'a [u8],
    /// The first M entries, or all if fewer.
    pub entries: Vec<u32>,
    spare: Option<u8>,
    blocks: Vec<u64>,
    /// The length is that of whole entries, or of M entries, a byte, and one block or more.
    whole: bool,
    /// The last entry of a full list, otherwise 0.
    pub boundary: usize,
}

impl<'a> Shown<'a> {
    pub fn new(sizes: &'a Sizes, row: &'a [u8]) -> Self {
        let (top, bits) = row.split_at(row.len().min(sizes.top * sizes.entry_bytes));
        let number = |bytes: &[u8]| bytes.iter().rev().fold(0, |value, &byte| value << 8 | byte as u64);
        let entries = top.chunks_exact(sizes.entry_bytes).map(|entry| number(entry) as u32);
        let entries: Vec<u32> = entries.collect();
        let blocks = bits.get(1..).unwrap_or_default().chunks_exact(8).map(number).collect();
        let whole_bits = bits.is_empty() || bits.len() > 1 && bits.len() % 8 == 1;
        let whole = top.len() % sizes.entry_bytes == 0 && whole_bits;
        let boundary = entries.get(sizes.top - 1).map_or(0, |&last| last as usize);
        Self { sizes, row, entries, spare: bits.first().copied(), blocks, whole, boundary }
    }

    /// The places of the set bits at or above a place, from the highest down.
    fn bits_from(&self, low: usize) -> impl Iterator<Item = u32> + '_ {
        let blocks = self.blocks.iter().enumerate().skip(low / 64).rev().filter(|(_, &block)| block != 0);
        let bits = blocks.flat_map(|(place, &block)| {
            (0..64).rev().filter(move |bit| block >> bit & 1 == 1).map(move |bit| 64 * place + bit)
        });
        bits.take_while(move |&bit| bit >= low).map(|bit| bit as u32)
    }

    /// The buckets that entries and bits show, from the largest down, each once.
    pub fn set(&self) -> Vec<u32> {
        let mut set: Vec<u32> = self.entries.iter().copied().chain(self.bits_from(0)).collect();
        set.sort_unstable_by(|a, b| b.cmp(a));
        set.dedup();
        set
    }

    /// As many as entries and bits are there.
    pub fn count(&self) -> usize {
        self.entries.len() + self.blocks.iter().map(|block| block.count_ones() as usize).sum::<usize>()
    }

    /// The Rust reads it: otherwise it panics.
    pub fn readable(&self) -> bool {
        self.whole && self.spare.is_none_or(|spare| spare < 64)
    }

    /// Shorter rows first, then by their numbers.
    pub fn rank(&self) -> impl Ord + '_ {
        (self.row.len(), &self.entries, self.spare, &self.blocks, self.row)
    }

    fn too_long(&self) -> bool {
        self.row.len() > self.sizes.longest
    }

    fn an_entry_from(&self, low: usize) -> bool {
        self.entries.iter().any(|&entry| entry as usize >= low)
    }

    fn neighbours(&self, fit: fn(u32, u32) -> bool) -> bool {
        self.entries.windows(2).any(|pair| fit(pair[0], pair[1]))
    }

    fn rising(&self, twice: bool) -> bool {
        self.neighbours(|a, b| a < b) && (self.set().len() < self.count()) == twice
    }

    /// The number of blocks against that which the boundary asks for.
    fn blocks_against(&self) -> std::cmp::Ordering {
        self.blocks.len().cmp(&self.boundary.div_ceil(64))
    }

    /// The spare byte against the one that the boundary asks for, where both are there.
    fn spare_fits(&self, fits: fn(u8, u8) -> bool) -> bool {
        let right = 63 - (self.boundary.wrapping_sub(1) % 64) as u8;
        self.boundary > 0 && self.spare.is_some_and(|spare| fits(spare, right))
    }

    /// A bit at or above the boundary, at the place of an entry or at another.
    fn high_bit(&self, at_entry: bool) -> bool {
        self.bits_from(self.boundary).any(|bit| self.entries.contains(&bit) == at_entry)
    }
}

/// What the Rust is asked about a row that it reads. Its answer is held against that for the set which
/// the row shows: `s` the same, `o` another, `p` a panic.
pub const QUESTIONS: [&str; 6] = ["walk", "difference", "limited", "order", "key", "toggle"];

pub struct Kind {
    pub number: u8,
    pub name: &'static str,
    fits: fn(&Shown) -> bool,
    /// What each question can be answered by in release, and in debug where that is another.
    pub release: [&'static str; 6],
    pub debug: [&'static str; 6],
}

/// Every fault that a row can have; the Rust does not read rows of a kind without words.
#[rustfmt::skip]
pub const KINDS: [Kind; 17] = [
    Kind {
        number: 4, name: "longer than the longest row",
        fits: |row| row.whole && row.too_long(),
        release: ["s", "s", "s", "so", "s", "o"], debug: [""; 6],
    },
    Kind {
        number: 4, name: "not whole entries",
        fits: |row| !row.whole && row.entries.len() < row.sizes.top,
        release: [""; 6], debug: [""; 6],
    },
    Kind {
        number: 4, name: "M entries, and no whole blocks behind the next byte",
        fits: |row| !row.whole && row.entries.len() == row.sizes.top,
        release: [""; 6], debug: [""; 6],
    },
    Kind {
        number: 2, name: "an entry of W or more",
        fits: |row| row.an_entry_from(row.sizes.buckets) && !row.an_entry_from(1 << row.sizes.position_bits),
        release: ["s"; 6], debug: [""; 6],
    },
    Kind {
        number: 2, name: "an entry too wide for the key",
        fits: |row| row.an_entry_from(1 << row.sizes.position_bits),
        release: ["s"; 6], debug: ["", "", "", "", "p", ""],
    },
    Kind {
        number: 5, name: "two neighbours are equal",
        fits: |row| row.neighbours(|a, b| a == b),
        release: ["s", "s", "so", "s", "so", "op"], debug: ["p", "p", "", "sp", "", ""],
    },
    Kind {
        number: 5, name: "an entry rises, no bucket stands twice",
        fits: |row| row.rising(false),
        release: ["so", "so", "so", "so", "so", "op"], debug: [""; 6],
    },
    Kind {
        number: 5, name: "an entry rises, a bucket stands twice",
        fits: |row| row.rising(true),
        release: ["so", "so", "so", "so", "so", "op"], debug: ["op", "op", "", "sop", "", ""],
    },
    Kind {
        number: 5, name: "a full list above 0, and no bit part",
        fits: |row| row.blocks_against().is_lt() && row.blocks.is_empty(),
        release: ["s"; 6], debug: [""; 6],
    },
    Kind {
        number: 5, name: "too few blocks",
        fits: |row| row.blocks_against().is_lt() && !row.blocks.is_empty(),
        release: ["s", "s", "s", "s", "s", "o"], debug: [""; 6],
    },
    Kind {
        number: 5, name: "a bit part behind bucket 0",
        fits: |row| row.blocks_against().is_gt() && row.boundary == 0 && !row.too_long(),
        release: ["s", "s", "s", "so", "s", "o"], debug: [""; 6],
    },
    Kind {
        number: 5, name: "too many blocks",
        fits: |row| row.blocks_against().is_gt() && row.boundary > 0 && !row.too_long(),
        release: ["s", "s", "s", "so", "s", "o"], debug: [""; 6],
    },
    Kind {
        number: 5, name: "a spare byte of 64 or more",
        fits: |row| row.spare.is_some_and(|spare| spare > 63),
        release: [""; 6], debug: [""; 6],
    },
    Kind {
        number: 5, name: "a spare byte too small",
        fits: |row| row.spare_fits(|spare, right| spare < right),
        release: ["s", "s", "s", "so", "s", "o"], debug: [""; 6],
    },
    Kind {
        number: 5, name: "a spare byte too large",
        fits: |row| row.spare_fits(|spare, right| right < spare && spare < 64),
        release: ["s", "s", "s", "s", "s", "o"], debug: [""; 6],
    },
    Kind {
        number: 5, name: "a bit at or above the boundary, where an entry stands",
        fits: |row| row.high_bit(true),
        release: ["op", "op", "o", "s", "s", "o"], debug: ["p", "p", "", "sp", "", ""],
    },
    Kind {
        number: 5, name: "a bit at or above the boundary, elsewhere",
        fits: |row| row.high_bit(false),
        release: ["s", "s", "s", "so", "so", "o"], debug: [""; 6],
    },
];

/// The kinds that fit a row, by their places, in the order of judging: none where a set has the row.
pub fn faults(shown: &Shown) -> Vec<usize> {
    let mut faults: Vec<usize> = (0..KINDS.len()).filter(|&kind| (KINDS[kind].fits)(shown)).collect();
    if !shown.whole {
        faults.truncate(1);
    }
    faults
}
