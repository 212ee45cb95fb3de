//! The sets, lists and masks that the list asks about: edges, and random ones from a fixed seed.
//! Sets are lists of buckets from the largest down.

/// xorshift64*, so that the list is the same at every run.
pub struct Random(u64);

impl Random {
    fn next(&mut self) -> u64 {
        self.0 ^= self.0 >> 12;
        self.0 ^= self.0 << 25;
        self.0 ^= self.0 >> 27;
        self.0.wrapping_mul(0x2545_f491_4f6c_dd1d)
    }

    pub fn below(&mut self, end: u32) -> u32 {
        ((self.next() >> 32) * end as u64 >> 32) as u32
    }
}

/// The buckets from `low` up, `size` of them.
pub fn run(low: u32, size: u32) -> Vec<u32> {
    (low..low + size).rev().collect()
}

pub fn joined(a: &[u32], b: &[u32]) -> Vec<u32> {
    let mut set = [a, b].concat();
    set.sort_unstable_by(|x, y| y.cmp(x));
    set.dedup();
    set
}

pub struct Inputs {
    pub config: u32,
    /// M
    pub top: u32,
    /// 2^B
    pub level: u32,
    /// W
    pub buckets: u32,
    /// window blocks
    window: u32,
    /// How many items the random sets have.
    items: &'static [u32],
    /// The boundaries of the few sets with long rows, as rows of this configuration can be listed.
    long: &'static [u32],
    /// How many keys and orders are asked for a size of the mask.
    pub masks_each: u32,
    /// Every how many sizes a masked set fills the top list.
    full_each: usize,
    pub random: Random,
}

impl Inputs {
    pub fn of_7() -> Self {
        let items = &[3, 9, 11, 12, 13, 14, 20, 24, 25, 40, 60, 100, 200, 400, 900];
        Self::of([7, 12, 7, 11], items, &[700, 1000, 4000, 8000, 8307, 8308], 3, 1)
    }

    pub fn of_10() -> Self {
        let items = &[2, 10, 40, 63, 64, 65, 70, 100, 150, 300];
        Self::of([10, 64, 10, 80], items, &[5300, 9000, 66496], 2, 4)
    }

    pub fn of_13() -> Self {
        let items = &[1, 2, 5, 10, 30, 60, 400];
        Self::of([13, 384, 13, 700], items, &[6000, 46000], 2, 9)
    }

    fn of(
        [config, top, b, window]: [u32; 4],
        items: &'static [u32],
        long: &'static [u32],
        masks_each: u32,
        full_each: usize,
    ) -> Self {
        let (level, buckets) = (1 << b, 65 << b);
        let random = Random(0x9e37_79b9_7f4a_7c15 ^ config as u64);
        Self { config, top, level, buckets, window, items, long, masks_each, full_each, random }
    }

    /// The bucket of a hashed item: level l with probability 2^-(l+1).
    fn item(&mut self) -> u32 {
        let level = self.random.next().leading_zeros();
        level * self.level + self.random.below(self.level)
    }

    pub fn geometric(&mut self, items: u32) -> Vec<u32> {
        let set: Vec<u32> = (0..items).map(|_| self.item()).collect();
        joined(&set, &[])
    }

    /// `size` buckets below `end`.
    pub fn spread(&mut self, size: u32, end: u32) -> Vec<u32> {
        let mut set = vec![];
        while set.len() < size as usize {
            set = joined(&set, &[self.random.below(end)]);
        }
        set
    }

    /// A set with this boundary and up to `below` bits; with the largest bucket of all if `highest`.
    pub fn bounded(&mut self, boundary: u32, highest: bool, below: u32) -> Vec<u32> {
        let room = (self.buckets - boundary).min(2 * self.top) - 1;
        let above = self.spread(self.top - 1, room);
        let mut set: Vec<u32> = above.iter().map(|bucket| boundary + 1 + bucket).collect();
        if highest {
            set[0] = self.buckets - 1;
        }
        set.push(boundary);
        let bits: Vec<u32> = (0..below).map(|_| self.random.below(boundary)).collect();
        joined(&set, &bits)
    }

    /// Like hashed items, and dense at the bottom by turns.
    pub fn random_sets(&mut self) -> Vec<Vec<u32>> {
        let items = self.items;
        let set = |(turn, &items): (usize, &u32)| match turn % 2 {
            0 => self.geometric(items),
            _ => self.spread(items, 2 * items + 70),
        };
        items.iter().enumerate().map(set).collect()
    }

    pub fn long_sets(&mut self) -> Vec<Vec<u32>> {
        self.long.iter().map(|&boundary| self.bounded(boundary, false, 25)).collect()
    }

    /// The M largest buckets, with the lowest bucket of their window and with the one below it.
    pub fn window_edges(&mut self) -> [Vec<u32>; 2] {
        self.edges_of_window(self.buckets - self.top)
    }

    /// The same of M buckets so low that the row is short.
    pub fn low_window_edges(&mut self) -> [Vec<u32>; 2] {
        self.edges_of_window(64 * self.window + 65)
    }

    fn edges_of_window(&self, boundary: u32) -> [Vec<u32>; 2] {
        let edge = 64 * (boundary.div_ceil(64) - self.window);
        [edge, edge - 1].map(|bucket| joined(&run(boundary, self.top), &[bucket]))
    }

    /// Members and strangers to be toggled, some of them twice and three times.
    pub fn toggles_near(&mut self, set: &[u32]) -> Vec<u32> {
        let last_top = set[set.len().min(self.top as usize) - 1];
        let mut toggles = vec![last_top, self.item(), set[0], self.item()];
        toggles.extend([set[set.len() - 1], toggles[1], toggles[2], toggles[1], last_top / 2]);
        toggles
    }

    /// The set, but for a few buckets.
    pub fn near(&mut self, set: &[u32]) -> Vec<u32> {
        let others = self.geometric(3);
        let left = set.iter().filter(|_| self.random.below(9) > 0).copied();
        joined(&left.collect::<Vec<_>>(), &others)
    }

    /// Buckets to be pushed, in no order, some of them twice and three times.
    pub fn pushes(&mut self, size: u32) -> Vec<u32> {
        let mut list: Vec<u32> = (0..size).map(|_| self.item()).collect();
        self.repeat_some(&mut list);
        list
    }

    /// The same of low buckets, but for two.
    pub fn low_pushes(&mut self, size: u32) -> Vec<u32> {
        let mut list: Vec<u32> = (0..size).map(|_| self.random.below(4 * self.top + 150)).collect();
        list[3] = self.buckets - 1;
        list[4] = self.item();
        self.repeat_some(&mut list);
        list
    }

    /// More pushes than a pending area holds, from `low` up.
    pub fn pushes_above(&mut self, low: u32) -> Vec<u32> {
        (0..2 * self.top + 9).map(|_| low + self.random.below(4 * self.top)).collect()
    }

    fn repeat_some(&mut self, list: &mut [u32]) {
        for i in (2..list.len()).filter(|i| i % 5 < 2) {
            list[i] = list[self.random.below(i as u32) as usize];
        }
    }

    /// A mask of this size; by turns a random one, a single bit, all bits, and rarely none.
    pub fn mask(&mut self, size: usize, turn: u32) -> u64 {
        let all = u64::MAX >> (64 - size);
        match (size as u32 + turn) % 3 {
            _ if size % 13 == 5 && turn == 1 => 0,
            0 => self.random.next() & all,
            1 => 1 << self.random.below(size as u32),
            _ => all,
        }
    }

    /// A set for keys and orders. A full one has its top list dropped by the mask, where it can be,
    /// and kept buckets among its bits.
    pub fn masked_set(&mut self, mask: u64, size: usize, turn: u32) -> Vec<u32> {
        if turn != 1 || size % self.full_each != 0 {
            return self.geometric(8 + size as u32 % 16);
        }
        let dropped = |bucket: &u32| mask >> (*bucket as usize % size) & 1 == 0;
        let any = mask == u64::MAX >> (64 - size);
        let above = (300 + 7 * size as u32..).filter(|bucket| any || dropped(bucket));
        let above: Vec<u32> = above.take(self.top as usize).collect();
        let bits = self.spread(12, 300);
        joined(&above, &bits)
    }

    /// A set to be ordered against this one: by turns it differs only in buckets that the mask drops,
    /// in one that it keeps, or in a few.
    pub fn other_masked(&mut self, mask: u64, size: usize, set: &[u32]) -> Vec<u32> {
        let kept = |bucket: &u32| mask >> (*bucket as usize % size) & 1 == 1;
        match self.random.below(5) {
            0 => {
                let more = self.geometric(4);
                let more: Vec<u32> = more.into_iter().filter(|b| !kept(b)).collect();
                let rest: Vec<u32> = set.iter().copied().filter(|b| kept(b) || b % 3 > 0).collect();
                joined(&rest, &more)
            }
            1 => self.near(set),
            _ => match (0..=self.random.below(set[0])).rev().find(kept) {
                Some(one) if set.contains(&one) => set.iter().copied().filter(|&b| b != one).collect(),
                Some(one) => joined(set, &[one]),
                None => set.to_vec(),
            },
        }
    }
}
