//! Sets, lists, masks and plans for one configuration, from a seed. A set is the list of its buckets
//! from the largest down.

use crate::ours::Sizes;
use crate::random::Random;

/// What is done to a builder: from a split, buckets pushed and the split raised.
#[derive(Clone, Debug, Default)]
pub struct Plan {
    pub split: usize,
    pub steps: Vec<Step>,
}

#[derive(Clone, Debug)]
pub enum Step {
    Push(Vec<u32>),
    Raise(usize),
}

impl Plan {
    /// What is pushed.
    pub fn lists(&mut self) -> impl Iterator<Item = &mut Vec<u32>> {
        self.steps.iter_mut().filter_map(|step| match step {
            Step::Push(list) => Some(list),
            Step::Raise(_) => None,
        })
    }

    /// The pending area is never met full, so that the builder's inside is fixed.
    pub fn fixes_inside(&self, sizes: &Sizes) -> bool {
        let (mut split, mut pending) = (self.split, 0);
        for step in &self.steps {
            match step {
                Step::Push(list) => {
                    pending += list.iter().filter(|&&bucket| bucket as usize >= split).count()
                }
                Step::Raise(to) => split = split.max(*to),
            }
        }
        pending <= 2 * sizes.top
    }
}

/// A mask and its size.
pub type Mask = (u64, usize);

pub struct Inputs {
    pub sizes: Sizes,
    pub random: Random,
    /// The set that is being made.
    bits: Vec<u64>,
}

impl Inputs {
    pub fn new(sizes: Sizes, seed: u64) -> Self {
        let random = Random::new(seed ^ (sizes.config as u64) << 56);
        Self { sizes, random, bits: vec![0; sizes.blocks] }
    }

    pub fn set(&mut self) -> Vec<u32> {
        let size = self.size();
        self.bits.fill(0);
        match self.random.below(12) {
            0..=3 if size >= self.sizes.top => return self.bounded(size),
            4 => self.put_below(size, self.sizes.buckets),
            5 => self.put_below(size, (2 * size + 70).min(self.sizes.buckets)),
            7 => self.put_runs(size),
            8 => self.put_grid(size),
            9 => self.put_edge(size),
            10 => self.put_halves(size),
            _ => self.put_hashed(size),
        }
        let mut set = self.taken(size);
        if self.random.once_in(8) {
            let ends = [0, self.sizes.buckets as u32 - 1];
            flip(&mut set, ends[self.random.below(2)]);
        }
        set
    }

    /// The sizes about M come up often.
    fn size(&mut self) -> usize {
        let Sizes { top, buckets, .. } = self.sizes;
        match self.random.below(20) {
            0 => 0,
            1..=3 => self.random.between(1, top / 2 - 1),
            4 => self.random.between(top / 2, top),
            5..=7 => self.random.pick(&[top - 1, top, top + 1]),
            8..=16 => self.by_doublings(top + 1, 10 * top),
            17..=18 => self.by_doublings(10 * top + 1, buckets / 4),
            _ => self.by_doublings(10 * top + 1, buckets),
        }
    }

    /// From `low` to `high`, each doubling as likely as the next.
    fn by_doublings(&mut self, low: usize, high: usize) -> usize {
        let doublings = (high / low).ilog2() as usize;
        let low = low << self.random.below(doublings + 1);
        self.random.between(low, (2 * low - 1).min(high))
    }

    fn put(&mut self, bucket: usize) {
        self.bits[bucket / 64] |= 1 << (bucket % 64);
    }

    fn put_below(&mut self, size: usize, end: usize) {
        for _ in 0..size {
            let bucket = self.random.below(end);
            self.put(bucket);
        }
    }

    /// As hashed items fall: of the full levels half the buckets, of each level above half as many.
    fn put_hashed(&mut self, size: usize) {
        let half = self.sizes.level() / 2;
        if size < half {
            return (0..size).for_each(|_| {
                let bucket = self.item();
                self.put(bucket)
            });
        }
        for block in 0..self.sizes.blocks {
            let above = (block * 64 / self.sizes.level() + 2).saturating_sub(size / half);
            self.bits[block] = (0..above).fold(self.random.next(), |bits, _| bits & self.random.next());
        }
    }

    /// The bucket of a hashed item: level l with probability 2^-(l+1).
    fn item(&mut self) -> usize {
        let level = self.random.next().leading_zeros() as usize;
        level * self.sizes.level() + self.random.below(self.sizes.level())
    }

    /// Runs of neighbours, which begin anywhere or about a multiple of 64.
    fn put_runs(&mut self, size: usize) {
        let mut left = size;
        while left > 0 {
            let length = self.random.between(1, 200.min(left));
            let low = if self.random.once_in(2) { self.near_64() } else { self.item() };
            let low = low.min(self.sizes.buckets - length);
            (low..low + length).for_each(|bucket| self.put(bucket));
            left -= length;
        }
    }

    /// Multiples of 64, or their neighbours by one or two, one after the other.
    fn put_grid(&mut self, size: usize) {
        let (blocks, aside) = (self.sizes.blocks, self.random.below(5));
        let first = self.random.below(blocks);
        for turn in 0..size.min(blocks) {
            let bucket = (first + turn) % blocks * 64 + 62 + aside;
            self.put(bucket % self.sizes.buckets);
        }
    }

    /// The lowest buckets, the highest, or those of full levels.
    fn put_edge(&mut self, size: usize) {
        let (buckets, level) = (self.sizes.buckets, self.sizes.level());
        let low = match self.random.below(3) {
            0 => 0,
            1 => buckets - size,
            _ => (self.random.below(65) * level).min(buckets - size),
        };
        (low..low + size).for_each(|bucket| self.put(bucket));
    }

    /// Of all buckets below twice the size every other one, by chance or in turn.
    fn put_halves(&mut self, size: usize) {
        let end = (2 * size).div_ceil(64).min(self.sizes.blocks);
        let regular = self.random.once_in(2);
        for block in 0..end {
            self.bits[block] = if regular { 0x5555_5555_5555_5555 } else { self.random.next() };
        }
    }

    /// A multiple of 64, or a neighbour by one or two.
    fn near_64(&mut self) -> usize {
        let near = if self.random.once_in(2) { 12.min(self.sizes.blocks) } else { self.sizes.blocks };
        (64 * self.random.below(near) + self.random.between(62, 66)).min(self.sizes.buckets - 1)
    }

    /// What was put, and no more than `size` of it: an end or a middle part.
    fn taken(&mut self, size: usize) -> Vec<u32> {
        let mut set = Vec::with_capacity(size + 64);
        for (place, &block) in self.bits.iter().enumerate().rev() {
            let mut block = block;
            while block != 0 {
                let bit = 63 - block.leading_zeros();
                set.push(64 * place as u32 + bit);
                block ^= 1 << bit;
            }
        }
        let over = set.len().saturating_sub(size);
        let from = self.random.pick(&[0, over, over / 2]);
        set.drain(..from);
        set.truncate(size);
        set
    }

    /// A set of this size with a boundary about a multiple of 64; its list stands close above the
    /// boundary or far from it, and its bits lie anywhere below.
    fn bounded(&mut self, size: usize) -> Vec<u32> {
        let Sizes { top, buckets, .. } = self.sizes;
        let boundary = self.near_64().min(buckets - top);
        let room = buckets - boundary - 1;
        let room = if self.random.once_in(2) { room } else { room.min(2 * top) };
        let mut above = 0;
        while above < top - 1 {
            let bucket = boundary + 1 + self.random.below(room);
            above += (self.bits[bucket / 64] >> (bucket % 64) & 1 == 0) as usize;
            self.put(bucket);
        }
        self.put(boundary);
        let dense = size - top > boundary / 2;
        for _ in 0..if dense { boundary / 2 } else { size - top } {
            let bucket = self.random.below(boundary);
            self.put(bucket);
        }
        self.taken(buckets)
    }
}

/// What is made from a set.
impl Inputs {
    /// A set to be held against this one.
    pub fn other(&mut self, set: &[u32]) -> Vec<u32> {
        let top = self.sizes.top.min(set.len());
        let (list, bits) = set.split_at(top);
        let below = list.last().map_or(0, |&last| last as usize);
        let mut other = set.to_vec();
        match self.random.below(10) {
            // all but one, or a few
            0 | 1 => flip(&mut other, self.bucket_of(set)),
            2 => (0..5).for_each(|_| flip(&mut other, self.bucket_of(set))),
            // the list is shared, or the bits are
            3 if below > 0 => (0..3).for_each(|_| flip(&mut other, self.random.below(below) as u32)),
            4 if top > 1 => (0..3).for_each(|_| self.exchange(&mut other, &list[..top - 1], below)),
            // the difference loses the list, or all but a few of it
            5 => other = list.to_vec(),
            6 => other.retain(|&bucket| bucket as usize >= below || !self.random.once_in(3)),
            7 => other = bits.to_vec(),
            8 => {}
            _ => other = self.set(),
        }
        other
    }

    /// Another bucket above the boundary for one of these.
    fn exchange(&mut self, set: &mut Vec<u32>, list: &[u32], boundary: usize) {
        let (old, new) = (self.random.pick(list), self.random.between(boundary + 1, self.sizes.buckets - 1));
        if set.contains(&old) && !set.contains(&(new as u32)) {
            flip(set, old);
            flip(set, new as u32);
        }
    }

    /// A bucket that matters to the set: a member, one about the boundary, an end, or any.
    fn bucket_of(&mut self, set: &[u32]) -> u32 {
        let last = self.sizes.buckets - 1;
        let boundary = set.get(self.sizes.top - 1).map_or(0, |&bucket| bucket as usize);
        let bucket = match self.random.below(8) {
            0 | 1 if !set.is_empty() => self.random.pick(set) as usize,
            2 => boundary,
            3 => (boundary + self.random.below(5)).saturating_sub(2),
            4 => self.random.pick(&[0, last]),
            5 => self.near_64(),
            6 => self.random.below(last + 1),
            _ => self.item(),
        };
        bucket.min(last) as u32
    }

    /// A list to be toggled: a few buckets, some of them again; or the set, or its list.
    pub fn toggles(&mut self, set: &[u32]) -> Vec<u32> {
        let Sizes { top, .. } = self.sizes;
        let mut list = match self.random.below(12) {
            0 => set.to_vec(),
            1 => set[..top.min(set.len())].to_vec(),
            _ => vec![],
        };
        let more = if self.random.once_in(6) { self.random.below(3 * top) } else { self.random.below(9) };
        for _ in 0..more {
            let bucket = match self.random.below(4) {
                0 if !list.is_empty() => self.random.pick(&list),
                _ => self.bucket_of(set),
            };
            list.push(bucket);
        }
        list
    }

    /// A mask of any size: all bits, none, one, few, many, or those that drop the set's list.
    pub fn mask(&mut self, set: &[u32]) -> Mask {
        let size = self.random.between(1, 63);
        let all = u64::MAX >> (64 - size);
        let list = &set[..self.sizes.top.min(set.len())];
        let listed = list.iter().fold(0, |mask, &bucket| mask | 1u64 << (bucket as usize % size));
        let mask = match self.random.below(16) {
            0 => 0,
            1..=3 => all,
            4..=6 => 1 << self.random.below(size),
            7..=9 => all & !listed,
            10 => self.random.next() & self.random.next() & self.random.next(),
            _ => self.random.next(),
        };
        (mask & all, size)
    }

    /// A way for a builder to the set: pushed in any order, some buckets again and again, cut
    /// anywhere, and the split raised in between.
    pub fn plan(&mut self, set: &[u32]) -> Plan {
        let mut list = set.to_vec();
        for _ in 0..self.random.below(2 * self.sizes.top) / 4 {
            let bucket = self.bucket_of(set);
            list.extend([bucket, bucket]);
        }
        if self.random.once_in(2) {
            self.random.shuffle(&mut list);
        }
        let mut steps = vec![];
        while !list.is_empty() {
            let cut = if self.random.once_in(3) { list.len() } else { self.random.below(list.len() + 1) };
            steps.push(Step::Push(list.split_off(list.len() - cut)));
            if self.random.once_in(2) {
                steps.push(Step::Raise(self.split(set)));
            }
        }
        Plan { split: self.split(set), steps }
    }

    /// A split: an end, about a multiple of 64, whole levels, about the boundary, or any.
    fn split(&mut self, set: &[u32]) -> usize {
        let Sizes { buckets, .. } = self.sizes;
        match self.random.below(8) {
            0 | 1 => 0,
            2 => buckets,
            3 => self.near_64(),
            4 => self.random.below(66) * self.sizes.level(),
            5 => self.bucket_of(set) as usize,
            6 => self.item(),
            _ => self.random.below(buckets + 1),
        }
    }
}

/// Puts the bucket into the set, or takes it out.
pub fn flip(set: &mut Vec<u32>, bucket: u32) {
    match set.binary_search_by(|member| bucket.cmp(member)) {
        Ok(place) => drop(set.remove(place)),
        Err(place) => set.insert(place, bucket),
    }
}
