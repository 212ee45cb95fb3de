//! Lists of buckets, and several ways to the filter of each, from the seed.

use crate::inputs::{Inputs, Plan, Step};
use crate::ours::Sizes;
use crate::shrink::parts;
use std::collections::HashSet;

/// A way to the filter of the buckets that it lists.
#[derive(Clone, Debug)]
pub enum Way {
    /// Part by part.
    Toggled(Vec<Vec<u32>>),
    Built(Plan),
    /// The symmetric difference of two filters.
    Joined(Box<[Way; 2]>),
}

impl Way {
    fn lists(&mut self) -> Vec<&mut Vec<u32>> {
        match self {
            Way::Toggled(parts) => parts.iter_mut().collect(),
            Way::Built(plan) => plan.lists().collect(),
            Way::Joined(two) => two.iter_mut().flat_map(Way::lists).collect(),
        }
    }
}

/// A list, and ways that list the same buckets, each in an order of its own.
#[derive(Clone, Debug)]
pub struct Ways {
    pub list: Vec<u32>,
    pub ways: Vec<Way>,
    /// How many guard cells are lent with each area.
    pub past: usize,
}

impl Ways {
    /// The buckets that are listed an odd number of times.
    pub fn set(&self) -> Vec<u32> {
        let mut list = self.list.clone();
        list.sort_unstable_by(|a, b| b.cmp(a));
        list.chunk_by(|a, b| a == b).filter(|same| same.len() % 2 == 1).map(|same| same[0]).collect()
    }

    /// With nothing more lent than must be, with fewer ways, or with fewer buckets in all of them.
    pub fn smaller(&self) -> impl Iterator<Item = Self> {
        let (first, second) = (self.clone(), self.clone());
        let fewer_ways = parts(self.ways.len()).map(move |part| {
            let ways = [&first.ways[..part.start], &first.ways[part.end..]].concat();
            Self { ways, ..first.clone() }
        });
        let no_more = (self.past > 0).then(|| Self { past: 0, ..self.clone() });
        no_more
            .into_iter()
            .chain(fewer_ways)
            .chain(parts(self.list.len()).map(move |part| second.without(&second.list[part])))
    }

    fn without(&self, gone: &[u32]) -> Self {
        let (gone, mut less) = (gone.iter().copied().collect::<HashSet<u32>>(), self.clone());
        let of_ways = less.ways.iter_mut().flat_map(Way::lists);
        of_ways.chain([&mut less.list]).for_each(|list| list.retain(|bucket| !gone.contains(bucket)));
        less
    }
}

impl Inputs {
    /// A list, to be toggled, built and grouped, shuffled each time. The first is empty, the second as
    /// long as any.
    pub fn ways(&mut self, turn: usize) -> Ways {
        let list = self.list(turn);
        let [one, two, three] = [(); 3].map(|()| self.shuffled(&list));
        let ways = vec![self.toggled(&one), self.built(turn, &two), self.grouped(&three)];
        Ways { list, ways, past: self.random.pick(&[0, 1, 4, 400, 8200]) }
    }

    /// Of one of the five kinds of buckets, or of all; some buckets again.
    fn list(&mut self, turn: usize) -> Vec<u32> {
        let mut list: Vec<u32> = vec![];
        for place in 0..self.length(turn) {
            let kind = if turn % 6 < 5 { turn % 6 } else { self.random.below(5) };
            let again = place > 0 && self.random.once_in(4);
            list.push(if again { self.random.pick(&list) } else { self.listed(kind) as u32 });
        }
        list
    }

    /// From 0 to 20M.
    fn length(&mut self, turn: usize) -> usize {
        let Sizes { top, .. } = self.sizes;
        match (turn, self.random.below(4)) {
            (0, _) => 0,
            (1, _) => 20 * top,
            (_, 0) => self.random.below(top + 2),
            (_, 1) => self.random.below(4 * top),
            _ => self.random.below(20 * top + 1),
        }
    }

    /// Any bucket; one of the last; of a low part; of so few that most are listed often; beside a border.
    fn listed(&mut self, kind: usize) -> usize {
        let Sizes { top, buckets, .. } = self.sizes;
        match kind {
            0 => self.random.below(buckets),
            1 => buckets - 1 - self.random.below(100 + 2 * top),
            2 => {
                let halved = self.random.below(12);
                self.random.below(buckets >> halved)
            }
            3 => self.random.below(3 * top),
            _ => self.border() - 1 + self.random.below(3),
        }
    }

    /// A border between two levels, a low one more often than a high one.
    fn border(&mut self) -> usize {
        let most = 1 + self.random.below(64);
        self.sizes.level() * (1 + self.random.below(most))
    }

    /// A split at an end or beside one, at a border or beside one.
    fn split_of(&mut self, kind: usize) -> usize {
        let (border, Sizes { buckets, .. }) = (self.border(), self.sizes);
        [0, buckets, border, border + 1, border - 1, buckets - 1, 1][kind % 7]
    }

    fn shuffled(&mut self, list: &[u32]) -> Vec<u32> {
        let mut list = list.to_vec();
        self.random.shuffle(&mut list);
        list
    }

    /// One to four parts, some perhaps empty.
    fn cut(&mut self, list: &[u32]) -> Vec<Vec<u32>> {
        let (mut parts, mut rest) = (vec![], list);
        for _ in 0..self.random.below(4) {
            let (part, behind) = rest.split_at(self.random.below(rest.len() + 1));
            parts.push(part.to_vec());
            rest = behind;
        }
        parts.push(rest.to_vec());
        parts
    }

    fn toggled(&mut self, list: &[u32]) -> Way {
        Way::Toggled(self.cut(list))
    }

    /// Pushed in parts, before each of which the split is raised or not.
    fn built(&mut self, kind: usize, list: &[u32]) -> Way {
        let (split, mut steps) = (self.split_of(kind), vec![]);
        for part in self.cut(list) {
            if self.random.once_in(2) {
                let kind = self.random.below(7);
                steps.push(Step::Raise(self.split_of(kind)));
            }
            steps.push(Step::Push(part));
        }
        Way::Built(Plan { split, steps })
    }

    /// Two to four groups: of three, two are joined first, and of four each two.
    fn grouped(&mut self, list: &[u32]) -> Way {
        self.joined(list, Self::one_or_two_groups)
    }

    fn one_or_two_groups(&mut self, list: &[u32]) -> Way {
        match self.random.once_in(2) {
            true => self.one_group(list),
            false => self.joined(list, Self::one_group),
        }
    }

    fn one_group(&mut self, list: &[u32]) -> Way {
        let kind = self.random.below(7);
        match self.random.once_in(2) {
            true => self.toggled(list),
            false => self.built(kind, list),
        }
    }

    /// The list cut in two, either part first.
    fn joined(&mut self, list: &[u32], way: fn(&mut Self, &[u32]) -> Way) -> Way {
        let (front, back) = list.split_at(self.random.below(list.len() + 1));
        let mut two = [way(self, front), way(self, back)];
        self.random.shuffle(&mut two);
        Way::Joined(Box::new(two))
    }
}
