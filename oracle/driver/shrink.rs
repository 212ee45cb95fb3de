//! The smallest input that still shows what was found.

use crate::cases::{Call, Case, Compare, Compared, Difference, Subject};
use crate::caught::caught;
use crate::inputs::{Mask, Plan};
use std::ops::Range;

/// Both answers, where they differ, or where the Rust panics.
pub fn difference(compare: impl FnOnce() -> Compared) -> Option<Difference> {
    caught(compare).unwrap_or_else(|panic| Err(Difference::panics(panic))).err()
}

/// Goes from an input to a smaller one for as long as one of them still differs; the last, and both
/// answers to it.
pub fn smallest<T, I: Iterator<Item = T>>(
    mut input: T,
    smaller: impl Fn(&T) -> I,
    mut difference: impl FnMut(&T) -> Option<Difference>,
) -> (T, Option<Difference>) {
    while let Some(next) = smaller(&input).find(|next| difference(next).is_some()) {
        input = next;
    }
    let difference = difference(&input);
    (input, difference)
}

/// Parts of a list that can be left out: all of it, halves, quarters, and so on to single elements.
pub fn parts(length: usize) -> impl Iterator<Item = Range<usize>> {
    let sizes = std::iter::successors(Some(length), |size| Some(size / 2)).take_while(|&size| size > 0);
    sizes.flat_map(move |size| {
        (0..length).step_by(size).take(64).map(move |from| from..length.min(from + size))
    })
}

/// The inputs of a case, by themselves.
#[derive(Clone, Debug)]
pub struct Reproduction {
    call: Call,
    a: Vec<u32>,
    b: Vec<u32>,
    list: Vec<u32>,
    mask: Mask,
    place: usize,
    plan: Plan,
}

impl Reproduction {
    pub fn of(case: &Case) -> Self {
        let (call, mask, place, plan) = (case.call, case.mask, case.place, case.plan.clone());
        let (a, b, list) = (case.a.set.clone(), case.b.set.clone(), case.list.to_vec());
        Self { call, a, b, list, mask, place, plan }
    }

    fn difference(&self, compare: &mut Compare) -> Option<Difference> {
        difference(|| {
            let subject = |set: &Vec<u32>| Subject::new(&compare.sizes, set.clone(), true);
            let (a, b) = (&subject(&self.a), &subject(&self.b));
            let Self { call, mask, place, .. } = *self;
            compare.compare(&Case { call, a, b, list: &self.list, mask, place, plan: &self.plan })
        })
    }

    fn lists(&mut self) -> Vec<&mut Vec<u32>> {
        [&mut self.a, &mut self.b, &mut self.list].into_iter().chain(self.plan.lists()).collect()
    }

    /// Without a part of the plan's steps, or of the buckets of both sets, or of a list.
    fn without(&self, which: usize, part: Range<usize>) -> Self {
        let mut less = self.clone();
        match which {
            0 => drop(less.plan.steps.drain(part)),
            1 => {
                let gone: Vec<u32> = less.a.drain(part).collect();
                less.b.retain(|bucket| gone.binary_search_by(|other| bucket.cmp(other)).is_err());
            }
            _ => drop(less.lists()[which - 2].drain(part)),
        }
        less
    }

    fn smaller(&self) -> impl Iterator<Item = Self> {
        let mut from = self.clone();
        let lists = from.lists().into_iter().map(|list| list.len());
        let lengths: Vec<usize> = [self.plan.steps.len(), self.a.len()].into_iter().chain(lists).collect();
        let each = |(which, length)| parts(length).map(move |part| (which, part));
        lengths.into_iter().enumerate().flat_map(each).map(move |(which, part)| from.without(which, part))
    }

    pub fn smallest(self, compare: &mut Compare) -> (Self, Option<Difference>) {
        smallest(self, Self::smaller, |input| input.difference(compare))
    }
}
