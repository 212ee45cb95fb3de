//! What is short enough to be run through whole: all subsets of critical buckets, all pairs of some,
//! all short lists over them, all rows of up to two bytes, all rows of few critical entries, and full
//! lists with every spare byte, few blocks and single bits, and with their last entries in any order. The
//! rows meet every kind, and every answer that a kind names.

use crate::cases::{Call, Case};
use crate::inputs::{flip, Plan, Step};
use crate::ours::Sizes;
use crate::plain::{entries, made};
use crate::run::{Ran, Run};

pub fn run(run: &mut Run) -> Ran {
    for side in 0..3 {
        let sizes = run.sizes(side);
        let [none, _] = &run.subjects(side, vec![], vec![])?;
        run.ask(side, Case { call: Call::SizesOf, ..Case::of(none, none) })?;
        sets(run, side, &sizes)?;
        pairs(run, side, &sizes)?;
        lists(run, side, &sizes)?;
        rows_of_entries(run, side, &sizes)?;
        full_rows(run, side, &sizes)?;
        spread_rows(run, side, &sizes)?;
    }
    shortest_rows(run)
}

fn critical(sizes: &Sizes) -> [u32; 9] {
    [sizes.buckets as u32 - 1, 128, 127, 65, 64, 63, 62, 1, 0]
}

fn fewer_critical(sizes: &Sizes) -> [u32; 5] {
    [sizes.buckets as u32 - 1, 65, 64, 63, 0]
}

/// All subsets of these buckets, each with `filler` buckets right below the highest bucket of all.
fn subsets(sizes: &Sizes, critical: &[u32], filler: usize) -> Vec<Vec<u32>> {
    let highest = sizes.buckets as u32 - 1;
    let subset = |chosen: u32| {
        let kept = critical.iter().enumerate().filter(|(place, _)| chosen >> place & 1 == 1);
        let mut set: Vec<u32> = (highest - filler as u32..highest).rev().collect();
        kept.for_each(|(_, &bucket)| flip(&mut set, bucket));
        set
    };
    (0..1 << critical.len()).map(subset).collect()
}

fn sets(run: &mut Run, side: usize, sizes: &Sizes) -> Ran {
    for filler in [0, sizes.top - 4, sizes.top - 1] {
        for set in subsets(sizes, &critical(sizes), filler) {
            let [a, b] = &run.subjects(side, set, vec![])?;
            let case = Case::of(a, b);
            let calls =
                [Call::Make, Call::Write, Call::Read, Call::ExactCount, Call::LimitedCount, Call::Open];
            run.ask_all(side, case, &calls)?;
            for mask in [(1, 1), (5, 3)] {
                run.ask(side, Case { call: Call::Key, mask, ..case })?;
            }
            for place in [0, a.set.len().saturating_sub(1), a.set.len()] {
                run.ask(side, Case { call: Call::StepAt, place, ..case })?;
            }
        }
    }
    Ok(())
}

fn pairs(run: &mut Run, side: usize, sizes: &Sizes) -> Ran {
    let mut subjects = vec![];
    for filler in [0, sizes.top - 1] {
        for set in subsets(sizes, &fewer_critical(sizes), filler) {
            let [a, _] = run.subjects(side, set, vec![])?;
            subjects.push(a);
        }
    }
    let calls =
        [Call::SymmetricDifference, Call::ExactDifference, Call::LimitedDifference, Call::DerivedOrder];
    for a in &subjects {
        for b in &subjects {
            run.ask_all(side, Case::of(a, b), &calls)?;
            for mask in [(1, 1), (5, 3)] {
                let case = Case { mask, ..Case::of(a, b) };
                run.ask_all(side, case, &[Call::Order, Call::CmpRows, Call::GreaterRow])?;
            }
        }
    }
    Ok(())
}

/// All lists of this length over these numbers, with repeats.
fn lists_of(length: usize, over: &[u32]) -> Vec<Vec<u32>> {
    (0..length).fold(vec![vec![]], |lists, _| {
        lists.iter().flat_map(|list| over.iter().map(|&next| [&list[..], &[next]].concat())).collect()
    })
}

/// All lists of up to two of the critical buckets, and of three of the fewer.
fn short_lists(sizes: &Sizes) -> Vec<Vec<u32>> {
    let (all, fewer) = (critical(sizes), fewer_critical(sizes));
    [lists_of(0, &all), lists_of(1, &all), lists_of(2, &all), lists_of(3, &fewer)].concat()
}

/// Each short list toggled, and pushed behind others with the split raised in between.
fn lists(run: &mut Run, side: usize, sizes: &Sizes) -> Ran {
    let (top, highest) = (sizes.top as u32, sizes.buckets as u32 - 1);
    let bases = [0..0, 1..top, 1..top + 1, 65..65 + top, 2..2 * top + 2, highest - top..highest];
    for base in bases {
        let base: Vec<u32> = base.rev().collect();
        for list in short_lists(sizes) {
            let mut set = base.clone();
            list.iter().for_each(|&bucket| flip(&mut set, bucket));
            let [a, b] = &run.subjects(side, base.clone(), set)?;
            run.ask(side, Case { call: Call::Toggle, list: &list, ..Case::of(a, b) })?;
            for (split, to) in [(0, 0), (0, 64), (65, sizes.buckets)] {
                let steps = vec![Step::Push(base.clone()), Step::Raise(to), Step::Push(list.clone())];
                run.built(side, Case { plan: &Plan { split, steps }, ..Case::of(b, a) })?;
            }
        }
    }
    Ok(())
}

/// All rows of up to two bytes, in configuration 7.
fn shortest_rows(run: &mut Run) -> Ran {
    run.ask_row(0, &[])?;
    (0..=u8::MAX).try_for_each(|byte| run.ask_row(0, &[byte]))?;
    (0..=u16::MAX).try_for_each(|entry| run.ask_row(0, &entry.to_le_bytes()))
}

/// All rows of up to three entries out of critical ones, and of four out of fewer; and each without its
/// last byte.
fn rows_of_entries(run: &mut Run, side: usize, sizes: &Sizes) -> Ran {
    let (buckets, slot) = (sizes.buckets as u32, 1 << sizes.position_bits);
    let critical = [0, 1, 2, 63, 64, 65, buckets - 1, buckets, slot - 1, slot, u32::MAX];
    let of_four = lists_of(4, &[0, 1, 64, buckets - 1]);
    for row in (1..=3).flat_map(|length| lists_of(length, &critical)).chain(of_four) {
        let row = entries(sizes, &row);
        run.ask_row(side, &row)?;
        run.ask_row(side, &row[..row.len() - 1])?;
    }
    Ok(())
}

/// Full lists of neighbours from each low bucket up, with bit parts sound and not.
fn full_rows(run: &mut Run, side: usize, sizes: &Sizes) -> Ran {
    (0..100).try_for_each(|length| run.ask_row(side, &vec![0; length]))?;
    for low in (0..67).chain([127, 128, 129]) {
        let list: Vec<u32> = (low..low + sizes.top as u32).rev().collect();
        let list = entries(sizes, &list);
        (0..20).try_for_each(|more| run.ask_row(side, &[&list[..], &vec![0; more]].concat()))?;
        for spare in (0..66).chain([255]) {
            for blocks in 1..4 {
                run.ask_row(side, &[&list[..], &[spare], &vec![0; 8 * blocks]].concat())?;
            }
        }
        let blocks = (low as usize).div_ceil(64);
        let spare = 63 - (low.wrapping_sub(1) % 64) as u8;
        for bit in 0..64 * blocks {
            let mut row = [&list[..], &[spare], &vec![0; 8 * blocks]].concat();
            row[list.len() + 1 + bit / 8] = 1 << (bit % 8);
            run.ask_row(side, &row)?;
        }
        run.ask_row(side, &[&list[..], &vec![0; sizes.longest + 8 - list.len()]].concat())?;
    }
    Ok(())
}

/// Full lists with an entry in each of the highest blocks: the last three of them in any order, with
/// repeats, above no bit, the bit next to them or bit 0; each bit of the last block from the boundary on;
/// and too long.
fn spread_rows(run: &mut Run, side: usize, sizes: &Sizes) -> Ran {
    let highest = sizes.buckets as u32 - 63;
    let list: Vec<u32> = (0..sizes.top as u32).map(|place| highest - 64 * place).collect();
    let (first, last) = list.split_at(sizes.top - 3);
    for last in lists_of(3, last) {
        for bits in [&[][..], &[last[2] - 1], &[0]] {
            run.ask_row(side, &made(sizes, &[first, &last, bits].concat()).row)?;
        }
    }
    let boundary = last[2];
    for bit in boundary..boundary + 63 {
        run.ask_row(side, &made(sizes, &[&list[..], &[bit]].concat()).row)?;
    }
    let mut row = made(sizes, &list).row;
    row.resize(sizes.longest + 8, 0);
    run.ask_row(side, &row)
}
