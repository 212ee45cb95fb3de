//! The cases that were run, by call, configuration and load.

use crate::cases::Call;
use crate::ours::Sizes;
use std::collections::BTreeMap;

const LOADS: [&str; 5] = ["empty", "below M/2", "up to M", "up to 10M", "dense"];

fn load(size: usize, top: usize) -> usize {
    match size {
        0 => 0,
        _ if size < top / 2 => 1,
        _ if size <= top => 2,
        _ if size <= 10 * top => 3,
        _ => 4,
    }
}

/// Of one configuration: all cases, those with more than M members, and those with a boundary above 0
/// within two of a multiple of 64.
#[derive(Clone, Copy, Default)]
struct Shares {
    all: u64,
    over: u64,
    near: u64,
}

#[derive(Default)]
pub struct Table {
    loads: BTreeMap<(Call, u32), [u64; LOADS.len()]>,
    shares: BTreeMap<u32, Shares>,
}

impl Table {
    /// One case, on a filter of this size and boundary.
    pub fn count(&mut self, sizes: &Sizes, call: Call, size: usize, boundary: usize) {
        let loads = self.loads.entry((call, sizes.config)).or_default();
        loads[load(size, sizes.top)] += 1;
        let shares = self.shares.entry(sizes.config).or_default();
        shares.all += 1;
        shares.over += (size > sizes.top) as u64;
        shares.near += (boundary > 0 && (boundary + 2) % 64 < 5) as u64;
    }

    pub fn of(&self, config: u32) -> u64 {
        self.shares.get(&config).map_or(0, |shares| shares.all)
    }

    pub fn all(&self) -> u64 {
        self.shares.values().map(|shares| shares.all).sum()
    }

    /// Each configuration has a fifth of the cases; of these a fifth have more than M members, and a
    /// tenth a boundary near a multiple of 64.
    pub fn is_balanced(&self) -> bool {
        let balanced = |shares: &Shares| {
            5 * shares.all >= self.all() && 5 * shares.over >= shares.all && 10 * shares.near >= shares.all
        };
        self.shares.len() == 3 && self.shares.values().all(balanced)
    }

    pub fn print(&self) {
        print!("{:34} {:>6}", "call", "config");
        LOADS.iter().for_each(|load| print!(" {load:>10}"));
        println!(" {:>10}", "all");
        for ((call, config), loads) in &self.loads {
            print!("{:34} {config:>6}", call.name());
            loads.iter().for_each(|cases| print!(" {cases:>10}"));
            println!(" {:>10}", loads.iter().sum::<u64>());
        }
        for (config, shares) in &self.shares {
            let percent = |part: u64| 100.0 * part as f64 / shares.all as f64;
            println!(
                "configuration {config}: {} cases, {:.1}% with more than M members, {:.1}% with a boundary within two of a multiple of 64",
                shares.all,
                percent(shares.over),
                percent(shares.near),
            );
        }
    }
}
