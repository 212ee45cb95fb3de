//! `answers list` writes a fixed list of the Rust's answers, which crates/vectors replays:
//! the same bytes at every run. The forms of its lines are told in oracle/README.md.

mod inputs;
mod lines;

use inputs::{joined, run, Inputs};
use lines::Lines;

fn main() {
    if std::env::args().skip(1).ne(["list".to_string()]) {
        eprintln!("usage: answers list");
        std::process::exit(2);
    }
    for inputs in [Inputs::of_7(), Inputs::of_10(), Inputs::of_13()] {
        let mut asked = Asked { lines: Lines::of(inputs.config), inputs };
        asked.rows();
        asked.iterations();
        asked.toggles();
        asked.differences();
        asked.counts();
        asked.builders();
        asked.masks();
        print!("{}", asked.lines.text);
    }
}

/// The questions of one configuration.
struct Asked {
    lines: Lines,
    inputs: Inputs,
}

impl Asked {
    fn rows(&mut self) {
        let Inputs { top, buckets, .. } = self.inputs;
        let few: [&[u32]; 8] =
            [&[], &[0], &[1], &[63], &[64], &[65], &[buckets - 1], &[buckets - 1, 64, 63, 0]];
        few.iter().for_each(|set| self.lines.row(set));
        for size in [top - 1, top, top + 1, 2 * top] {
            self.lines.row(&run(0, size));
            self.lines.row(&run(1, size));
            let set = self.inputs.spread(size, 5 * top);
            self.lines.row(&set);
        }
        for boundary in [1, 2, 63, 64, 65, 127, 128, 129] {
            let set = self.inputs.bounded(boundary, boundary % 2 == 0, 9);
            self.lines.row(&set);
        }
        for set in self.inputs.random_sets().into_iter().chain(self.inputs.long_sets()) {
            self.lines.row(&set);
        }
    }

    fn iterations(&mut self) {
        let Inputs { top, buckets, .. } = self.inputs;
        let few: [&[u32]; 4] = [&[], &[0], &[buckets - 1], &[buckets - 1, 0]];
        few.iter().for_each(|set| self.lines.iterate(set));
        for size in [top, top + 1] {
            self.lines.iterate(&run(0, size));
        }
        for boundary in [63, 64, 65] {
            let set = self.inputs.bounded(boundary, true, 20);
            self.lines.iterate(&set);
        }
        for set in self.inputs.random_sets().into_iter().chain(self.inputs.long_sets()).step_by(2) {
            self.lines.iterate(&set);
        }
    }

    fn toggles(&mut self) {
        let Inputs { top, buckets, .. } = self.inputs;
        self.lines.toggle(&[], &[5]);
        self.lines.toggle(&[], &[5, 5]);
        self.lines.toggle(&[], &[5, 5, 5]);
        self.lines.toggle(&[buckets - 1, 0], &[0, buckets - 1]);
        self.lines.toggle(&[3], &[]);
        self.lines.toggle(&run(0, top), &[0]);
        self.lines.toggle(&run(1, top), &[top + 1]);
        self.lines.toggle(&run(1, top), &[top + 1, top + 1]);
        self.lines.toggle(&run(1, top), &[1, 0, 0, 0]);
        self.lines.toggle(&run(1, top - 1), &[buckets - 1]);
        for boundary in [1, 2, 63, 64, 65, 128] {
            let set = self.inputs.bounded(boundary, boundary == 64, 4);
            // the last top entry goes, one comes in above, and the bits are met
            self.lines.toggle(&set, &[boundary]);
            let toggles = [buckets - 1, boundary - 1, boundary, boundary - 1, boundary - 1];
            self.lines.toggle(&set, &toggles);
        }
        for set in self.inputs.random_sets() {
            let toggles = self.inputs.toggles_near(&set);
            self.lines.toggle(&set, &toggles);
        }
    }

    fn differences(&mut self) {
        let Inputs { top, buckets, .. } = self.inputs;
        self.lines.difference(&[], &[]);
        self.lines.difference(&[buckets - 1, 5], &[buckets - 1, 5]);
        self.lines.difference(&[0], &[buckets - 1]);
        self.lines.difference(&run(0, top), &[]);
        self.lines.difference(&run(0, top), &run(1, top));
        self.lines.difference(&run(0, 2 * top), &run(top, top));
        self.lines.difference(&run(0, 2 * top), &run(0, top - 1));
        let [at_edge, below_edge] = self.inputs.low_window_edges();
        self.lines.difference(&at_edge, &[]);
        self.lines.difference(&below_edge[..9], &below_edge[9..]);
        for a in self.inputs.random_sets() {
            let near = self.inputs.near(&a);
            self.lines.difference(&a, &near);
            let other = self.inputs.geometric(a.len() as u32 / 2 + 2);
            self.lines.difference(&other, &a);
        }
        for a in self.inputs.long_sets() {
            let other = self.inputs.geometric(20);
            self.lines.difference(&a, &other);
        }
    }

    fn counts(&mut self) {
        let Inputs { top, buckets, .. } = self.inputs;
        let few: [&[u32]; 4] = [&[], &[0], &[buckets - 1], &[buckets - 1, 64, 63, 0]];
        few.iter().for_each(|set| self.lines.count(set));
        for size in [top - 1, top, top + 1, 2 * top] {
            self.lines.count(&run(0, size));
        }
        for set in self.inputs.window_edges().into_iter().chain(self.inputs.low_window_edges()) {
            self.lines.count(&set);
        }
        for set in self.inputs.random_sets().into_iter().chain(self.inputs.long_sets()) {
            self.lines.count(&set);
        }
    }

    fn builders(&mut self) {
        let Inputs { top, level, buckets, .. } = self.inputs;
        for (turn, split) in [0, 1, 63, 64, 65, level, buckets - level, buckets].into_iter().enumerate() {
            // to a lower split, to the same, to a higher one, to the highest
            let to = [split / 2, split, (split + 100).min(buckets), buckets][turn % 4];
            let (few, more) = (self.inputs.pushes(7), self.inputs.pushes(5));
            self.lines.build(split, &few, to, &more);
            self.lines.build(split, &[few.clone(), few.clone()].concat(), buckets, &few);
            let (many, more) = (self.inputs.low_pushes(2 * top + 40), self.inputs.pushes(9));
            self.lines.build(split, &many, to, &more);
        }
        self.lines.build(0, &[], 0, &[]);
        self.lines.build(buckets, &[buckets - 1, 0], buckets, &[buckets - 1]);
        // the split rises to the highest buckets; in the Rust it passes them all
        let high = run(buckets - 2 * top, 2 * top);
        let below = [buckets - 2 * top - 1];
        let emptying = [&below[..], &high, &below].concat();
        self.lines.build(buckets - level + 8, &[&high[..], &emptying].concat(), 0, &[3]);
        let above = self.inputs.pushes_above(level);
        self.lines.build(level, &above, 0, &above[..5]);
        let (first, second) = (self.inputs.pushes(top), self.inputs.pushes(2 * top));
        self.lines.build(0, &first, level / 2, &second);
    }

    /// Keys and orders, by masks of every size.
    fn masks(&mut self) {
        for size in 1..64 {
            for turn in 0..self.inputs.masks_each {
                let mask = self.inputs.mask(size, turn);
                let set = self.inputs.masked_set(mask, size, turn);
                self.lines.key(mask, size, &set);
                let mask = self.inputs.mask(size, turn + 1);
                let set = self.inputs.masked_set(mask, size, turn + 1);
                let other = self.inputs.other_masked(mask, size, &set);
                match self.inputs.random.below(2) {
                    0 => self.lines.order(mask, size, &set, &other),
                    _ => self.lines.order(mask, size, &other, &set),
                }
            }
        }
        let (all, five) = ([400, 300, 200, 100, 64], [65, 64, 63]);
        self.lines.key(1, 1, &all);
        self.lines.key(1, 1, &joined(&all[..4], &[63]));
        self.lines.key(5, 3, &five);
        self.lines.key(1, 1, &[5]);
        self.lines.key(1, 1, &[5, 0]);
        self.lines.order(1, 1, &[5], &[5, 0]);
        self.lines.order(5, 3, &five, &[65, 63]);
        self.lines.order(1, 1, &[], &[]);
    }
}
