//! Each call, on filters of a load.

use crate::clock::in_a_row;
use crate::loads::{items, Load, MILLION};
use crate::ours::{self, Builder, Filter, Sizes};
use crate::sets::{new_builder, push_each, reading, Config, Set};
use crate::table::{Areas, Line, Table, Wanted};
use crate::{agree, many};
use geo_filters::held::{self, GeoDiffCount};
use std::hint::black_box;

/// What is wanted where the Rust judges nothing and does little else.
const JUDGED: Wanted = Wanted::OfJudging(2.0);

pub struct Calls<C: Config> {
    pub table: Table,
    pub sizes: Sizes,
    load: Load,
    a: Set<C>,
    copy: Set<C>,
    b: Set<C>,
}

impl<C: Config> Calls<C> {
    pub fn on(config: u64, load: Load) -> Self {
        let sizes = Sizes::of(config);
        let [a, b] = load.two_sets::<C>(sizes.top);
        let (a, b) = (Set::of(a, sizes), Set::of(b, sizes));
        Self {
            table: Table {
                config,
                load: load.name(),
            },
            sizes,
            load,
            copy: a.clone(),
            a,
            b,
        }
    }

    pub fn all(&self) {
        self.symmetric_difference();
        self.orders();
        self.differences();
        self.counts();
        self.key();
        self.reading();
        self.opening();
        self.writing();
        self.step("reader step, at place 0", 0);
        self.step("reader step, in the middle", held::exact(&self.a.rust) / 2);
        self.toggling_one();
        self.pushing_one();
        self.toggling_a_million();
    }

    fn when_dense(&self, most: f64) -> Wanted {
        match self.load {
            Load::Dense => Wanted::OfRust(most),
            _ => Wanted::Nothing,
        }
    }

    pub fn symmetric_difference(&self) {
        let (a, b) = (&self.a, &self.b);
        agree::of_difference(self.sizes, a, b);
        let wanted = match self.load {
            Load::Sparse => Wanted::OfRust(1.0),
            Load::Medium => Wanted::OfRust(0.35),
            Load::Dense => Wanted::OfRust(0.25),
            Load::Items(_) => Wanted::Nothing,
        };
        let rust = || GeoDiffCount::symmetric_difference(black_box(&a.rust), black_box(&b.rust));
        let mut to = Filter::empty(self.sizes);
        self.table.line(
            Line::of("symmetric difference", wanted).writing(Areas::AsLeft),
            [
                &mut in_a_row(|| a.ours.symmetric_difference(&b.ours, &mut to)),
                &mut in_a_row(rust),
                &mut in_a_row(|| a.ours.judge_two(&b.ours)),
            ],
        );
    }

    fn orders(&self) {
        self.order_of_equal();
        let (equal, different) = (self.when_dense(0.3), Wanted::Nothing);
        self.order("order, equal, mask 5 of 3", equal, &self.copy, 5, 3);
        self.order("order, different, mask 1 of 1", different, &self.b, 1, 1);
        self.order("order, different, mask 5 of 3", different, &self.b, 5, 3);
        self.order_of_rows("rows, equal, mask 1 of 1", &self.copy, 1, 1);
        self.order_of_rows("rows, equal, mask 5 of 3", &self.copy, 5, 3);
        self.order_of_rows("rows, different, mask 1 of 1", &self.b, 1, 1);
        self.order_of_rows("rows, different, mask 5 of 3", &self.b, 5, 3);
    }

    pub fn order_of_equal(&self) {
        let wanted = self.when_dense(0.3);
        self.order("order, equal, mask 1 of 1", wanted, &self.copy, 1, 1);
    }

    fn order(&self, call: &str, wanted: Wanted, b: &Set<C>, mask: u64, size: usize) {
        let a = &self.a;
        agree::of_order(self.sizes, a, b, mask, size);
        let rust = || {
            let (mask, size) = black_box((mask, size));
            black_box(&a.rust).cmp_masked(black_box(&b.rust), mask, size)
        };
        self.table.line(
            Line::of(call, wanted),
            [
                &mut in_a_row(|| a.ours.cmp_masked(&b.ours, mask, size)),
                &mut in_a_row(rust),
                &mut in_a_row(|| a.ours.judge_two(&b.ours)),
            ],
        );
    }

    fn order_of_rows(&self, call: &str, b: &Set<C>, mask: u64, size: usize) {
        let (a, config) = (&self.a, self.sizes.config);
        agree::of_order(self.sizes, a, b, mask, size);
        let rust = || {
            let (mask, size) = black_box((mask, size));
            let (a, b) = (reading::<C>(black_box(&a.row)), reading(black_box(&b.row)));
            a.cmp_masked(&b, mask, size)
        };
        let judging = || {
            ours::judge_row(config, &a.row);
            ours::judge_row(config, &b.row);
        };
        self.table.line(
            Line::of(call, Wanted::OfRust(0.3)),
            [
                &mut in_a_row(|| ours::cmp_rows(config, mask, size, &a.row, &b.row)),
                &mut in_a_row(rust),
                &mut in_a_row(judging),
            ],
        );
    }

    fn differences(&self) {
        let (a, b) = (&self.a, &self.b);
        agree::of_difference(self.sizes, a, b);
        let exact = || {
            let (a, b) = (black_box(&a.rust), black_box(&b.rust));
            held::exact(&GeoDiffCount::symmetric_difference(a, b))
        };
        self.table.line(
            Line::of("exact difference", self.when_dense(0.5)),
            [
                &mut in_a_row(|| a.ours.exact_difference(&b.ours)),
                &mut in_a_row(exact),
                &mut in_a_row(|| a.ours.judge_two(&b.ours)),
            ],
        );
        let limited = || held::limited_difference(black_box(&a.rust), black_box(&b.rust));
        self.table.line(
            Line::of("limited difference", self.when_dense(0.5)),
            [
                &mut in_a_row(|| a.ours.limited_difference(&b.ours)),
                &mut in_a_row(limited),
                &mut in_a_row(|| a.ours.judge_two(&b.ours)),
            ],
        );
    }

    fn counts(&self) {
        let a = &self.a;
        agree::of_counts(a);
        self.table.line(
            Line::of("exact count", Wanted::Nothing),
            [
                &mut in_a_row(|| a.ours.exact_count()),
                &mut in_a_row(|| held::exact(black_box(&a.rust))),
                &mut in_a_row(|| a.ours.judge()),
            ],
        );
        self.table.line(
            Line::of("limited count", Wanted::Nothing),
            [
                &mut in_a_row(|| a.ours.limited_count()),
                &mut in_a_row(|| held::limited(black_box(&a.rust))),
                &mut in_a_row(|| a.ours.judge()),
            ],
        );
    }

    fn key(&self) {
        let a = &self.a;
        agree::of_key(a, 5, 3);
        let rust = || {
            let (mask, size) = black_box((5, 3));
            black_box(&a.rust).masked_sort_key(mask, size)
        };
        self.table.line(
            Line::of("key, mask 5 of 3", JUDGED),
            [
                &mut in_a_row(|| a.ours.masked_sort_key(5, 3)),
                &mut in_a_row(rust),
                &mut in_a_row(|| a.ours.judge()),
            ],
        );
    }

    fn reading(&self) {
        let (a, config) = (&self.a, self.sizes.config);
        agree::of_reading(self.sizes, a);
        let mut to = Filter::empty(self.sizes);
        self.table.line(
            Line::of("reading a row", JUDGED).writing(Areas::AsLeft),
            [
                &mut in_a_row(|| to.read(config, &a.row)),
                &mut in_a_row(|| reading::<C>(black_box(&a.row)).into_owned()),
                &mut in_a_row(|| ours::judge_row(config, &a.row)),
            ],
        );
    }

    fn opening(&self) {
        let (a, config) = (&self.a, self.sizes.config);
        agree::of_opening(self.sizes, a);
        self.table.line(
            Line::of("opening a row", JUDGED),
            [
                &mut in_a_row(|| ours::open(config, &a.row)),
                &mut in_a_row(|| held::exact(&reading::<C>(black_box(&a.row)))),
                &mut in_a_row(|| ours::judge_row(config, &a.row)),
            ],
        );
    }

    fn writing(&self) {
        let a = &self.a;
        let mut row = vec![0; self.sizes.longest];
        let mut theirs = Vec::with_capacity(self.sizes.longest);
        let rust = || {
            theirs.clear();
            black_box(&a.rust).write(black_box(&mut theirs)).is_ok()
        };
        self.table.line(
            Line::of("writing a row", JUDGED).writing(Areas::AsLeft),
            [
                &mut in_a_row(|| a.ours.write(&mut row)),
                &mut in_a_row(rust),
                &mut in_a_row(|| a.ours.judge()),
            ],
        );
    }

    fn step(&self, call: &str, place: usize) {
        let (a, config) = (&self.a, self.sizes.config);
        agree::of_step(self.sizes, a, place);
        self.table.line(
            Line::of(call, JUDGED),
            [
                &mut in_a_row(|| ours::step(config, place, &a.row)),
                &mut in_a_row(|| held::one_at(&reading::<C>(black_box(&a.row)), black_box(place))),
                &mut in_a_row(|| ours::judge_row(config, &a.row)),
            ],
        );
    }

    fn toggling_one(&self) {
        let (mut ours, mut judged, mut rust) = (
            self.a.ours.clone(),
            self.a.ours.clone(),
            self.a.rust.clone(),
        );
        let (mut list, mut same_list) = (there_and_back::<C>(), there_and_back::<C>());
        self.table.line(
            Line::of("toggling one bucket", JUDGED).writing(Areas::AsLeft),
            [
                &mut in_a_row(|| ours.toggle(&[list()])),
                &mut in_a_row(|| held::toggle(&mut rust, same_list())),
                &mut in_a_row(|| judged.judge_list(&[self.sizes.outside()])),
            ],
        );
    }

    fn pushing_one(&self) {
        let mut ours = Builder::new(self.sizes);
        ours.push(&self.a.items);
        let mut rust = new_builder::<C>();
        push_each(&mut rust, &self.a.items);
        let mut judged = ours.clone();
        let (mut list, mut same_list) = (there_and_back::<C>(), there_and_back::<C>());
        self.table.line(
            Line::of("pushing one bucket", JUDGED).writing(Areas::AsLeft),
            [
                &mut in_a_row(|| ours.push(&[list()])),
                &mut in_a_row(|| rust.push_hash(same_list().into())),
                &mut in_a_row(|| judged.judge()),
            ],
        );
    }

    fn toggling_a_million(&self) {
        let list: Vec<u32> = items::<C>(4).take(MILLION).collect();
        let line = Line::of("toggling a million, a bucket", Wanted::OfRust(0.6)).per(MILLION);
        many::toggle(&self.table, line, self.sizes, &self.a, &list);
    }
}

/// The buckets of some items over and over, each twice, so that the load stays.
fn there_and_back<C: Config>() -> impl FnMut() -> u32 {
    let list: Vec<u32> = items::<C>(5).take(256).collect();
    let mut place = 0;
    move || {
        let bucket = list[place / 2 % 256];
        place += 1;
        bucket
    }
}
