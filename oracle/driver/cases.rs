//! One case: a call of ours on an input, held against what the Rust answers to the same.

use crate::ffi::{EQUAL, FILTER, GREATER, LESS};
use crate::inputs::{Mask, Plan, Step};
use crate::ours::{self, shown, Answer, Lent, Sizes};
use geo_filters::probe::{self, Given, Made, Parts};
use std::cmp::Ordering;
use std::fmt::Debug;

#[derive(Clone, Copy, Debug, PartialEq, Eq, PartialOrd, Ord)]
pub enum Call {
    SizesOf,
    Make,
    Toggle,
    SymmetricDifference,
    Inside,
    Finish,
    Batch,
    ExactCount,
    LimitedCount,
    ExactDifference,
    LimitedDifference,
    Order,
    DerivedOrder,
    Key,
    Write,
    Read,
    Open,
    CmpRows,
    GreaterRow,
    StepAt,
    ReaderStep,
    Ways,
    Spoiled,
}

impl Call {
    /// Our call, and what of the Rust it is held against where the names do not tell.
    pub fn name(self) -> &'static str {
        match self {
            Call::SizesOf => "sizes_of: GeoConfig",
            Call::Make => "empty, toggle",
            Call::Toggle => "toggle",
            Call::SymmetricDifference => "symmetric_difference",
            Call::Inside => "builder_push: the inside",
            Call::Finish => "builder_finish",
            Call::Batch => "builder_finish: extend_by_hashes",
            Call::ExactCount => "exact_count: msb.len, count_ones",
            Call::LimitedCount => "limited_count",
            Call::ExactDifference => "exact_difference: likewise",
            Call::LimitedDifference => "limited_difference",
            Call::Order => "cmp_masked",
            Call::DerivedOrder => "cmp_masked 1 1: derived order",
            Call::Key => "masked_sort_key",
            Call::Write => "write",
            Call::Read => "read",
            Call::Open => "open: msb.len, count_ones",
            Call::CmpRows => "cmp_rows: cmp_masked",
            Call::GreaterRow => "greater_row: cmp_masked",
            Call::StepAt => "step_at: iter_ones",
            Call::ReaderStep => "row_reader_step: iter_ones",
            Call::Ways => "toggled, built, grouped",
            Call::Spoiled => "read: spoiled rows",
        }
    }
}

/// Both answers, where they differ.
#[derive(Debug)]
pub struct Difference {
    pub ours: String,
    pub theirs: String,
}

impl Difference {
    pub fn panics(panic: String) -> Self {
        Self { ours: "not asked".into(), theirs: format!("panics: {panic}") }
    }
}

pub type Compared = Result<(), Difference>;

pub fn same<T: Debug + PartialEq>(ours: Answer<T>, theirs: T) -> Compared {
    let theirs = Ok(theirs);
    match ours == theirs {
        true => Ok(()),
        false => Err(Difference { ours: format!("{ours:?}"), theirs: format!("{theirs:?}") }),
    }
}

/// A set, with the Rust's filter of it and ours.
pub struct Subject {
    pub set: Vec<u32>,
    pub made: Made,
    pub ours: Lent,
    /// The Rust's walk over the row.
    ones: Vec<u32>,
    /// The Rust is asked about a filter that it made of the set, or about one that borrows the row.
    owned: bool,
}

impl Subject {
    pub fn new(sizes: &Sizes, set: Vec<u32>, owned: bool) -> Self {
        let made = probe::toggle(sizes.config, Given::Ones(&[]), &set);
        let ones = probe::ones_of(sizes.config, Given::Row(&made.row));
        let mut ours = Lent::filter(sizes, set.len() % 3);
        // a refusal leaves the guards, which the case `Make` meets
        let _ = ours.empty(sizes.config).and_then(|()| ours.toggle(&set));
        Self { set, made, ours, ones, owned }
    }

    fn given(&self) -> Given<'_> {
        match self.owned {
            true => Given::Ones(&self.set),
            false => Given::Row(&self.made.row),
        }
    }
}

/// What a call is asked about; each looks at what it needs.
#[derive(Clone, Copy)]
pub struct Case<'a> {
    pub call: Call,
    pub a: &'a Subject,
    pub b: &'a Subject,
    pub list: &'a [u32],
    pub mask: Mask,
    pub place: usize,
    pub plan: &'a Plan,
}

static NO_PLAN: Plan = Plan { split: 0, steps: Vec::new() };

impl<'a> Case<'a> {
    /// The case that the filters are as they were made.
    pub fn of(a: &'a Subject, b: &'a Subject) -> Self {
        Self { call: Call::Make, a, b, list: &[], mask: (1, 1), place: 0, plan: &NO_PLAN }
    }
}

/// The buffer that rows are written to, and what it held before.
pub struct Buffer {
    bytes: Vec<u8>,
    before: Vec<u8>,
}

impl Buffer {
    pub fn new(sizes: &Sizes) -> Self {
        let bytes = vec![0xa5; sizes.longest + 16];
        Self { before: bytes.clone(), bytes }
    }

    /// The filter is written as this row, and the bytes behind it stay.
    pub fn written(&mut self, filter: &Lent, row: &[u8], lent: usize) -> Compared {
        let length = filter.write(&mut self.bytes[..lent]);
        self.before[..row.len()].copy_from_slice(row);
        if length == Ok(row.len()) && self.bytes == self.before {
            return Ok(());
        }
        let other = (0..self.bytes.len()).find(|&place| self.bytes[place] != self.before[place]);
        let at = other.map(|place| (place, self.bytes[place], self.before[place]));
        self.bytes.copy_from_slice(&self.before);
        let ours = format!("length {length:?}; first other byte, ours and the Rust's: {at:x?}");
        Err(Difference { ours, theirs: format!("length {}: {}", row.len(), hex(row)) })
    }
}

/// A row in hex; of many zeroes at its end only the number.
pub fn hex(row: &[u8]) -> String {
    let end = row.iter().rposition(|&byte| byte != 0).map_or(0, |last| last + 1);
    let hex = |bytes: &[u8]| -> String { bytes.iter().map(|byte| format!("{byte:02x}")).collect() };
    match row.len() - end {
        0..=64 => hex(row),
        zeroes => format!("{} and {zeroes} bytes 00", hex(&row[..end])),
    }
}

/// The cases of one configuration, with the areas that its calls write to.
pub struct Compare {
    pub sizes: Sizes,
    target: Lent,
    builder: Lent,
    buffer: Buffer,
}

impl Compare {
    pub fn new(sizes: Sizes) -> Self {
        let (target, builder) = (Lent::filter(&sizes, 1), Lent::builder(&sizes, 1));
        Self { sizes, target, builder, buffer: Buffer::new(&sizes) }
    }

    pub fn compare(&mut self, case: &Case) -> Compared {
        let Case { a, plan, .. } = case;
        match case.call {
            Call::Make => self.holds(&a.ours, Ok(()), &a.made.parts),
            Call::Toggle => self.toggle(case),
            Call::SymmetricDifference => self.symmetric_difference(case),
            Call::Inside => self.inside(plan),
            Call::Finish => self.finish(plan),
            Call::Batch => self.batch(plan),
            Call::Write => self.write(a),
            Call::Read => {
                let answer = self.target.read(self.sizes.config, &a.made.row);
                self.holds(&self.target, answer, &a.made.parts)
            }
            _ => self.figures(case),
        }
    }

    /// The calls that answer by numbers.
    fn figures(&self, case: &Case) -> Compared {
        let (config, Case { a, b, place, mask: (mask, size), .. }) = (self.sizes.config, *case);
        let (of_a, of_b, row_a, row_b) = (a.given(), b.given(), &a.made.row, &b.made.row);
        let order = || probe::order(config, of_a, of_b, mask, size);
        match case.call {
            Call::SizesOf => same(ours::sizes_of(config).map(told), probe::sizes(config)),
            Call::ExactCount => same(a.ours.exact_count(), probe::exact(config, of_a)),
            Call::LimitedCount => same(a.ours.limited_count(), probe::limited(config, of_a)),
            Call::ExactDifference => {
                same(a.ours.exact_difference(&b.ours), probe::exact_difference(config, of_a, of_b))
            }
            Call::LimitedDifference => {
                same(a.ours.limited_difference(&b.ours), probe::limited_difference(config, of_a, of_b))
            }
            Call::Order => same(a.ours.cmp_masked(&b.ours, mask, size), code(order())),
            Call::DerivedOrder => {
                same(a.ours.cmp_masked(&b.ours, 1, 1), code(probe::derived_order(config, of_a, of_b)))
            }
            Call::Key => same(a.ours.masked_sort_key(mask, size), probe::key(config, of_a, mask, size)),
            Call::Open => same(ours::open(config, row_a), probe::exact(config, of_a)),
            Call::CmpRows => same(ours::cmp_rows(config, mask, size, row_a, row_b), code(order())),
            Call::GreaterRow => {
                same(ours::greater_row(config, mask, size, row_a, row_b), (order() == Ordering::Less).into())
            }
            Call::StepAt => same(ours::step_at(config, row_a, place), stepped(a, place)),
            Call::ReaderStep => same(ours::reader_step(config, row_a, place), stepped(a, place)),
            call => unreachable!("{call:?}"),
        }
    }

    fn holds(&self, filter: &Lent, answer: Answer<()>, parts: &Parts) -> Compared {
        holds_filter(self.sizes.config, filter, answer, parts)
    }

    /// Into a buffer that is just long enough, and into a longer one.
    fn write(&mut self, a: &Subject) -> Compared {
        let (exactly, all) = (a.made.row.len(), self.buffer.bytes.len());
        self.buffer.written(&a.ours, &a.made.row, exactly)?;
        self.buffer.bytes[..exactly].fill(0x5a);
        self.buffer.written(&a.ours, &a.made.row, all)
    }

    fn toggle(&mut self, case: &Case) -> Compared {
        let made = probe::toggle(self.sizes.config, case.a.given(), case.list);
        self.target.copy_from(&case.a.ours);
        let answer = self.target.toggle(case.list);
        self.holds(&self.target, answer, &made.parts)?;
        self.buffer.written(&self.target, &made.row, made.row.len())
    }

    fn symmetric_difference(&mut self, case: &Case) -> Compared {
        let Case { a, b, .. } = case;
        let made = probe::symmetric_difference(self.sizes.config, a.given(), b.given());
        let answer = a.ours.symmetric_difference(&b.ours, &mut self.target);
        self.holds(&self.target, answer, &made.parts)?;
        self.holds(&a.ours, Ok(()), &a.made.parts)?;
        self.holds(&b.ours, Ok(()), &b.made.parts)?;
        self.buffer.written(&self.target, &made.row, made.row.len())
    }

    fn build(&mut self, plan: &Plan) -> Answer<()> {
        self.builder.builder_new(self.sizes.config, plan.split)?;
        plan.steps.iter().try_for_each(|step| match step {
            Step::Push(list) => self.builder.builder_push(list),
            Step::Raise(to) => self.builder.builder_raise(*to),
        })
    }

    /// The builder's inside. It is open where the plan meets the pending area full.
    fn inside(&mut self, plan: &Plan) -> Compared {
        if !plan.fixes_inside(&self.sizes) {
            return Ok(());
        }
        let (inside, _) = probe::build(self.sizes.config, plan.split, &pushes(plan));
        let answer = self.build(plan);
        let record = [self.sizes.config.into(), inside.boundary as u64, inside.list.len() as u64];
        holds(&self.builder, answer, record, &inside)
    }

    /// The finished filter and its row; the builder stays as it was.
    fn finish(&mut self, plan: &Plan) -> Compared {
        let (_, made) = probe::build(self.sizes.config, plan.split, &pushes(plan));
        let answer = self.build(plan);
        let before = self.builder.clone();
        let answer = answer.and_then(|()| self.builder.builder_finish(&mut self.target));
        self.holds(&self.target, answer, &made.parts)?;
        stays(&self.builder, &before)?;
        self.buffer.written(&self.target, &made.row, made.row.len())
    }

    /// The finished row, where the Rust raises the split by its own estimate.
    fn batch(&mut self, plan: &Plan) -> Compared {
        let (_, made) = probe::build(self.sizes.config, plan.split, &batches(plan));
        let answer = self.build(plan).and_then(|()| self.builder.builder_finish(&mut self.target));
        same(answer, ())?;
        self.buffer.written(&self.target, &made.row, made.row.len())
    }
}

/// The call was answered, and what was lent holds the record and the Rust's parts.
fn holds(lent: &Lent, answer: Answer<()>, record: [u64; FILTER], parts: &Parts) -> Compared {
    if answer.is_ok() && lent.holds(record, &parts.list, &parts.blocks) {
        return Ok(());
    }
    let ours = format!("{answer:?} {}", lent.shown());
    Err(Difference { ours, theirs: shown(record, &parts.list, &parts.blocks) })
}

/// The same, of a filter.
pub fn holds_filter(config: u32, lent: &Lent, answer: Answer<()>, parts: &Parts) -> Compared {
    let record = [config.into(), parts.list.len() as u64, parts.boundary as u64];
    holds(lent, answer, record, parts)
}

/// What was lent is as it should have stayed.
pub fn stays(lent: &Lent, before: &Lent) -> Compared {
    if lent == before {
        return Ok(());
    }
    Err(Difference { ours: lent.shown(), theirs: format!("as before: {}", before.shown()) })
}

/// The plan's steps for the Rust, which pushes one by one.
pub fn pushes(plan: &Plan) -> Vec<probe::Step<'_>> {
    steps(plan, |list| probe::Step::Push(list))
}

/// In batches, before each of which the Rust raises the split by its own estimate.
fn batches(plan: &Plan) -> Vec<probe::Step<'_>> {
    steps(plan, |list| probe::Step::Batch(list))
}

fn steps(plan: &Plan, pushed: fn(&[u32]) -> probe::Step<'_>) -> Vec<probe::Step<'_>> {
    let mut steps = vec![];
    for step in &plan.steps {
        steps.push(match step {
            Step::Push(list) => pushed(list),
            Step::Raise(to) => probe::Step::Raise(*to),
        });
    }
    steps
}

/// What the Rust tells of a configuration.
fn told(sizes: Sizes) -> probe::Sizes {
    probe::Sizes {
        bits_per_level: sizes.level(),
        max_msb_len: sizes.top,
        entry_bytes: sizes.entry_bytes,
        max_bytes: sizes.budget,
        bucket_position_bits: sizes.position_bits as u32,
    }
}

fn code(order: Ordering) -> u64 {
    match order {
        Ordering::Less => LESS,
        Ordering::Equal => EQUAL,
        Ordering::Greater => GREATER,
    }
}

/// Given, bucket and next place, from the Rust's walk.
fn stepped(a: &Subject, place: usize) -> [u64; 3] {
    match a.ones.get(place) {
        Some(&bucket) => [1, bucket.into(), place as u64 + 1],
        None => [0, 0, place as u64],
    }
}
