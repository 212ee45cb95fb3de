//! Ways followed, ours and the Rust's: each filter on the way is held against the Rust's, and the last one
//! against what plain code makes of the list, so that all ways end alike.

use crate::cases::{holds_filter, pushes, same, stays, Buffer, Compared, Difference};
use crate::inputs::{Plan, Step};
use crate::ours::{Answer, Lent, Sizes};
use crate::plain;
use crate::ways::{Way, Ways};
use geo_filters::probe::{self, Given, Made};

/// Our filter and the Rust's.
type Reached = Result<(Lent, Made), Difference>;

/// The lists of one configuration.
pub struct Followed {
    sizes: Sizes,
    buffer: Buffer,
    pub lists: usize,
    /// Pushes that moved the split, and those that did so though all that they listed had room.
    moved: usize,
    early: usize,
}

impl Followed {
    pub fn new(sizes: Sizes) -> Self {
        Self { sizes, buffer: Buffer::new(&sizes), lists: 0, moved: 0, early: 0 }
    }

    pub fn print(&self) {
        let Self { sizes: Sizes { config, .. }, lists, moved, early, .. } = self;
        println!(
            "configuration {config}: {lists} lists, each toggled, built and grouped; pushes that moved the split: {moved}, before the area was full: {early}"
        );
    }

    /// Pending areas were met full often enough.
    pub fn met_full(&self) -> bool {
        10 * self.moved >= self.lists
    }

    pub fn compare(&mut self, ways: &Ways) -> Compared {
        self.lists += 1;
        let wanted = plain::made(&self.sizes, &ways.set());
        let rust = probe::toggle(self.sizes.config, Given::Ones(&[]), &ways.list);
        if wanted != rust {
            return Err(Difference { ours: format!("plain code: {wanted:?}"), theirs: format!("{rust:?}") });
        }
        for way in &ways.ways {
            let (filter, _) = self.follow(way, ways.past)?;
            self.check(&filter, Ok(()), &wanted)?;
        }
        Ok(())
    }

    fn follow(&mut self, way: &Way, past: usize) -> Reached {
        let (config, mut filter) = (self.sizes.config, Lent::filter(&self.sizes, past));
        let (answer, made) = match way {
            Way::Toggled(parts) => {
                let mut each = parts.iter();
                let answer =
                    filter.empty(config).and_then(|()| each.try_for_each(|part| filter.toggle(part)));
                (answer, probe::toggle(config, Given::Ones(&[]), &parts.concat()))
            }
            Way::Built(plan) => {
                let answer = self.build(plan, past, &mut filter)?;
                (answer, probe::build(config, plan.split, &pushes(plan)).1)
            }
            Way::Joined(two) => {
                let [a, b] = [self.follow(&two[0], past)?, self.follow(&two[1], past)?];
                let answer = a.0.symmetric_difference(&b.0, &mut filter);
                self.check(&a.0, Ok(()), &a.1)?;
                self.check(&b.0, Ok(()), &b.1)?;
                (answer, probe::symmetric_difference(config, Given::Row(&a.1.row), Given::Row(&b.1.row)))
            }
        };
        self.check(&filter, answer, &made)?;
        Ok((filter, made))
    }

    /// Record, areas, guards and row; the bytes behind the row stay.
    fn check(&mut self, filter: &Lent, answer: Answer<()>, made: &Made) -> Compared {
        holds_filter(self.sizes.config, filter, answer, &made.parts)?;
        self.buffer.written(filter, &made.row, self.sizes.longest)
    }

    /// Finishing leaves the builder as it was.
    fn build(&mut self, plan: &Plan, past: usize, to: &mut Lent) -> Result<Answer<()>, Difference> {
        let mut builder = Lent::builder(&self.sizes, past);
        same(builder.builder_new(self.sizes.config, plan.split), ())?;
        for step in &plan.steps {
            match step {
                Step::Push(list) => self.push(&mut builder, list)?,
                Step::Raise(to) => raise(&mut builder, *to)?,
            }
        }
        let before = builder.clone();
        let answer = builder.builder_finish(to);
        stays(&builder, &before)?;
        Ok(answer)
    }

    /// The split moves only where the pending area is met full.
    fn push(&mut self, builder: &mut Lent, list: &[u32]) -> Compared {
        let ([_, split, pending], room) = (builder.record, 2 * self.sizes.top);
        same(builder.builder_push(list), ())?;
        if !builder.guarded() {
            return Err(Difference { ours: builder.shown(), theirs: "the guards as they were".into() });
        }
        if builder.record[1] == split {
            return Ok(());
        }
        self.moved += 1;
        let above = list.iter().filter(|&&bucket| bucket as u64 >= split).count();
        if pending as usize + above > room {
            return Ok(());
        }
        self.early += 1;
        let ours = format!("{pending} pending, {above} more, and the split moved from {split}");
        Err(Difference { ours, theirs: format!("there is room for {room}") })
    }
}

/// Nothing but the split changes, and it never falls.
fn raise(builder: &mut Lent, to: usize) -> Compared {
    let mut raised = builder.clone();
    raised.record[1] = raised.record[1].max(to as u64);
    same(builder.builder_raise(to), ())?;
    stays(builder, &raised)
}
