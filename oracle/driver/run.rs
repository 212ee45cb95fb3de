//! The run: cases by turns in the three configurations, until there are enough of them.

use crate::cases::{hex, Call, Case, Compare, Difference, Subject};
use crate::caught::caught;
use crate::followed::Followed;
use crate::inputs::Inputs;
use crate::kinds::Shown;
use crate::ours::{sizes_of, Lent, Sizes};
use crate::shrink::{difference, parts, smallest, Reproduction};
use crate::spoiled::Spoiled;
use crate::table::Table;
use crate::ways::Ways;

const CONFIGS: [u32; 3] = [7, 10, 13];

/// Lists for each configuration, at least.
const LISTS: usize = 1000;

/// A difference, told with what shows it.
pub struct Failure(pub String);

pub type Ran = Result<(), Failure>;

/// What is needed of one configuration.
struct Side {
    compare: Compare,
    inputs: Inputs,
    /// Where spoiled rows are read to.
    target: Lent,
    followed: Followed,
}

pub struct Run {
    seed: u64,
    sides: [Side; 3],
    pub table: Table,
    pub spoiled: Spoiled,
}

impl Run {
    pub fn new(seed: u64) -> Self {
        let side = |config| {
            let sizes = sizes_of(config).expect("a configuration");
            let (compare, inputs) = (Compare::new(sizes), Inputs::new(sizes, seed));
            Side { compare, inputs, target: Lent::filter(&sizes, 2), followed: Followed::new(sizes) }
        };
        Self { seed, sides: CONFIGS.map(side), table: Table::default(), spoiled: Spoiled::default() }
    }

    pub fn sizes(&self, side: usize) -> Sizes {
        self.sides[side].compare.sizes
    }

    /// The lists that every run has.
    pub fn lists(&mut self) -> Ran {
        for side in 0..3 {
            (0..LISTS).try_for_each(|_| self.ask_list(side))?;
        }
        Ok(())
    }

    pub fn print_lists(&self) {
        self.sides.iter().for_each(|side| side.followed.print());
    }

    pub fn met_full(&self) -> bool {
        self.sides.iter().all(|side| side.followed.met_full())
    }

    /// Goes on until there are this many cases, always in the configuration that has the fewest.
    pub fn until(&mut self, cases: u64) -> Ran {
        while self.table.all() < cases {
            let fewest = (0..3).min_by_key(|&side| self.table.of(CONFIGS[side])).unwrap();
            self.round(fewest)?;
        }
        Ok(())
    }

    /// A set and another one, made on both sides.
    pub fn subjects(&mut self, side: usize, a: Vec<u32>, b: Vec<u32>) -> Result<[Subject; 2], Failure> {
        let sizes = self.sizes(side);
        let few = |set: &[u32]| set.len() <= 10 * sizes.top;
        let owned = [few(&a), few(&b)].map(|few| few && self.sides[side].inputs.random.once_in(4));
        let made = |set: Vec<u32>, owned| match caught(|| Subject::new(&sizes, set.clone(), owned)) {
            Ok(subject) => Ok(subject),
            Err(panic) => {
                Err(self.failure(side, Call::Make, &format!("{set:?}"), Some(Difference::panics(panic))))
            }
        };
        Ok([made(a, owned[0])?, made(b, owned[1])?])
    }

    /// One case, counted.
    pub fn ask(&mut self, side: usize, case: Case) -> Ran {
        self.check(side, case)?;
        self.table.count(&self.sizes(side), case.call, case.a.set.len(), case.a.made.parts.boundary);
        Ok(())
    }

    /// A difference is told with the smallest inputs that show it.
    fn check(&mut self, side: usize, case: Case) -> Ran {
        let compare = &mut self.sides[side].compare;
        if let Ok(Ok(())) = caught(|| compare.compare(&case)) {
            return Ok(());
        }
        let (smallest, difference) = Reproduction::of(&case).smallest(compare);
        Err(self.failure(side, case.call, &format!("{smallest:?}"), difference))
    }

    /// One row, spoiled or not.
    pub fn ask_row(&mut self, side: usize, row: &[u8]) -> Ran {
        let Side { compare: Compare { sizes, .. }, target, .. } = &mut self.sides[side];
        let mut differs =
            |row: &Vec<u8>| difference(|| self.spoiled.compare(&Shown::new(sizes, row), target));
        if differs(&row.to_vec()).is_none() {
            let shown = Shown::new(sizes, row);
            self.table.count(sizes, Call::Spoiled, shown.count(), shown.boundary);
            return Ok(());
        }
        let shorter = |row: &Vec<u8>| {
            let row = row.clone();
            parts(row.len()).map(move |part| [&row[..part.start], &row[part.end..]].concat())
        };
        let (smallest, difference) = smallest(row.to_vec(), shorter, differs);
        Err(self.failure(side, Call::Spoiled, &hex(&smallest), difference))
    }

    /// A new list, in every way.
    fn ask_list(&mut self, side: usize) -> Ran {
        let Side { inputs, followed, .. } = &mut self.sides[side];
        let ways = inputs.ways(followed.lists);
        let mut differs = |ways: &Ways| difference(|| followed.compare(ways));
        if differs(&ways).is_none() {
            let (sizes, set) = (self.sizes(side), ways.set());
            let boundary = set.get(sizes.top - 1).map_or(0, |&last| last as usize);
            self.table.count(&sizes, Call::Ways, set.len(), boundary);
            return Ok(());
        }
        let (smallest, difference) = smallest(ways, Ways::smaller, differs);
        Err(self.failure(side, Call::Ways, &format!("{smallest:?}"), difference))
    }

    fn failure(&self, side: usize, call: Call, inputs: &str, difference: Option<Difference>) -> Failure {
        let (config, seed, call) = (self.sizes(side).config, self.seed, call.name());
        let answers = match difference {
            Some(Difference { ours, theirs }) => format!("ours: {ours}\nthe Rust: {theirs}"),
            None => "it differed in the run, and does not by itself".into(),
        };
        Failure(format!("difference: {call}, configuration {config}, seed {seed}\n{inputs}\n{answers}"))
    }
}

/// The random part.
impl Run {
    fn round(&mut self, side: usize) -> Ran {
        let inputs = &mut self.sides[side].inputs;
        let a = inputs.set();
        let b = inputs.other(&a);
        let [a, b] = &self.subjects(side, a, b)?;
        let (ab, ba) = (Case::of(a, b), Case::of(b, a));
        let of_one = [Call::Make, Call::Write, Call::Read, Call::Open, Call::ExactCount, Call::LimitedCount];
        for case in [ab, ba] {
            self.ask_all(side, case, &of_one)?;
            self.ask_all(side, case, &[Call::SymmetricDifference])?;
        }
        self.ask_all(side, ab, &[Call::ExactDifference, Call::LimitedDifference, Call::DerivedOrder])?;
        self.changed(side, ab)?;
        self.masked(side, ab, ba)?;
        self.walked(side, ab)?;
        for _ in 0..2 {
            let row = self.sides[side].inputs.spoiled(&a.made.row);
            self.ask_row(side, &row)?;
        }
        if self.sides[side].inputs.random.once_in(4) {
            self.ask_list(side)?;
        }
        // no call changed what it only reads
        self.check(side, ab)?;
        self.check(side, ba)
    }

    pub fn ask_all(&mut self, side: usize, case: Case, calls: &[Call]) -> Ran {
        calls.iter().try_for_each(|&call| self.ask(side, Case { call, ..case }))
    }

    /// Toggled, and built.
    fn changed(&mut self, side: usize, case: Case) -> Ran {
        for _ in 0..2 {
            let list = &self.sides[side].inputs.toggles(&case.a.set);
            self.ask(side, Case { call: Call::Toggle, list, ..case })?;
        }
        let plan = &self.sides[side].inputs.plan(&case.a.set);
        self.built(side, Case { plan, ..case })
    }

    /// Built by the plan; the inside is asked about where the plan fixes it.
    pub fn built(&mut self, side: usize, case: Case) -> Ran {
        self.ask_all(side, case, &[Call::Finish, Call::Batch])?;
        match case.plan.fixes_inside(&self.sizes(side)) {
            true => self.ask(side, Case { call: Call::Inside, ..case }),
            false => Ok(()),
        }
    }

    /// Order and key, of filters and of rows, by several masks.
    fn masked(&mut self, side: usize, ab: Case, ba: Case) -> Ran {
        for case in [ab, ba, ab] {
            let mask = self.sides[side].inputs.mask(&case.a.set);
            let case = Case { mask, ..case };
            self.ask_all(side, case, &[Call::Order, Call::Key, Call::CmpRows, Call::GreaterRow])?;
        }
        Ok(())
    }

    /// Steps at the first bucket, in the middle, at the last, at the end and past it.
    fn walked(&mut self, side: usize, case: Case) -> Ran {
        let size = case.a.set.len();
        let middle = self.sides[side].inputs.random.below(size + 1);
        for place in [0, middle, size.saturating_sub(1), size, size + 1 + middle] {
            self.ask(side, Case { call: Call::StepAt, place, ..case })?;
        }
        self.ask(side, Case { call: Call::ReaderStep, place: middle, ..case })
    }
}
