//! How often each answer came, and the table of it.

use super::calls::{Call, BUFFER};
use super::lent::{Kind, Lent};
use std::collections::BTreeMap;

/// The columns of the table: the numbers in 01's order.
const COLUMNS: [u8; 11] = [0, 1, 3, 8, 9, 6, 7, 4, 2, 5, BUFFER];

/// How many faults of a call are written out.
const SHOWN: u64 = 5;

#[derive(Default)]
pub struct Tally {
    answers: BTreeMap<u8, u64>,
    /// How often each slice was lent as a null pointer.
    nulls: BTreeMap<usize, u64>,
    faults: u64,
}

fn row(name: &str, cells: impl Iterator<Item = String>) -> String {
    cells.fold(format!("{name:<21}"), |line, cell| format!("{line}{cell:>9}"))
}

fn name(number: u8) -> String {
    match number {
        BUFFER => "3 buffer".into(),
        _ => number.to_string(),
    }
}

/// The last column is the slice that was lent as a null pointer least often.
pub fn heading() -> String {
    row("call", COLUMNS.into_iter().map(name).chain(["null".into()]))
}

impl Tally {
    pub fn count(&mut self, answer: u8, lent: &Lent) {
        *self.answers.entry(answer).or_default() += 1;
        for (i, slice) in lent.slices.iter().enumerate().filter(|(_, slice)| slice.kind != Kind::Record) {
            *self.nulls.entry(i).or_default() += slice.null as u64;
        }
    }

    pub fn note(&mut self, fault: String) {
        self.faults += 1;
        if self.faults <= SHOWN {
            println!("{fault}");
        }
    }

    pub fn line(&self, call: &Call) -> String {
        let answers = COLUMNS.map(|number| self.answers.get(&number));
        let shown = answers.into_iter().chain([self.nulls.values().min()]);
        row(call.name, shown.map(|count| count.map_or("-".into(), u64::to_string)))
    }

    /// Whether there was no fault, and each answer that the call can give came at least so often; and so each slice as
    /// a null pointer.
    pub fn passes(&self, call: &Call, least: u64) -> bool {
        let mut missed = Vec::new();
        for &number in [0].iter().chain(call.refusals) {
            if self.answers.get(&number).map_or(0, |&n| n) < least {
                missed.push(format!("answer {}", name(number)));
            }
        }
        let rare = self.nulls.iter().filter(|(_, &nulls)| nulls < least);
        missed.extend(rare.map(|(slice, _)| format!("null for slice {slice}")));
        if !missed.is_empty() {
            println!("{}: fewer than {least} times: {}", call.name, missed.join(", "));
        }
        if self.faults > 0 {
            println!("{}: {} faults", call.name, self.faults);
        }
        missed.is_empty() && self.faults == 0
    }
}
