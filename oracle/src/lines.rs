//! The lines of the list, one function for each kind. Every answer is the probe's; what the Rust
//! tells in two ways is asserted to be told alike.

use geo_filters::probe::{self, Given, Given::Ones, Given::Row, Step};
use std::fmt::{Display, Write};

pub struct Lines {
    config: u32,
    pub text: String,
}

impl Lines {
    pub fn of(config: u32) -> Self {
        Self { config, text: String::new() }
    }

    pub fn row(&mut self, set: &[u32]) {
        let row = probe::row_of(self.config, Ones(set));
        let (made, read) = (self.parts(Ones(set)), self.parts(Row(&row)));
        assert_eq!(made, read, "read as another filter");
        self.line("row", &[&list(set), &hex(&row)]);
    }

    pub fn toggle(&mut self, set: &[u32], toggles: &[u32]) {
        let made = probe::toggle(self.config, Ones(set), toggles);
        let read = probe::row_of(self.config, Ones(set));
        assert_eq!(made, probe::toggle(self.config, Row(&read), toggles));
        let row = made.row;
        self.line("toggle", &[&list(set), &list(toggles), &hex(&row)]);
    }

    pub fn difference(&mut self, a: &[u32], b: &[u32]) {
        let row = probe::symmetric_difference(self.config, Ones(a), Ones(b)).row;
        let ones = probe::exact_difference(self.config, Ones(a), Ones(b));
        let (count, bound) = probe::limited_difference(self.config, Ones(a), Ones(b));
        assert_eq!(ones, probe::exact(self.config, Row(&row)));
        assert_eq!((count, bound), probe::limited(self.config, Row(&row)));
        self.line("difference", &[&list(a), &list(b), &hex(&row), &ones, &count, &bound]);
    }

    pub fn order(&mut self, mask: u64, size: usize, a: &[u32], b: &[u32]) {
        let order = probe::order(self.config, Ones(a), Ones(b), mask, size);
        assert_eq!(order, probe::order(self.config, Ones(b), Ones(a), mask, size).reverse());
        let word = format!("{order:?}").to_lowercase();
        self.line("order", &[&mask, &size, &list(a), &list(b), &word]);
    }

    pub fn key(&mut self, mask: u64, size: usize, set: &[u32]) {
        let key = probe::key(self.config, Ones(set), mask, size);
        self.line("key", &[&mask, &size, &list(set), &key]);
    }

    pub fn count(&mut self, set: &[u32]) {
        let ones = probe::exact(self.config, Ones(set));
        let (count, bound) = probe::limited(self.config, Ones(set));
        assert_eq!((count, bound), probe::limited_difference(self.config, Ones(set), Ones(&[])));
        self.line("count", &[&list(set), &ones, &count, &bound]);
    }

    pub fn build(&mut self, split: u32, first: &[u32], to: u32, second: &[u32]) {
        let (from, raise) = (split as usize, Step::Raise(to as usize));
        let steps = [Step::Push(first), raise, Step::Push(second)];
        let (_, made) = probe::build(self.config, from, &steps);
        let batches = [Step::Batch(first), Step::Batch(second)];
        assert_eq!(made, probe::build(self.config, from, &batches).1);
        assert_eq!(made, probe::toggle(self.config, Ones(first), second));
        self.line("build", &[&split, &list(first), &to, &list(second), &hex(&made.row)]);
    }

    pub fn iterate(&mut self, set: &[u32]) {
        let row = probe::row_of(self.config, Ones(set));
        let ones = probe::ones_of(self.config, Row(&row));
        self.line("iterate", &[&hex(&row), &list(&ones)]);
    }

    fn parts(&self, given: Given) -> probe::Parts {
        probe::parts_of(self.config, given)
    }

    fn line(&mut self, kind: &str, fields: &[&dyn Display]) {
        write!(self.text, "{kind} {}", self.config).unwrap();
        for field in fields {
            write!(self.text, " {field}").unwrap();
        }
        self.text.push('\n');
    }
}

fn list(buckets: &[u32]) -> String {
    let mut text = buckets.len().to_string();
    buckets.iter().for_each(|bucket| write!(text, " {bucket}").unwrap());
    text
}

fn hex(row: &[u8]) -> String {
    match row {
        [] => "-".to_string(),
        _ => row.iter().map(|byte| format!("{byte:02x}")).collect(),
    }
}
