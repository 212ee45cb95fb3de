//! The lines of the table: what a call costs here and there, and what judging its arguments costs.

use crate::clock::{best, Batch};

/// What is wanted of a call, at most.
#[derive(Clone, Copy)]
pub enum Wanted {
    /// so many times the Rust's
    OfRust(f64),
    /// so many times what judging costs, where that alone is more than the Rust's whole work
    OfJudging(f64),
    Nothing,
}

/// What stands in the areas that a call writes.
#[derive(Clone, Copy)]
pub enum Areas {
    /// it writes none
    Unwritten,
    /// what the call before left there: nothing is cleared
    AsLeft,
    /// what is put there before each call, which is not timed
    MadeReady,
}

pub struct Line {
    call: String,
    wanted: Wanted,
    areas: Areas,
    per: usize,
}

impl Line {
    /// Of a call that writes no area.
    pub fn of(call: impl Into<String>, wanted: Wanted) -> Self {
        Self {
            call: call.into(),
            wanted,
            areas: Areas::Unwritten,
            per: 1,
        }
    }

    pub fn writing(self, areas: Areas) -> Self {
        Self { areas, ..self }
    }

    /// The times are divided by so many.
    pub fn per(self, per: usize) -> Self {
        Self { per, ..self }
    }
}

pub struct Table {
    pub config: u64,
    pub load: String,
}

impl Table {
    pub fn head() {
        print!("{:>6} {:>7}  {:<31}", "config", "load", "call");
        print!(" {:>11} {:>11} {:>9}", "ours ns", "Rust ns", "/Rust");
        println!(
            " {:>11} {:>9}  {:<10} target",
            "judging ns", "/judging", "areas"
        );
    }

    /// Times a call of ours, the Rust's, and judging.
    pub fn line(&self, line: Line, kinds: [Batch<'_>; 3]) {
        let [ours, rust, judging] = best(kinds).map(|ns| ns / line.per as f64);
        let (of_rust, of_judging) = (ours / rust, ours / judging);
        let areas = match line.areas {
            Areas::Unwritten => "-",
            Areas::AsLeft => "as left",
            Areas::MadeReady => "made ready",
        };
        print!("{:>6} {:>7}  {:<31}", self.config, self.load, line.call);
        print!(" {ours:>11.2} {rust:>11.2} {of_rust:>9.3}");
        print!(" {judging:>11.2} {of_judging:>9.2}  {areas:<10}");
        println!(
            " {}",
            told(line.wanted, of_rust, of_judging, rust < judging)
        );
    }
}

fn told(wanted: Wanted, of_rust: f64, of_judging: f64, judging_is_more: bool) -> String {
    let (most, is, what) = match wanted {
        Wanted::OfRust(most) => (most, of_rust, ""),
        Wanted::OfJudging(most) if judging_is_more => (most, of_judging, " of judging"),
        _ => return String::new(),
    };
    let told = if is <= most { "met" } else { "missed" };
    format!("target {most}{what} {told}")
}
