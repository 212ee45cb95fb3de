//! Rows that may be spoiled, held against the Rust: what we take it must read as the same, and what we
//! refuse must be of a kind (see kinds.rs) and be met by the Rust as that kind says.

use crate::cases::{hex, holds_filter, same, Compared, Difference};
use crate::caught::caught;
use crate::kinds::{faults, Kind, Shown, KINDS, QUESTIONS};
use crate::ours::{self, Lent};
use geo_filters::probe::{self, Given, Made};
use std::cmp::Ordering;
use std::collections::BTreeSet;

/// What was seen of one kind.
#[derive(Clone, Default)]
struct Seen {
    rows: u64,
    alone: u64,
    words: [BTreeSet<char>; QUESTIONS.len()],
    /// In configuration 7, of the rows with this fault alone.
    smallest: Option<Vec<u8>>,
}

#[derive(Default)]
pub struct Spoiled {
    seen: [Seen; KINDS.len()],
    taken: u64,
}

fn fault(ours: impl ToString, theirs: impl ToString) -> Compared {
    Err(Difference { ours: ours.to_string(), theirs: theirs.to_string() })
}

impl Spoiled {
    /// How many rows of each kind there were; then the kinds, as docs/DIFFERENCES.md tells them.
    pub fn print(&self) {
        println!("{} spoiled rows taken; of those refused, by their first fault:", self.taken);
        println!("{:53} {:>8} {:>14}", "fault", "rows", "no other fault");
        for (kind, seen) in KINDS.iter().zip(&self.seen) {
            println!("{:53} {:>8} {:>14}", kind.name, seen.rows, seen.alone);
        }
        for (kind, seen) in KINDS.iter().zip(&self.seen) {
            println!("{}", line(kind, seen.smallest.as_deref().unwrap_or_default()));
        }
    }

    /// The kinds that no row has alone, and the answers that kinds name and that were not seen.
    pub fn unseen(&self) -> Vec<String> {
        let mut unseen = vec![];
        for (kind, seen) in self.seen.iter().enumerate() {
            if seen.alone == 0 {
                unseen.push(KINDS[kind].name.into());
            }
            for (question, words) in seen.words.iter().enumerate() {
                let missing = declared(kind, question).chars().filter(|word| !words.contains(word));
                unseen.extend(
                    missing.map(|word| format!("{}: {} {word}", KINDS[kind].name, QUESTIONS[question])),
                );
            }
        }
        unseen
    }

    /// Reads the row into the target and compares.
    pub fn compare(&mut self, shown: &Shown, target: &mut Lent) -> Compared {
        let faults = faults(shown);
        target.fill_with_guards();
        let answer = target.read(shown.sizes.config, shown.row);
        match (answer, faults.first()) {
            (Ok(()), None) => {
                self.taken += 1;
                taken(shown, target)
            }
            (Err(number), Some(&kind)) if number == KINDS[kind].number => {
                refused(shown, target, number)?;
                self.sort(shown, kind, faults.len() == 1)
            }
            (_, kind) => {
                fault(format!("{answer:?}"), format!("fault {:?}", kind.map(|&kind| KINDS[kind].name)))
            }
        }
    }

    /// Counts the row under its kind; asks the Rust about it where it has no other fault.
    fn sort(&mut self, shown: &Shown, kind: usize, alone: bool) -> Compared {
        let Shown { sizes, row, .. } = shown;
        let seen = &mut self.seen[kind];
        seen.rows += 1;
        if !alone {
            return Ok(());
        }
        seen.alone += 1;
        let least = seen.smallest.as_ref().map(|least| Shown::new(sizes, least));
        if sizes.config == 7 && least.is_none_or(|least| shown.rank() < least.rank()) {
            seen.smallest = Some(row.to_vec());
        }
        // entries that are much too large would make the Rust ask for much memory
        if !shown.readable() || shown.entries.last().is_some_and(|&last| last as usize > 4 * sizes.buckets) {
            return Ok(());
        }
        for (question, word) in words(shown).into_iter().enumerate() {
            if !declared(kind, question).contains(word) {
                let says =
                    format!("{}: {} {:?}", KINDS[kind].name, QUESTIONS[question], declared(kind, question));
                return fault(says, word);
            }
            seen.words[question].insert(word);
        }
        Ok(())
    }
}

/// What the kind says of a question in this build.
fn declared(kind: usize, question: usize) -> &'static str {
    match KINDS[kind].debug[question] {
        words if cfg!(debug_assertions) && !words.is_empty() => words,
        _ => KINDS[kind].release[question],
    }
}

/// A kind as docs/DIFFERENCES.md tells it.
fn line(kind: &Kind, smallest: &[u8]) -> String {
    let told = |words: &str| {
        let told = words.chars().map(|word| match word {
            's' => "set",
            'o' => "other",
            _ => "panics",
        });
        told.collect::<Vec<_>>().join(", ")
    };
    let answers = kind.release.iter().zip(kind.debug).map(|(release, debug)| match (*release, debug) {
        ("", _) => "not read".into(),
        (_, "") => told(release),
        _ => format!("{}; debug: {}", told(release), told(debug)),
    });
    let answers = answers.collect::<Vec<_>>().join(" | ");
    format!("| {} | {} | `{}` | {answers} |", kind.number, kind.name, hex(smallest))
}

/// The Rust's filter that borrows the row, which it reads exactly where it should; it writes the same
/// bytes and counts what stands there.
fn borrowed(shown: &Shown) -> Result<Option<Made>, Difference> {
    let (config, row) = (shown.sizes.config, Given::Row(shown.row));
    let read = caught(|| (probe::toggle(config, row, &[]), probe::exact(config, row)));
    match read {
        Ok((made, count)) if shown.readable() && made.row == shown.row && count == shown.count() => {
            Ok(Some(made))
        }
        Err(_) if !shown.readable() => Ok(None),
        _ => {
            let expected = format!("read: {}, the same bytes, {} counted", shown.readable(), shown.count());
            Err(Difference { ours: expected, theirs: format!("{read:?}") })
        }
    }
}

/// A row that we take: the Rust reads it as the same set, with the same record and areas.
fn taken(shown: &Shown, target: &Lent) -> Compared {
    let (config, set) = (shown.sizes.config, shown.set());
    let Some(made) = borrowed(shown)? else { return fault("taken", "not read") };
    holds_filter(config, target, Ok(()), &made.parts)?;
    same(ours::open(config, shown.row), set.len())?;
    same(Ok(set), probe::ones_of(config, Given::Row(shown.row)))
}

/// A row that we refuse: nothing was written, every call on rows gives the same number, and the Rust
/// reads it where it should.
fn refused(shown: &Shown, target: &Lent, number: u8) -> Compared {
    let (config, row) = (shown.sizes.config, shown.row);
    if !target.untouched() {
        return fault(target.shown(), "as it was");
    }
    let opened = ours::open(config, row).map(|_| ());
    let stepped = ours::step_at(config, row, 0).map(|_| ());
    let walked = ours::reader_step(config, row, 0).map(|_| ());
    let first = ours::cmp_rows(config, 1, 1, row, &[]).map(|_| ());
    let second = ours::cmp_rows(config, 1, 1, &[], row).map(|_| ());
    let greater = ours::greater_row(config, 1, 1, &[], row).map(|_| ());
    for answer in [opened, stepped, walked, first, second, greater] {
        if answer != Err(number) {
            return fault(format!("read {number}, another call on rows {answer:?}"), "the same number");
        }
    }
    borrowed(shown).map(|_| ())
}

/// The Rust's answers to the questions, against those for the set that the row shows.
fn words(shown: &Shown) -> [char; QUESTIONS.len()] {
    let (config, set) = (shown.sizes.config, shown.set());
    let sound = probe::toggle(config, Given::Ones(&[]), &set);
    let (row, of_set, none) = (Given::Row(shown.row), Given::Row(&sound.row), Given::Ones(&[]));
    let toggled =
        [0, shown.entries[shown.entries.len() - 1], shown.entries[0], shown.sizes.buckets as u32 - 1];
    let toggles =
        |bucket| word(|| probe::toggle(config, row, &[bucket]) == probe::toggle(config, of_set, &[bucket]));
    let toggles = toggled.map(toggles);
    let worst = ['p', 'o', 's'].into_iter().find(|word| toggles.contains(word));
    [
        word(|| probe::ones_of(config, row) == set),
        word(|| probe::symmetric_difference(config, row, none) == sound),
        word(|| probe::limited(config, row) == probe::limited(config, of_set)),
        word(|| probe::order(config, row, none, 1, 1) == Ordering::Greater),
        word(|| probe::key(config, row, 1, 1) == probe::key(config, of_set, 1, 1)),
        worst.unwrap_or('s'),
    ]
}

fn word(same: impl FnOnce() -> bool) -> char {
    match caught(same) {
        Ok(true) => 's',
        Ok(false) => 'o',
        Err(_) => 'p',
    }
}
