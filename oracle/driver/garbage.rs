//! Throws garbage at each exported call, and holds the number of every answer, and every byte that must stay, against 01.

mod arguments;
mod calls;
mod judge;
mod lent;
mod numbers;
mod sizes;
mod sound;
mod spoil;
mod spoil_areas;
mod spoil_row;
mod tally;
mod wild;

use crate::random::Random;
use arguments::{Arguments, Given, Thing};
use calls::{Allowed, Call, BUFFER, CALLS};
use judge::{judged, sizes};
use lent::Kind;
use sound::Sound;
use spoil::spoil;
use tally::Tally;

/// Throws so many calls at each, and writes a table of the answers. Every answer must be the one that 01 demands, and
/// each that a call can give must come at least once in a thousand calls; otherwise it says what is wrong and answers
/// false.
pub fn run(calls: u64, seed: u64) -> bool {
    let sound = Sound::new(&mut Random::new(seed));
    println!("{}", tally::heading());
    let mut passed = true;
    for (i, call) in CALLS.iter().enumerate() {
        let mut random = Random::new(seed.wrapping_add(1 + i as u64));
        let arguments = Arguments::new(&mut random);
        let tally = Thrower { call, sound: &sound, arguments, random }.throw(calls);
        println!("{}", tally.line(call));
        passed &= tally.passes(call, (calls / 1000).max(1));
    }
    passed
}

struct Thrower<'a> {
    call: &'a Call,
    sound: &'a Sound,
    arguments: Arguments,
    random: Random,
}

impl Thrower<'_> {
    fn throw(&mut self, calls: u64) -> Tally {
        let mut tally = Tally::default();
        for i in 0..calls {
            let allowed = self.prepare();
            self.arguments.measure();
            let demanded = judged(&self.arguments);
            self.arguments.lent.hand_over();
            let answer = (self.call.ask)(&mut self.arguments);
            let told = if answer == 3 && demanded == BUFFER { BUFFER } else { answer };
            tally.count(told, &self.arguments.lent);
            if let Err(fault) = self.check(answer, demanded, allowed) {
                let shown = self.arguments.shown();
                tally.note(format!("{}, call {i}, answers {answer}: {fault}; {shown}", self.call.name));
            }
        }
        tally
    }

    /// Makes the arguments: half of them sound but for one thing. Tells the answers that are allowed then, where that
    /// is known without judging.
    fn prepare(&mut self) -> Allowed {
        self.arguments.clear(&mut self.random);
        let config = wild::known(&mut self.random);
        match self.random.number(8) {
            0..4 => return self.lend_spoiled(config),
            4 => {
                self.lend_sound(config, config);
                return Some(&[0]);
            }
            5 => self.lend_mixed(),
            _ => self.call.things.iter().for_each(|&thing| self.lend_garbage(thing)),
        }
        None
    }

    /// Lends each thing sound; where there are two filters, the second of a configuration of its own.
    fn lend_sound(&mut self, config: u64, second: u64) {
        for (i, &thing) in self.call.things.iter().enumerate() {
            let own = if i == 1 && thing == Thing::Filter { second } else { config };
            self.lend(thing, own);
        }
    }

    fn lend(&mut self, thing: Thing, config: u64) -> Given {
        let given = self.arguments.begin(thing);
        self.sound.lend(&mut self.arguments, thing, config, &mut self.random);
        given
    }

    fn lend_garbage(&mut self, thing: Thing) {
        self.arguments.begin(thing);
        wild::lend(&mut self.arguments, thing, &mut self.random);
    }

    /// Spoils one of the things, or takes the second filter from another configuration.
    fn lend_spoiled(&mut self, config: u64) -> Allowed {
        if self.call.things.starts_with(&[Thing::Filter, Thing::Filter]) && self.random.once_in(5) {
            let second = *self.random.one_of(match config {
                7 => &[10, 13],
                10 => &[7, 13],
                _ => &[7, 10],
            });
            self.lend_sound(config, second);
            return Some(&[9]);
        }
        self.lend_sound(config, config);
        loop {
            let given = *self.random.one_of(&self.arguments.given);
            let allowed = spoil(&mut self.arguments, given, &mut self.random);
            if allowed.is_some() {
                return allowed;
            }
        }
    }

    /// Some things are sound, some spoiled, some garbage; not all of one configuration.
    fn lend_mixed(&mut self) {
        let mut spoiled = Vec::new();
        let mut config = wild::known(&mut self.random);
        for &thing in self.call.things {
            if self.random.once_in(4) {
                config = wild::known(&mut self.random);
            }
            if self.random.once_in(3) {
                self.lend_garbage(thing);
                continue;
            }
            let given = self.lend(thing, config);
            if self.random.once_in(2) {
                spoiled.push(given);
            }
        }
        for given in spoiled {
            spoil(&mut self.arguments, given, &mut self.random);
        }
    }

    fn check(&self, answer: u8, demanded: u8, allowed: Allowed) -> Result<(), String> {
        let number = if demanded == BUFFER { 3 } else { demanded };
        if answer != number {
            return Err(format!("01 demands {number}"));
        }
        if demanded != 0 && !self.call.refusals.contains(&demanded) {
            return Err("no number of this call".into());
        }
        match allowed {
            Some(allowed) if !allowed.contains(&demanded) => {
                Err(format!("what was spoiled allows {allowed:?}"))
            }
            _ if !self.kept(answer) => Err("a byte has changed that must stay".into()),
            _ => Ok(()),
        }
    }

    /// Whether no byte has changed but, where the call was taken, those that it writes.
    fn kept(&self, answer: u8) -> bool {
        let Arguments { lent, needed, .. } = &self.arguments;
        let writes = if answer == 0 { self.call.writes } else { &[] };
        lent.unchanged_but(writes.iter().map(|&slice| {
            let cells = match lent.slices[slice].kind {
                Kind::Record => lent.slices[slice].len,
                Kind::Bytes => *needed,
                area => sizes(&self.arguments).unwrap().area(area),
            };
            (slice, cells)
        }))
    }
}
