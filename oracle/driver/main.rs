//! The differential runs: the Rust original and our library, asked the same and compared.
//!
//! `driver --cases N --seed S` runs N cases or more and prints what was run; `driver --garbage N --seed S`
//! makes N calls of ours with garbage. Status 1 where something is not as it should be.

mod cases;
mod caught;
#[path = "../../bindings/rust/src/ffi.rs"]
#[allow(dead_code)] // some of its constants are for the crate alone
mod ffi;
mod followed;
mod garbage;
mod inputs;
mod kinds;
mod known;
mod ours;
mod plain;
mod random;
mod run;
mod short;
mod shrink;
mod spoil;
mod spoiled;
mod table;
mod ways;

use run::{Failure, Run};
use std::process::exit;
use std::time::Instant;

fn main() {
    caught::prepare();
    let arguments: Vec<String> = std::env::args().skip(1).collect();
    let arguments: Vec<&str> = arguments.iter().map(String::as_str).collect();
    let number = |text: &str| text.parse().unwrap_or_else(|_| usage());
    let alike = match arguments[..] {
        ["--cases", cases, "--seed", seed] => run_cases(number(cases), number(seed)),
        ["--garbage", calls, "--seed", seed] => garbage::run(number(calls), number(seed)),
        _ => usage(),
    };
    exit(if alike { 0 } else { 1 });
}

fn usage() -> ! {
    eprintln!("usage: driver --cases N --seed S | --garbage N --seed S");
    exit(2)
}

/// Runs what is short whole, then the lists that every run has, then random cases until there are enough.
fn run_cases(cases: u64, seed: u64) -> bool {
    let (begin, mut run) = (Instant::now(), Run::new(seed));
    let ran = short::run(&mut run).and_then(|()| run.lists()).and_then(|()| run.until(cases));
    run.table.print();
    run.print_lists();
    run.spoiled.print();
    let unseen = run.spoiled.unseen();
    println!("kinds of rows, and answers that they name, that were not seen: {unseen:?}");
    let unlisted = known::not_as_listed();
    println!("differences that are not as listed: {unlisted:?}");
    let balanced = run.table.is_balanced() && run.met_full();
    if !balanced {
        println!("the cases are not balanced");
    }
    let build = if cfg!(debug_assertions) { "debug" } else { "release" };
    match ran {
        Ok(()) => {
            let (cases, seconds) = (run.table.all(), begin.elapsed().as_secs_f64());
            println!("{build}: {cases} cases, seed {seed}, none answered otherwise, {seconds:.0} seconds");
        }
        Err(Failure(ref text)) => println!("{build}: {text}"),
    }
    ran.is_ok() && unseen.is_empty() && unlisted.is_empty() && balanced
}
