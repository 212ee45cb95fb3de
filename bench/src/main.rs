//! The port beside the Rust: one process, the same inputs, a table of times.

#[path = "../../bindings/rust/src/ffi.rs"]
#[allow(dead_code)]
mod ffi;

mod agree;
mod calls;
mod clock;
mod loads;
mod many;
mod ours;
mod sets;
mod table;

use calls::Calls;
use geo_filters::held::{GeoDiffConfig10, GeoDiffConfig13, GeoDiffConfig7};
use loads::{items, Load, MILLION};
use ours::Sizes;
use sets::Config;
use table::{Line, Table, Wanted};

/// Each call on each load, and a million buckets from the empty set.
fn each_load<C: Config>(config: u64) {
    for load in [Load::Sparse, Load::Medium, Load::Dense] {
        Calls::<C>::on(config, load).all();
    }
    let load = "empty".into();
    let line =
        |call: &str, wanted| Line::of(format!("{call} a million, a bucket"), wanted).per(MILLION);
    let list: Vec<u32> = items::<C>(4).take(MILLION).collect();
    many::from_empty::<C>(&Table { config, load }, line, Sizes::of(config), &list);
}

/// How the cost of a call grows with the items.
fn growth<C: Config>(config: u64) {
    for power in 0..=6 {
        let n = 10usize.pow(power);
        let calls = Calls::<C>::on(config, Load::Items(n));
        let line = |call: &str, _| Line::of(format!("{call} from empty"), Wanted::Nothing);
        let list: Vec<u32> = items::<C>(4).take(n).collect();
        many::from_empty::<C>(&calls.table, line, calls.sizes, &list);
        calls.symmetric_difference();
        calls.order_of_equal();
    }
}

fn main() {
    println!("Calls on filters of a load");
    Table::head();
    each_load::<GeoDiffConfig7>(7);
    each_load::<GeoDiffConfig10>(10);
    each_load::<GeoDiffConfig13>(13);
    println!("\nGrowth: the load is the number of items, in a list or in each filter");
    Table::head();
    growth::<GeoDiffConfig7>(7);
    growth::<GeoDiffConfig10>(10);
    growth::<GeoDiffConfig13>(13);
}
