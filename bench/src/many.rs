//! Many buckets in one call; the Rust takes them one by one.

use crate::agree;
use crate::clock::{in_a_row, on_ready};
use crate::ours::{Builder, Filter, Sizes};
use crate::sets::{new_builder, push_each, toggle_each, Config, Set};
use crate::table::{Areas, Line, Table, Wanted};
use geo_filters::held::GeoDiffCountBuilder;

/// Toggling, pushing and building, from the empty set. The line is made of the call and of what is
/// wanted.
pub fn from_empty<C: Config>(
    table: &Table,
    line: impl Fn(&str, Wanted) -> Line,
    sizes: Sizes,
    list: &[u32],
) {
    let empty = Set::<C>::of(Vec::new(), sizes);
    toggle(
        table,
        line("toggling", Wanted::OfRust(0.6)),
        sizes,
        &empty,
        list,
    );
    push::<C>(table, line("pushing", Wanted::OfRust(1.0)), sizes, list);
    build::<C>(table, line("building", Wanted::Nothing), sizes, list);
}

/// Toggles a list in a set.
pub fn toggle<C: Config>(table: &Table, line: Line, sizes: Sizes, from: &Set<C>, list: &[u32]) {
    agree::of_toggling(sizes, from, list);
    let (mut judged, refused) = (from.ours.clone(), ending_outside(list, sizes));
    table.line(
        line.writing(Areas::MadeReady),
        [
            &mut on_ready(|| from.ours.clone(), |filter| filter.toggle(list)),
            &mut on_ready(|| from.rust.clone(), |filter| toggle_each(filter, list)),
            &mut in_a_row(|| judged.judge_list(&refused)),
        ],
    );
}

/// Pushes a list into the builder of the empty set.
fn push<C: Config>(table: &Table, line: Line, sizes: Sizes, list: &[u32]) {
    agree::of_building::<C>(sizes, list);
    let (mut judged, refused) = (Builder::new(sizes), ending_outside(list, sizes));
    table.line(
        line.writing(Areas::MadeReady),
        [
            &mut on_ready(|| Builder::new(sizes), |builder| builder.push(list)),
            &mut on_ready(new_builder::<C>, |builder| push_each(builder, list)),
            &mut in_a_row(|| judged.judge_list(&refused)),
        ],
    );
}

/// The same, and finishes.
fn build<C: Config>(table: &Table, line: Line, sizes: Sizes, list: &[u32]) {
    agree::of_building::<C>(sizes, list);
    let (mut judged, refused) = (Builder::new(sizes), ending_outside(list, sizes));
    let mut to = Filter::empty(sizes);
    let ours = |builder: &mut Builder| {
        builder.push(list);
        builder.finish(&mut to);
    };
    let rust = |builder: &mut Option<GeoDiffCountBuilder<_>>| {
        builder.take().map(|mut builder| {
            push_each(&mut builder, list);
            builder.build()
        })
    };
    table.line(
        line.writing(Areas::MadeReady),
        [
            &mut on_ready(|| Builder::new(sizes), ours),
            &mut on_ready(|| Some(new_builder::<C>()), rust),
            &mut in_a_row(|| judged.judge_list(&refused)),
        ],
    );
}

fn ending_outside(list: &[u32], sizes: Sizes) -> Vec<u32> {
    [list, &[sizes.outside()]].concat()
}
