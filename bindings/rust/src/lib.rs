#![doc = include_str!("../README.md")]
#![deny(missing_docs, unsafe_code, unsafe_op_in_unsafe_fn)]

mod builder;
#[allow(unsafe_code)]
mod calls;
mod config;
mod ffi;
mod filter;
mod refusal;
mod row;
mod text;

pub use builder::Builder;
pub use config::{sizes_of, Sizes};
pub use filter::{Buckets, Filter, Limited};
pub use refusal::Refusal;
pub use row::{cmp_rows, greater_row, open, step_at, RowReader};
pub use text::compare_text;
