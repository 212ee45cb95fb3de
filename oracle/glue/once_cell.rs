//! In place of the crate `once_cell`: the one name that the nine files use.

pub mod sync {
    pub use std::sync::LazyLock as Lazy;
}
