//! In place of `diff_count/metric.rs`. As a child of `diff_count` it sees what is private there, so the probe
//! and what is held for timing stand here. They leave by the two names of this module that `diff_count.rs` lets out.

pub mod held;
pub mod probe;
pub use held as GeoDiffMetric;
pub use probe as OnesMetric;
