//! In place of `build_hasher.rs`: the two names that the nine files use. Nothing compared hashes.

use std::hash::{BuildHasher, BuildHasherDefault, DefaultHasher};

pub trait ReproducibleBuildHasher: BuildHasher + Default + Clone {
    fn debug_assert_hashers_eq() {}
}

pub type UnstableDefaultBuildHasher = BuildHasherDefault<DefaultHasher>;

impl ReproducibleBuildHasher for UnstableDefaultBuildHasher {}
