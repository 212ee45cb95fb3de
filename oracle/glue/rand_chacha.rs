//! In place of the crate `rand_chacha`: names for `pseudorandom_filter`, which nothing compared uses.

pub mod rand_core {
    pub trait Rng {
        fn next_u64(&mut self) -> u64;
    }
    pub trait SeedableRng {
        fn seed_from_u64(seed: u64) -> Self;
    }
}

pub struct ChaCha12Rng;

#[rustfmt::skip]
impl rand_core::Rng for ChaCha12Rng { fn next_u64(&mut self) -> u64 { unimplemented!() } }

#[rustfmt::skip]
impl rand_core::SeedableRng for ChaCha12Rng { fn seed_from_u64(_: u64) -> Self { Self } }
