//! Numbers of any magnitude.

use crate::random::Random;

/// A number of at most so many bits, of any magnitude, the edges among them.
pub fn any_number(bits: u64, random: &mut Random) -> u64 {
    let most = u64::MAX >> (64 - bits);
    match random.number(16) {
        0 => 0,
        1 => most,
        2 => most / 2 + 1,
        _ => (random.next() & most) >> random.number(bits),
    }
}

/// A number of so many bits that is `least` or more.
pub fn at_least(least: u64, bits: u64, random: &mut Random) -> u64 {
    let high = 1 << (bits - 1);
    let any = any_number(bits, random);
    *random.one_of(&[least, least + 1, high, any | high, any.max(least), u64::MAX >> (64 - bits)])
}
