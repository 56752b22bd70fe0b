//! Numbers of tenths to be written.

use common::random::Random;

const SMALL: i32 = 20_000;
/// How far from an end of a range every number is written.
const NEAR: i32 = 20;
const ENDS: [i32; 4] = [-1_000_000_000, 1_000_000_000, -2_000_000_000, 2_000_000_000];

/// The small ones, those about the ends of the instants, of the lengths and of 32 bits, and about the powers of ten.
pub fn planned() -> impl Iterator<Item = i32> {
    let powers = (0..10).map(|power| 10i32.pow(power)).flat_map(|power| [-power, power]);
    let near = ENDS.into_iter().chain(powers).flat_map(|end| end - NEAR..=end + NEAR);
    let of_32_bits = (i32::MIN..=i32::MIN + NEAR).chain(i32::MAX - NEAR..=i32::MAX);
    (-SMALL..=SMALL).chain(near).chain(of_32_bits)
}

/// A number of any number of bits.
pub fn any(random: &mut Random) -> i32 {
    random.any_u64() as i32 >> random.below(32)
}
