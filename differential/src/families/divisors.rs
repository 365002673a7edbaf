//! Resamplers by how the search for their greatest common divisor ends (document 02, Q-3): at a remainder of 1 or 0, soon or late, or
//! before any by a rate of 1. The source goes on to 0.

use super::{Random, Session, finishes};

/// Streams of two and of five frames into one resampler, each finished.
fn streams(session: &mut Session, random: &mut Random, rates: [u32; 2]) {
    let channels = 1 + random.below(2) as u16;
    finishes::row(session, random, channels, &[rates], [2, 5]);
}

/// Neighbours among Fibonacci's numbers, which take the most remainders for their size.
fn neighbours() -> impl Iterator<Item = [u32; 2]> {
    std::iter::successors(Some([1, 2]), |[a, b]| Some([*b, a + b])).take_while(|[_, b]| *b <= 384_000)
}

/// Every two rates up to 40; the longest searches, in both orders, coprime and with common divisors.
pub fn every(session: &mut Session, random: &mut Random) {
    let small = (1..=40).flat_map(|input| (1..=40).map(move |output| [input, output]));
    let long = neighbours().flat_map(|pair| [1, 2, 3, 100].map(|divisor| pair.map(|rate| divisor * rate)));
    let both = long.filter(|[_, b]| *b <= 384_000).flat_map(|[a, b]| [[a, b], [b, a]]);
    small.chain(both).for_each(|rates| streams(session, random, rates));
}

/// A rate of 1, first remainders of 1, 2 and 0, and searches of several remainders.
const FEW: [[u32; 2]; 9] = [[1, 7], [7, 1], [7, 3], [8, 3], [9, 3], [21, 13], [26, 42], [48_001, 16_000], [317_811, 196_418]];

/// Some of each, for the sample.
pub fn few(session: &mut Session, random: &mut Random) {
    FEW.iter().for_each(|rates| streams(session, random, *rates));
}
