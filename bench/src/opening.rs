//! Opening a resampler: its rates divided by their greatest common divisor.

use crate::kernels::{self, RatesResult};
use crate::timing;
use oracle::elements::LinearResampler;
use std::hint::black_box;

/// What a row says, the rates, and the largest ratio allowed: rates without a common divisor are to gain.
type Case = (&'static str, [u32; 2], f64);

const CASES: [Case; 7] = [
    ("open 48,000 to 16,000", [48_000, 16_000], 1.1),
    ("open 44,100 to 16,000", [44_100, 16_000], 1.1),
    ("open 48,001 to 16,000, coprime", [48_001, 16_000], 0.9),
    ("open 47,999 to 16,000, coprime", [47_999, 16_000], 0.9),
    ("open 196,418 to 317,811, coprime", [196_418, 317_811], 0.9),
    ("open 1 to 384,000", [1, 384_000], 0.9),
    ("open 384,000 to 1", [384_000, 1], 0.9),
];

/// A call, as ours is one.
#[inline(never)]
fn source([in_rate, out_rate]: [u32; 2]) -> LinearResampler {
    LinearResampler::new(in_rate, out_rate).unwrap()
}

/// The source's own in_r and out_r, which only its debug text shows.
fn reduced_by_source(given: [u32; 2]) -> [u64; 2] {
    let text = format!("{:?}", source(given));
    ["in_r: ", "out_r: "].map(|field| text.split(field).nth(1).unwrap().split(',').next().unwrap().parse().unwrap())
}

/// Ours must reduce every two rates up to 400 and of the largest as the source does, and refuse those outside the limits.
fn check() {
    let rates = || (0..=400).chain(383_990..=384_010);
    for given in rates().flat_map(|input| rates().map(move |output| [input, output])) {
        let allowed = given.iter().all(|rate| (1..=384_000).contains(rate));
        let [in_r, out_r] = if allowed { reduced_by_source(given) } else { [0, 0] };
        assert_eq!(kernels::new_resampler(given), RatesResult { number: (!allowed).into(), in_r, out_r }, "{given:?}");
    }
}

fn row((name, given, goal): &Case) -> bool {
    let best = timing::best(|| _ = black_box(source(black_box(*given))), || _ = black_box(kernels::new_resampler(black_box(*given))));
    timing::print(name, "-", best, Some(*goal))
}

/// Times each case and prints its row; how many are over their goal.
pub fn rows() -> usize {
    check();
    CASES.iter().filter(|case| !row(case)).count()
}
