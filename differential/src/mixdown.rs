//! Mixdowns (document 02, Q-6), which the Rust rounds down. The rule is read a second time, beside the Rust's stage, whose samples it must
//! give wherever l + r is even.

use crate::clipping::samples;
use crate::source::Stage;
use oracle::elements::StereoToMono;
use oracle::esp_core::error::Result;
use oracle::esp_core::pcm::{PcmBlock, PcmFormat};
use oracle::pipeline::Element;

/// The whole number nearest to sum ÷ 2; of two that are as near, the even one.
fn nearest_half(sum: i32) -> i32 {
    let beside = sum / 2 - 1..=sum / 2 + 1;
    beside.min_by_key(|n| ((2 * n - sum).abs(), n & 1)).expect("three numbers")
}

/// The Rust's mixdown and the rule, and whether some l + r was odd since the stream began.
#[derive(Clone, Default)]
pub struct Mixdown {
    own: StereoToMono,
    some_odd: bool,
}

impl Element for Mixdown {
    fn output_format(&self, input: PcmFormat) -> Result<PcmFormat> {
        self.own.output_format(input)
    }

    fn max_output_bytes(&self, input: PcmFormat, input_bytes: usize) -> usize {
        self.own.max_output_bytes(input, input_bytes)
    }

    fn process(&mut self, input: PcmBlock<'_>, out: &mut [u8]) -> Result<usize> {
        let written = self.own.process(input, out)?;
        assert_eq!(2 * written, input.data.len(), "a mixdown of another length");
        for (frame, mono) in input.data.chunks_exact(4).zip(out.chunks_exact_mut(2)) {
            let sum: i32 = samples(frame).map(i32::from).sum();
            let sample = i16::try_from(nearest_half(sum)).expect("a mean of two samples").to_le_bytes();
            let even = sum % 2 == 0;
            assert!(mono == sample || !even, "the rule gives another sample for an even sum, {sum}");
            mono.copy_from_slice(&sample);
            self.some_odd |= !even;
        }
        Ok(written)
    }

    fn reset(&mut self) {
        self.own.reset();
        self.some_odd = false;
    }
}

/// Was every l + r that reached a mixdown even, since the stream began?
pub fn all_even(stages: &[Stage]) -> bool {
    stages.iter().all(|stage| !matches!(stage, Stage::StereoToMono(mixdown) if mixdown.some_odd))
}

/// How far an accepted call of a chain with a mixdown was held to the Rust's own chain.
#[derive(Debug, Clone, Copy, PartialEq, Eq, PartialOrd, Ord)]
pub enum Held {
    /// Every byte.
    Sound,
    /// All but the bytes: some l + r was odd.
    Lengths,
}
