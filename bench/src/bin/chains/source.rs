//! The unchanged source's chains.

use crate::passes::{self, Player};
use crate::recipe::{CORNER, Chain, IN_RATE, LOW_PASS, OUT_RATE, Q15};
use oracle::elements::{Biquad, DcBlock, Gain, LinearResampler, StereoToMono};
use oracle::esp_core::pcm::PcmBlock;
use oracle::pipeline::Pipeline;

impl<const N: usize> Player for Pipeline<'_, N> {
    fn play<'b>(&mut self, block: PcmBlock<'_>, halves: &'b mut [u8]) -> Option<PcmBlock<'b>> {
        self.process(block, halves).unwrap()
    }
}

pub fn run(chain: Chain, frames: usize, times: u32) {
    let mut to_mono = StereoToMono;
    let mut resample = LinearResampler::new(IN_RATE, OUT_RATE).unwrap();
    let mut dc = DcBlock::with_corner(CORNER);
    let mut low_pass = Biquad::new(LOW_PASS);
    let [a, b, c, d, e, f, g, h] = &mut [Gain::from_q15(Q15); 8];
    match chain {
        Chain::Voice => passes::run(chain, frames, times, Pipeline::new([&mut resample, &mut dc, &mut low_pass, a])),
        Chain::FromStereo => passes::run(chain, frames, times, Pipeline::new([&mut to_mono, &mut resample, &mut dc, &mut low_pass, a])),
        Chain::EightGains => passes::run(chain, frames, times, Pipeline::new([a, b, c, d, e, f, g, h])),
    }
}
