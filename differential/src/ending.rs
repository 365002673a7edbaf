//! The end of a stream (document 02, Q-1), which the Rust does not have. What a stage makes of the frames that arrive is the Rust's;
//! a resampler's last frame is worked out beside it, from the count of frames that it received.

use crate::beforehand::Room;
use crate::mixdown;
use crate::source::{Address, Format, Stage, run_stage, take_clipped};
use oracle::elements::LinearResampler;
use oracle::esp_core::error::Result;
use oracle::esp_core::pcm::{PcmBlock, PcmFormat};
use oracle::pipeline::Element;

/// The Rust's resampler, and what it received and delivered since its stream began.
#[derive(Clone)]
pub struct Resampler {
    own: LinearResampler,
    rates: [u64; 2],
    received: u64,
    delivered: u64,
    last: Vec<u8>,
}

impl Resampler {
    pub fn new(rates: [u32; 2]) -> Result<Self> {
        let own = LinearResampler::new(rates[0], rates[1])?;
        Ok(Resampler { own, rates: rates.map(u64::from), received: 0, delivered: 0, last: vec![] })
    }

    /// Of the next so many frames: with T received in all, T at least 1, unequal rates have delivered ceil((T - 1) × out ÷ in).
    pub fn delivers(&self, frames: u64) -> u64 {
        let [input, output] = self.rates;
        if input == output || frames == 0 {
            return frames;
        }
        ((self.received + frames - 1) * output).div_ceil(input) - self.delivered
    }

    /// The last of T frames, where the rates are unequal and (T - 1) × out ÷ in is whole; else nothing. With it
    /// floor((T - 1) × out ÷ in) + 1 are delivered in all, for T at least 1.
    fn last_frame(&self) -> &[u8] {
        let [input, output] = self.rates;
        if input == output || self.received == 0 {
            return &[];
        }
        let at = (self.received - 1) * output;
        let falls = at.is_multiple_of(input);
        assert_eq!(self.delivered + u64::from(falls), at / input + 1, "{} frames from {input} to {output} Hz", self.received);
        if falls { &self.last } else { &[] }
    }
}

impl Element for Resampler {
    fn output_format(&self, input: PcmFormat) -> Result<PcmFormat> {
        self.own.output_format(input)
    }

    fn max_output_bytes(&self, input: PcmFormat, input_bytes: usize) -> usize {
        self.own.max_output_bytes(input, input_bytes)
    }

    fn process(&mut self, input: PcmBlock<'_>, out: &mut [u8]) -> Result<usize> {
        let written = self.own.process(input, out)?;
        let frame = input.format.frame_bytes();
        self.received += input.frames() as u64;
        self.delivered += (written / frame) as u64;
        self.last.clear();
        self.last.extend_from_slice(&input.data[input.data.len() - frame..]);
        Ok(written)
    }

    fn reset(&mut self) {
        self.own.reset();
        (self.received, self.delivered) = (0, 0);
        self.last.clear();
    }
}

/// What a stage delivers that takes what arrives, and ends; its format becomes the one that leaves it.
fn stage_end(stage: &mut Stage, format: &mut Format, arriving: &[u8], address: Address) -> Vec<u8> {
    let (mut delivered, _) = run_stage(stage, format, arriving, address);
    if let Stage::Resample(resampler) = stage {
        delivered.extend_from_slice(resampler.last_frame());
    }
    delivered
}

/// What each stage of a chain delivers at its end, the format that leaves the last, how many samples were held back, and whether every
/// l + r that reached a mixdown was even to the end.
pub struct End {
    pub delivered: Vec<Vec<u8>>,
    pub format: Format,
    pub clipped: u64,
    pub all_even: bool,
}

impl End {
    pub fn lengths(&self) -> impl Iterator<Item = usize> {
        self.delivered.iter().map(Vec::len)
    }

    /// Each stage wants room for what it delivers.
    pub fn room(&self) -> Room {
        let (last, largest) = (self.lengths().last().unwrap_or(0), self.lengths().max().unwrap_or(0));
        Room { frames: (last / self.format.frame()) as u64, half: largest as u64 }
    }
}

/// At each stage all that the one before delivers arrives first. The stages do not move.
pub fn end(stages: &[Stage], mut format: Format, address: Address) -> End {
    let (mut stages, mut delivered) = (stages.to_vec(), Vec::<Vec<u8>>::new());
    for stage in &mut stages {
        let arriving = delivered.last().map_or(&[][..], Vec::as_slice);
        let bytes = stage_end(stage, &mut format, arriving, address);
        delivered.push(bytes);
    }
    End { delivered, format, clipped: take_clipped(&mut stages), all_even: mixdown::all_even(&stages) }
}
