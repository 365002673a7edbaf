//! The unchanged Rust, run on one call: stages that can be cloned, and buffers at even and at odd addresses.

use crate::clipping::{Beside, Reading};
use crate::ending::Resampler;
use crate::mixdown::Mixdown;
use oracle::elements::{Biquad, BiquadKind, DcBlock, Gain, MonoToStereo, StereoToMono};
use oracle::esp_core::error::{Error, Result};
use oracle::esp_core::pcm::{PcmBlock, PcmFormat, SampleFormat};
use oracle::pipeline::{Element, Pipeline};

#[derive(Clone)]
pub enum Stage {
    Gain(Beside<Gain>),
    MonoToStereo(MonoToStereo),
    StereoToMono(Mixdown),
    /// The Rust's own mixdown.
    RoundedDown(StereoToMono),
    Resample(Resampler),
    DcBlock(Beside<DcBlock>),
    Biquad(Beside<Biquad>),
    /// A biquad of coefficients that no kind gives, which the Rust cannot make.
    Undesigned(Reading),
}

impl Stage {
    pub fn gain(q15: i32) -> Self {
        Stage::Gain(Beside::new(Gain::from_q15(q15), Reading::gain(q15)))
    }

    pub fn dc_block(corner: f32) -> Self {
        Stage::DcBlock(Beside::new(DcBlock::with_corner(corner), Reading::dc_block(corner)))
    }

    /// A biquad by its coefficients, and by the kind that gives them, if there is one.
    pub fn biquad(coefficients: [f32; 5], kind: Option<BiquadKind>) -> Self {
        let reading = Reading::biquad(coefficients);
        match kind {
            Some(kind) => Stage::Biquad(Beside::new(Biquad::new(kind), reading)),
            None => Stage::Undesigned(reading),
        }
    }

    /// Without a second reading where the Rust has the stage.
    pub fn unread(mut self) -> Self {
        match &mut self {
            Stage::Gain(stage) => stage.drop_reading(),
            Stage::DcBlock(stage) => stage.drop_reading(),
            Stage::Biquad(stage) => stage.drop_reading(),
            Stage::MonoToStereo(_) | Stage::StereoToMono(_) | Stage::RoundedDown(_) | Stage::Resample(_) | Stage::Undesigned(_) => (),
        }
        self
    }

    /// The same, with the Rust's own mixdown.
    pub fn own(self) -> Self {
        match self.unread() {
            Stage::StereoToMono(_) => Stage::RoundedDown(StereoToMono),
            stage => stage,
        }
    }

    /// How many frames the stage delivers of the next so many, by counts alone.
    pub fn delivers(&self, frames: u64) -> u64 {
        match self {
            Stage::Resample(stage) => stage.delivers(frames),
            _ => frames,
        }
    }

    /// How many samples were held back since this was last asked.
    fn take_clipped(&mut self) -> u64 {
        match self {
            Stage::Gain(stage) => stage.take_clipped(),
            Stage::DcBlock(stage) => stage.take_clipped(),
            Stage::Biquad(stage) => stage.take_clipped(),
            Stage::Undesigned(reading) => reading.take_clipped(),
            Stage::MonoToStereo(_) | Stage::StereoToMono(_) | Stage::RoundedDown(_) | Stage::Resample(_) => 0,
        }
    }

    pub fn element(&mut self) -> &mut dyn Element {
        match self {
            Stage::Gain(stage) => stage,
            Stage::MonoToStereo(stage) => stage,
            Stage::StereoToMono(stage) => stage,
            Stage::RoundedDown(stage) => stage,
            Stage::Resample(stage) => stage,
            Stage::DcBlock(stage) => stage,
            Stage::Biquad(stage) => stage,
            Stage::Undesigned(stage) => stage,
        }
    }
}

/// The sum over the stages of the samples held back in the call that they just ran.
pub fn take_clipped(stages: &mut [Stage]) -> u64 {
    stages.iter_mut().map(Stage::take_clipped).sum()
}

/// A rate and a channel count of 16-bit samples.
#[derive(Debug, Default, Clone, Copy, PartialEq, Eq)]
pub struct Format {
    pub rate: u32,
    pub channels: u16,
}

impl Format {
    pub fn frame(self) -> usize {
        2 * usize::from(self.channels)
    }

    pub fn pcm(self) -> PcmFormat {
        PcmFormat { sample_rate_hz: self.rate, channels: self.channels, sample: SampleFormat::I16 }
    }
}

impl From<PcmFormat> for Format {
    fn from(pcm: PcmFormat) -> Self {
        Format { rate: pcm.sample_rate_hz, channels: pcm.channels }
    }
}

/// Document 01's number and needed of an error of the Rust.
pub fn refusal(error: Error) -> (u16, u64) {
    match error {
        Error::InvalidFormat => (1, 0),
        Error::Unsupported => (2, 0),
        Error::BufferTooSmall { needed } => (3, needed as u64),
        Error::InvalidGeometry => (4, 0),
    }
}

/// Where a buffer starts: at an address that an i16 may have, or one byte off.
#[derive(Debug, Clone, Copy, PartialEq, Eq)]
pub enum Address {
    Even,
    Odd,
}

pub const ADDRESSES: [Address; 2] = [Address::Even, Address::Odd];

/// Bytes at an address of the parity asked for.
pub struct Buffer {
    bytes: Vec<u8>,
    start: usize,
}

impl Buffer {
    pub fn new(parts: &[&[u8]], address: Address) -> Self {
        let length: usize = parts.iter().map(|part| part.len()).sum();
        let mut bytes = Vec::with_capacity(length + 1);
        let start = (bytes.as_ptr() as usize ^ (address == Address::Odd) as usize) & 1;
        bytes.resize(start, 0);
        parts.iter().for_each(|part| bytes.extend_from_slice(part));
        Buffer { bytes, start }
    }

    pub fn get(&self) -> &[u8] {
        &self.bytes[self.start..]
    }

    pub fn get_mut(&mut self) -> &mut [u8] {
        &mut self.bytes[self.start..]
    }
}

fn pipeline_of<const N: usize>(stages: &mut [Stage]) -> Pipeline<'_, N> {
    let mut elements = stages.iter_mut().map(Stage::element);
    Pipeline::new(std::array::from_fn(|_| elements.next().unwrap()))
}

/// The Rust's pipeline over as many stages as there are.
macro_rules! with_pipeline {
    ($stages:expr, $pipeline:ident => $body:expr) => {
        with_pipeline!($stages, $pipeline => $body, 0 1 2 3 4 5 6 7 8)
    };
    ($stages:expr, $pipeline:ident => $body:expr, $($count:literal)*) => {
        match $stages.len() {
            $($count => {
                #[allow(unused_mut)]
                let mut $pipeline = pipeline_of::<$count>($stages);
                $body
            })*
            _ => unreachable!("at most eight stages"),
        }
    };
}

/// Sound that a call gave back.
#[derive(Debug, Default, Clone, PartialEq)]
pub struct Sound {
    pub format: Format,
    /// Of a block; a finish has none.
    pub timestamp: u64,
    pub half: u8,
    pub bytes: Vec<u8>,
}

/// What the Rust answered to a block, the halves and counters after it, the samples held back, and the stages.
pub struct Ran {
    pub answer: Result<Option<Sound>>,
    pub halves: [Vec<u8>; 2],
    pub counters: [u64; 2],
    pub clipped: u64,
    pub stages: Vec<Stage>,
}

impl Ran {
    /// All but the bytes: the refusal, or the output's format, timestamp, half and length, and the counters.
    pub fn but_bytes(&self) -> (Result<Option<(Sound, usize)>>, [u64; 2]) {
        let without = |sound: &Sound| (Sound { bytes: vec![], ..*sound }, sound.bytes.len());
        (self.answer.as_ref().map(|sound| sound.as_ref().map(without)).map_err(|error| *error), self.counters)
    }
}

/// A block as its caller brings it.
#[derive(Clone, Copy)]
pub struct Block<'a> {
    pub format: Format,
    pub timestamp: u64,
    pub sound: &'a [u8],
    pub halves: [&'a [u8]; 2],
}

/// Runs a block through clones of the stages, over a scratch of twice the shorter half.
pub fn process(stages: &[Stage], counters: [u64; 2], block: Block, address: Address) -> Ran {
    let half = block.halves[0].len().min(block.halves[1].len());
    let input = Buffer::new(&[block.sound], address);
    let mut buffer = Buffer::new(&[&block.halves[0][..half], &block.halves[1][..half]], address);
    let scratch = buffer.get_mut();
    let start = scratch.as_ptr() as usize;
    let mut stages = stages.to_vec();
    let (answer, counters) = with_pipeline!(&mut stages, pipeline => {
        [pipeline.blocks, pipeline.empty_blocks] = counters;
        let answer = PcmBlock::new(block.format.pcm(), block.timestamp, input.get()).and_then(|input| pipeline.process(input, scratch));
        let sound = answer.map(|sound| sound.map(|sound| Sound {
            format: sound.format.into(),
            timestamp: sound.timestamp,
            half: (sound.data.as_ptr() as usize - start >= half) as u8,
            bytes: sound.data.to_vec(),
        }));
        (sound, [pipeline.blocks, pipeline.empty_blocks])
    });
    let clipped = take_clipped(&mut stages);
    let (a, b) = buffer.get().split_at(half);
    let after = |written: &[u8], lent: &[u8]| [written, &lent[half..]].concat();
    Ran { answer, halves: [after(a, block.halves[0]), after(b, block.halves[1])], counters, clipped, stages }
}

/// What a stage makes of the bytes that reach it, and the room that it wants for that; the format becomes the one that leaves it.
pub fn run_stage(stage: &mut Stage, format: &mut Format, arriving: &[u8], address: Address) -> (Vec<u8>, usize) {
    let reaching = format.pcm();
    let element = stage.element();
    *format = element.output_format(reaching).expect("a chain that opened").into();
    if arriving.is_empty() {
        return (vec![], 0);
    }
    let wanted = element.max_output_bytes(reaching, arriving.len());
    let (input, mut out) = (Buffer::new(&[arriving], address), Buffer::new(&[&vec![0; wanted]], address));
    let block = PcmBlock::new(reaching, 0, input.get()).expect("whole frames");
    let written = element.process(block, out.get_mut()).expect("room for all it makes");
    (out.get()[..written].to_vec(), wanted)
}

pub fn reset(stages: &mut [Stage]) {
    with_pipeline!(stages, pipeline => pipeline.reset());
}

pub fn scratch_bytes(stages: &mut [Stage], format: Format, length: usize) -> Result<usize> {
    with_pipeline!(stages, pipeline => pipeline.scratch_bytes(format.pcm(), length))
}

pub fn output_format(stages: &mut [Stage], format: Format) -> Result<Format> {
    with_pipeline!(stages, pipeline => pipeline.output_format(format.pcm())).map(Format::from)
}
