//! The samples that stages hold back (document 02, Q-2), which the Rust does not tell. The rules of gain, DC and biquad are read a second
//! time from document 01: beside the Rust's stage, whose samples they must give, or alone where no kind gives the coefficients.

use oracle::esp_core::error::Result;
use oracle::esp_core::pcm::{PcmBlock, PcmFormat};
use oracle::pipeline::Element;

/// The sample of a value, and whether it was held back: the nearest whole number, halves away from zero, lies outside the sample range.
/// A NaN lies in no range and gives 0.
fn held(value: f64) -> (i16, bool) {
    let nearest = value.round();
    (nearest as i16, !(-32_768.0..=32_767.0).contains(&nearest))
}

pub fn held_back(value: f64) -> bool {
    held(value).1
}

pub fn samples(bytes: &[u8]) -> impl Iterator<Item = i16> {
    bytes.chunks_exact(2).map(|pair| i16::from_le_bytes([pair[0], pair[1]]))
}

/// The held sums of two streams, and how many were held back.
pub fn mixed(a: &[u8], b: &[u8]) -> (Vec<u8>, u64) {
    let held: Vec<(i16, bool)> = samples(a).zip(samples(b)).map(|(a, b)| held(f64::from(a) + f64::from(b))).collect();
    let clipped = held.iter().filter(|(_, back)| *back).count();
    (held.iter().flat_map(|(sample, _)| sample.to_le_bytes()).collect(), clipped as u64)
}

/// A stage that can hold samples back, by its settings in the recipe.
#[derive(Debug, Clone, Copy)]
enum Rule {
    Gain { q15: i32 },
    DcBlock { corner: f32 },
    Biquad { b: [f32; 3], a: [f32; 2] },
}

/// The earlier inputs and outputs of one channel.
#[derive(Clone, Copy, Default)]
struct Earlier {
    x1: f32,
    x2: f32,
    y1: f32,
    y2: f32,
}

impl Earlier {
    fn after(self, x: f32, y: f32) -> Self {
        Earlier { x1: x, x2: self.x1, y1: y, y2: self.y1 }
    }
}

/// floor((x × q15 + 16,384) ÷ 32,768).
fn scaled(x: i16, q15: i32) -> f64 {
    (i64::from(x) * i64::from(q15) + 16_384).div_euclid(32_768) as f64
}

/// 1 - (TAU × corner) ÷ rate.
fn pole(corner: f32, rate: u32) -> f32 {
    1.0 - (f32::from_bits(0x40C9_0FDB) * corner) / rate as f32
}

/// A stage's rule, its memory, and the samples held back since the count was last taken.
#[derive(Clone)]
pub struct Reading {
    rule: Rule,
    earlier: [Earlier; 2],
    clipped: u64,
}

impl Reading {
    fn new(rule: Rule) -> Self {
        Reading { rule, earlier: Default::default(), clipped: 0 }
    }

    pub fn gain(q15: i32) -> Self {
        Reading::new(Rule::Gain { q15 })
    }

    pub fn dc_block(corner: f32) -> Self {
        Reading::new(Rule::DcBlock { corner })
    }

    pub fn biquad([b0, b1, b2, a1, a2]: [f32; 5]) -> Self {
        Reading::new(Rule::Biquad { b: [b0, b1, b2], a: [a1, a2] })
    }

    pub fn take_clipped(&mut self) -> u64 {
        std::mem::take(&mut self.clipped)
    }

    /// Holds what the rule makes of each sample, channel by channel, counts and writes.
    fn read(&mut self, input: &[u8], channels: usize, out: &mut [u8], value: impl Fn(i16, &mut Earlier) -> f64) {
        for (channel, earlier) in self.earlier.iter_mut().enumerate().take(channels) {
            for at in (2 * channel..input.len()).step_by(2 * channels) {
                let x = i16::from_le_bytes([input[at], input[at + 1]]);
                let (sample, back) = held(value(x, earlier));
                self.clipped += u64::from(back);
                out[at..at + 2].copy_from_slice(&sample.to_le_bytes());
            }
        }
    }
}

/// The value of a filter's y, which the channel remembers.
fn filtered(earlier: &mut Earlier, x: i16, recurrence: impl Fn(f32, Earlier) -> f32) -> f64 {
    let x = f32::from(x);
    let y = recurrence(x, *earlier);
    *earlier = earlier.after(x, y);
    f64::from(y)
}

impl Element for Reading {
    fn output_format(&self, input: PcmFormat) -> Result<PcmFormat> {
        Ok(input)
    }

    fn process(&mut self, input: PcmBlock<'_>, out: &mut [u8]) -> Result<usize> {
        let (data, channels) = (input.data, usize::from(input.format.channels));
        match self.rule {
            Rule::Gain { q15 } => self.read(data, channels, out, |x, _| scaled(x, q15)),
            Rule::DcBlock { corner } => {
                let r = pole(corner, input.format.sample_rate_hz);
                self.read(data, channels, out, |x, earlier| filtered(earlier, x, |x, e| (x - e.x1) + r * e.y1));
            }
            Rule::Biquad { b: [b0, b1, b2], a: [a1, a2] } => {
                let y = |x, e: Earlier| (((b0 * x + b1 * e.x1) + b2 * e.x2) - a1 * e.y1) - a2 * e.y2;
                self.read(data, channels, out, |x, earlier| filtered(earlier, x, y));
            }
        }
        Ok(data.len())
    }

    fn reset(&mut self) {
        self.earlier = Default::default();
    }
}

/// A stage of the Rust, and the reading that must give its samples, if there is one.
#[derive(Clone)]
pub struct Beside<E> {
    own: E,
    reading: Option<Reading>,
}

impl<E: Element> Beside<E> {
    pub fn new(own: E, reading: Reading) -> Self {
        Beside { own, reading: Some(reading) }
    }

    pub fn drop_reading(&mut self) {
        self.reading = None;
    }

    pub fn take_clipped(&mut self) -> u64 {
        self.reading.as_mut().map_or(0, Reading::take_clipped)
    }
}

impl<E: Element> Element for Beside<E> {
    fn output_format(&self, input: PcmFormat) -> Result<PcmFormat> {
        self.own.output_format(input)
    }

    fn max_output_bytes(&self, input: PcmFormat, input_bytes: usize) -> usize {
        self.own.max_output_bytes(input, input_bytes)
    }

    fn process(&mut self, input: PcmBlock<'_>, out: &mut [u8]) -> Result<usize> {
        let written = self.own.process(input, out)?;
        if let Some(reading) = &mut self.reading {
            let mut again = vec![0; written];
            reading.process(input, &mut again)?;
            assert!(out[..written] == again, "the second reading of {:?} gives other samples", reading.rule);
        }
        Ok(written)
    }

    fn reset(&mut self) {
        self.own.reset();
        self.reading.iter_mut().for_each(Reading::reset);
    }
}
