//! Recipes, written record by record.

use crate::random::Random;
use crate::source::Format;
use oracle::elements::{BiquadKind, Coefficients};
use std::collections::HashMap;

pub const GAIN: u16 = 1;
pub const MONO_TO_STEREO: u16 = 2;
pub const STEREO_TO_MONO: u16 = 3;
pub const RESAMPLE: u16 = 4;
pub const DC_BLOCK: u16 = 5;
pub const BIQUAD: u16 = 6;

/// The kind of filter that a biquad's fields (rate and coefficients) were designed from.
pub type Designs = HashMap<Vec<u8>, BiquadKind>;

pub fn record(kind: u16, fields: &[u32]) -> Vec<u8> {
    let mut out = (2 + 4 * fields.len() as u16).to_le_bytes().to_vec();
    out.extend_from_slice(&kind.to_le_bytes());
    fields.iter().for_each(|field| out.extend_from_slice(&field.to_le_bytes()));
    out
}

pub fn note(kind: u16, text: &[u8]) -> Vec<u8> {
    [&(2 + text.len() as u16).to_le_bytes(), &kind.to_le_bytes(), text].concat()
}

pub fn gain(q15: i32) -> Vec<u8> {
    record(GAIN, &[q15 as u32])
}

pub fn resample(rates: [u32; 2]) -> Vec<u8> {
    record(RESAMPLE, &rates)
}

pub fn dc_block(corner: f32) -> Vec<u8> {
    record(DC_BLOCK, &[corner.to_bits()])
}

/// A biquad whose coefficients are those of the Rust's design, which must take the kind.
pub fn biquad(kind: BiquadKind, rate: u32, designs: &mut Designs) -> Vec<u8> {
    let k = Coefficients::design(kind, rate).expect("a kind that the rate takes");
    let out = record(BIQUAD, &[rate, k.b0.to_bits(), k.b1.to_bits(), k.b2.to_bits(), k.a1.to_bits(), k.a2.to_bits()]);
    designs.insert(out[4..].to_vec(), kind);
    out
}

/// A recipe and the format of the chain that it opens.
#[derive(Clone)]
pub struct Recipe {
    pub format: Format,
    pub bytes: Vec<u8>,
}

pub const RATES: [u32; 16] =
    [1, 2, 3, 8_000, 11_025, 16_000, 16_001, 22_050, 44_100, 47_999, 48_000, 96_000, 131_070, 192_000, 383_999, 384_000];

pub const GAINS: [i32; 24] = [
    0, 1, -1, 2, 16_383, 16_384, 16_385, 23_170, 32_767, 32_768, 32_769, -32_767, -32_768, -32_769, 65_535, 65_536, 65_537, -65_535,
    -65_536, -65_537, 1_048_576, 33_554_431, 33_554_432, -33_554_432,
];

pub const CORNERS: [f32; 12] = [20.0, 0.0, -0.0, 1.0, 300.0, 7_000.0, -5.0, 1e-40, 1e30, f32::INFINITY, f32::NEG_INFINITY, f32::NAN];

/// A kind of filter whose f0 the rate takes; one in six at the ends of what the Rust takes.
pub fn kind(random: &mut Random, rate: u32) -> BiquadKind {
    let nyquist = rate as f32 / 2.0;
    let (mut f0, mut q) = (nyquist * (1 + random.below(998)) as f32 / 1_000.0, random.choice(&[0.5, 0.707, 1.0, 4.0, 30.0]));
    let mut gain_db = random.choice(&[0.0, 6.0, -6.0, 12.5, -30.0]);
    if random.one_in(6) {
        f0 = random.choice(&[f0, nyquist.next_down(), nyquist * 1e-4, 1e-45]);
        q = random.choice(&[q, 0.01, 1e-30, 1e30, f32::INFINITY]);
        gain_db = random.choice(&[gain_db, 200.0, -200.0, 12_000.0, -12_900.0, 13_000.0, -13_000.0]);
    }
    match random.below(4) {
        0 => BiquadKind::LowPass { f0, q },
        1 => BiquadKind::HighPass { f0, q },
        2 => BiquadKind::Peak { f0, q, gain_db },
        _ => BiquadKind::Notch { f0, q },
    }
}

/// A rate to resample to, mostly near enough that the sound neither dies out nor grows out of bounds.
fn rate_from(random: &mut Random, rate: u32) -> u32 {
    loop {
        let out = if random.one_in(4) { 1 + random.below(384_000) as u32 } else { random.choice(&RATES) };
        if (rate / 12..=rate.saturating_mul(12)).contains(&out) || random.one_in(40) {
            return out;
        }
    }
}

fn any_gain(random: &mut Random) -> i32 {
    match random.below(4) {
        0 => random.choice(&GAINS),
        1 => (random.next() as i32) >> 6,
        _ => (random.next() as i32) >> 15,
    }
}

fn any_corner(random: &mut Random, rate: u32) -> f32 {
    match random.below(6) {
        0 => random.choice(&CORNERS),
        1 => f32::from_bits(random.next() as u32),
        _ => rate as f32 * random.below(1_000) as f32 / 7_000.0,
    }
}

/// A record that suits the format that reaches it; the format becomes the one after it.
fn next_record(random: &mut Random, format: &mut Format, designs: &mut Designs) -> Vec<u8> {
    match random.below(6) {
        0 => gain(any_gain(random)),
        1 => {
            format.channels = 3 - format.channels;
            record(if format.channels == 2 { MONO_TO_STEREO } else { STEREO_TO_MONO }, &[])
        }
        2 => {
            let out = rate_from(random, format.rate);
            resample([std::mem::replace(&mut format.rate, out), out])
        }
        3 => dc_block(any_corner(random, format.rate)),
        _ => {
            let kind = kind(random, format.rate);
            biquad(kind, format.rate, designs)
        }
    }
}

/// A record as above; every second one resamples to a small multiple or part of the rate, so that outputs often fall on frames.
fn next_resampler(random: &mut Random, format: &mut Format, designs: &mut Designs) -> Vec<u8> {
    if random.one_in(2) {
        return next_record(random, format, designs);
    }
    let [up, down] = [0, 0].map(|_| 1 + random.below(4) as u32);
    let out = (format.rate * up / down).clamp(1, 384_000);
    resample([std::mem::replace(&mut format.rate, out), out])
}

type NextRecord = fn(&mut Random, &mut Format, &mut Designs) -> Vec<u8>;

/// So many records, each of which suits the format that reaches it.
fn records(random: &mut Random, mut format: Format, stages: usize, designs: &mut Designs, next: NextRecord) -> Vec<u8> {
    (0..stages).flat_map(|_| next(random, &mut format, designs)).collect()
}

fn row(random: &mut Random, stages: usize, designs: &mut Designs, next: NextRecord) -> Recipe {
    let format = Format { rate: random.choice(&RATES), channels: 1 + random.below(2) as u16 };
    Recipe { format, bytes: records(random, format, stages, designs, next) }
}

/// A recipe of so many stages that opens.
pub fn any(random: &mut Random, stages: usize, designs: &mut Designs) -> Recipe {
    row(random, stages, designs, next_record)
}

/// The same, some half of them resamplers.
pub fn resamplers(random: &mut Random, stages: usize, designs: &mut Designs) -> Recipe {
    row(random, stages, designs, next_resampler)
}

/// Records of any kinds that suit a format.
pub fn any_from(random: &mut Random, format: Format, stages: usize, designs: &mut Designs) -> Vec<u8> {
    records(random, format, stages, designs, next_record)
}

/// Each stage kind alone, at its settings' limits and in the middle.
pub fn lone_stages(random: &mut Random, designs: &mut Designs) -> Vec<Recipe> {
    let mut all = Vec::new();
    let mut push = |rate, channels, bytes| all.push(Recipe { format: Format { rate, channels }, bytes });
    push(16_000, 1, vec![]);
    push(16_000, 1, record(MONO_TO_STEREO, &[]));
    push(16_000, 2, record(STEREO_TO_MONO, &[]));
    for channels in [1, 2] {
        GAINS.iter().for_each(|q15| push(16_000, channels, gain(*q15)));
        RESAMPLINGS.iter().for_each(|rates| push(rates[0], channels, resample(*rates)));
        for rate in [1, 16_000, 384_000] {
            CORNERS.iter().for_each(|corner| push(rate, channels, dc_block(*corner)));
            (0..12).for_each(|_| push(rate, channels, biquad(kind(random, rate), rate, designs)));
        }
    }
    all
}

#[rustfmt::skip]
pub const RESAMPLINGS: [[u32; 2]; 20] = [
    [8_000, 16_000], [16_000, 8_000], [48_000, 16_000], [16_000, 48_000], [44_100, 16_000], [16_000, 44_100], [47_999, 16_001],
    [16_001, 47_999], [1, 3], [3, 1], [2, 3], [1, 1], [16_000, 16_000], [384_000, 384_000], [384_000, 1], [1, 48_000], [1, 131_070],
    [1, 384_000], [384_000, 383_999], [383_999, 384_000],
];
