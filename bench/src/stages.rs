//! The cases: each stage of the source, and ours.

use crate::timing::{Case, Source, Wrote};
use crate::{counts, kernels};
use oracle::elements::{Biquad, BiquadKind, Coefficients, DcBlock, Gain, LinearResampler, MonoToStereo, StereoToMono, mix_i16};
use oracle::esp_core::pcm::{PcmBlock, PcmFormat, SampleFormat};
use oracle::pipeline::Element;
use std::cell::RefCell;

fn process(stage: &mut dyn Element, channels: u16, input: &[u8], out: &mut [u8]) -> usize {
    process_at(RATE, stage, channels, input, out)
}

fn process_at(rate: u32, stage: &mut dyn Element, channels: u16, input: &[u8], out: &mut [u8]) -> usize {
    let format = PcmFormat { sample_rate_hz: rate, channels, sample: SampleFormat::I16 };
    stage.process(PcmBlock { format, timestamp: 0, data: input }, out).unwrap()
}

fn gain(name: &'static str, q15: i32, goal: f64) -> Case {
    let stage = RefCell::new(Gain::from_q15(q15));
    Case {
        name,
        channels: 1,
        goal: [None, Some(goal), Some(goal)],
        source: Box::new(move |input, out| process(&mut *stage.borrow_mut(), 1, input, out)),
        ours: Box::new(move |input, out| kernels::gain(q15, input, out)),
        clipped: Box::new(move |input| counts::gain(q15, input)),
    }
}

const RATE: u32 = 16_000;

/// A stage of the source that starts each block from silence.
fn from_silence(rate: u32, channels: u16, stage: impl Element + 'static) -> Source {
    let stage = RefCell::new(stage);
    Box::new(move |input, out| {
        let stage = &mut *stage.borrow_mut();
        stage.reset();
        process_at(rate, stage, channels, input, out)
    })
}

fn dc_block(name: &'static str, channels: u16) -> Case {
    let r = DcBlock::pole(20.0, RATE);
    Case {
        name,
        channels: channels.into(),
        goal: [None, Some(0.9), Some(0.9)],
        source: from_silence(RATE, channels, DcBlock::new()),
        ours: Box::new(move |input, out| kernels::dc_block(r, channels.into(), input, out)),
        clipped: Box::new(move |input| counts::dc_block(r, channels.into(), input)),
    }
}

fn biquad(name: &'static str, channels: u16) -> Case {
    let kind = BiquadKind::LowPass { f0: 3_000.0, q: 0.707 };
    let k = Coefficients::design(kind, RATE).unwrap();
    Case {
        name,
        channels: channels.into(),
        goal: [None, Some(0.9), Some(0.9)],
        source: from_silence(RATE, channels, Biquad::new(kind)),
        ours: Box::new(move |input, out| kernels::biquad(k, channels.into(), input, out)),
        clipped: Box::new(move |input| counts::biquad(k, channels.into(), input)),
    }
}

fn resample(name: &'static str, given: [u32; 2], channels: u16) -> Case {
    let rates = kernels::Rates::new(given);
    let goal = if given[0] == given[1] { [None, Some(1.1), Some(1.1)] } else { [Some(1.0), Some(0.9), Some(0.9)] };
    Case {
        name,
        channels: channels.into(),
        goal,
        source: from_silence(given[0], channels, LinearResampler::new(given[0], given[1]).unwrap()),
        ours: Box::new(move |input, out| kernels::resample(rates, channels.into(), input, out)),
        clipped: Box::new(|_| 0),
    }
}

type Run<T> = fn(&[u8], &mut [u8]) -> T;

fn channel_stage(name: &'static str, channels: usize, goal: f64, source: Run<usize>, ours: Run<Wrote>) -> Case {
    Case { name, channels, goal: [None, Some(goal), Some(goal)], source: Box::new(source), ours: Box::new(ours), clipped: Box::new(|_| 0) }
}

/// The two streams of a mix.
fn halves(input: &[u8]) -> (&[u8], &[u8]) {
    input.split_at(input.len() / 2)
}

pub fn all() -> Vec<Case> {
    vec![
        resample("48,000 to 16,000, mono", [48_000, 16_000], 1),
        resample("48,000 to 16,000, stereo", [48_000, 16_000], 2),
        resample("16,000 to 48,000, mono", [16_000, 48_000], 1),
        resample("16,000 to 48,000, stereo", [16_000, 48_000], 2),
        resample("44,100 to 16,000, mono", [44_100, 16_000], 1),
        resample("44,100 to 16,000, stereo", [44_100, 16_000], 2),
        resample("8,000 to 16,000, mono", [8_000, 16_000], 1),
        resample("8,000 to 16,000, stereo", [8_000, 16_000], 2),
        resample("16,000 to 16,000, mono", [16_000, 16_000], 1),
        resample("16,000 to 16,000, stereo", [16_000, 16_000], 2),
        dc_block("DC block, mono", 1),
        dc_block("DC block, stereo", 2),
        biquad("biquad, mono", 1),
        biquad("biquad, stereo", 2),
        gain("gain 16,384", 16_384, 0.95),
        gain("gain 65,535", 65_535, 0.95),
        gain("gain -65,535", -65_535, 0.95),
        gain("gain 32,768 (copy)", 32_768, 1.1),
        gain("gain 65,536 (wide)", 65_536, 0.45),
        gain("gain 33,554,432 (wide)", 33_554_432, 0.45),
        channel_stage("mono to stereo", 1, 1.1, |input, out| process(&mut MonoToStereo, 1, input, out), kernels::mono_to_stereo),
        channel_stage("stereo to mono", 2, 1.15, |input, out| process(&mut StereoToMono, 2, input, out), kernels::stereo_to_mono),
        Case {
            name: "mix",
            channels: 2,
            goal: [None, Some(0.4), Some(0.4)],
            source: Box::new(|input, out| {
                let (a, b) = halves(input);
                mix_i16(a, b, out).unwrap();
                a.len()
            }),
            ours: Box::new(|input, out| {
                let (a, b) = halves(input);
                kernels::mix(a, b, out)
            }),
            clipped: Box::new(|input| {
                let (a, b) = halves(input);
                counts::mix(a, b)
            }),
        },
    ]
}
