//! What docs/DIFFERENCES.md says of the Rust, run through it.

use crate::clipping::samples;
use crate::mixdown::Mixdown;
use crate::model::{BUFFER_TOO_SMALL, Given};
use crate::source::{Address, Block, Format, Ran, Stage, process, refusal, run_stage};
use oracle::elements::{BiquadKind, Coefficients, DcBlock, Gain, LinearResampler, MonoToStereo};

const MONO: Format = Format { rate: 16_000, channels: 1 };

/// One mono frame, 256, over halves of so many bytes.
fn one_frame(stages: &[Stage], blocks: u64, half: usize) -> Ran {
    let lent = vec![0; half];
    process(stages, [blocks, 0], Block { format: MONO, timestamp: 0, sound: &[0, 1], halves: [&lent, &lent] }, Address::Even)
}

fn refused_blocks() {
    let ran = one_frame(&[Stage::gain(Gain::UNITY.q15())], 0, 0);
    assert_eq!((ran.answer.map_err(refusal), ran.counters), (Err((BUFFER_TOO_SMALL, 4)), [1, 0]), "a refused block is counted");
    let ran = one_frame(&[Stage::gain(Gain::UNITY.q15()), Stage::MonoToStereo(MonoToStereo)], 0, 2);
    assert_eq!((ran.answer.map_err(refusal), &ran.halves[0]), (Err((BUFFER_TOO_SMALL, 8)), &vec![0, 1]), "an early stage has written");
    let ran = one_frame(&[Stage::dc_block(20.0), Stage::MonoToStereo(MonoToStereo)], 0, 2);
    let again = one_frame(&ran.stages, 0, 4);
    assert_eq!(again.halves[1], [254, 0, 254, 0], "an early stage has moved: 256 comes out as 254");
}

fn counters() {
    let ran = one_frame(&[], u64::MAX, 2);
    assert_eq!(ran.counters, [0, 0], "blocks starts anew past 2^64 - 1");
}

fn formats_and_lengths() {
    let gain = [Stage::gain(16_384)];
    let (sound, room) = (vec![2; 4 * 8_193], vec![0; 4 * 8_193]);
    for format in [MONO, Format { rate: 48_000, channels: 2 }] {
        let block = Block { format, timestamp: 0, sound: &sound[..8_193 * format.frame()], halves: [&room, &room] };
        assert!(process(&gain, [0, 0], block, Address::Even).answer.is_ok(), "any format and any length");
    }
}

/// What the Rust's own mixdown and the rule make of one frame.
fn mixed_down(l: i16, r: i16) -> [Option<i16>; 2] {
    let frame = [l.to_le_bytes(), r.to_le_bytes()].concat();
    let rule = Stage::StereoToMono(Mixdown::default());
    [rule.clone().own(), rule].map(|mut stage| {
        let (mono, _) = run_stage(&mut stage, &mut Format { rate: 16_000, channels: 2 }, &frame, Address::Even);
        samples(&mono).next()
    })
}

fn mixdowns() {
    assert_eq!(mixed_down(-1, 0), [Some(-1), Some(0)], "an exact half is rounded down");
    assert_eq!(mixed_down(1, 2), [Some(1), Some(2)], "an exact half is rounded down");
}

fn settings() {
    assert_eq!(Gain::linear(f32::NAN).q15(), 0);
    assert_eq!(DcBlock::pole(20.0, 0), f32::NEG_INFINITY);
    assert!(DcBlock::pole(20.0, 384_001).is_finite());
    assert!(LinearResampler::new(0, 1).is_err() && LinearResampler::new(1, u32::MAX).is_ok());
    assert_eq!(LinearResampler::new(384_001, 1).unwrap().max_output_frames(8_193), 2);
    let peak = |gain_db| BiquadKind::Peak { f0: 1_000.0, q: 1.0, gain_db };
    assert!(Coefficients::design(peak(0.0), 384_001).is_ok(), "a rate above the limit");
    assert_eq!(Given::by_source(peak(13_000.0), 16_000).a, f64::INFINITY);
    assert_eq!(Coefficients::design(peak(13_000.0), 16_000).unwrap().b0, f32::INFINITY);
    assert_eq!(Given::by_source(peak(-13_000.0), 16_000).a, 0.0);
    assert!(Coefficients::design(peak(-13_000.0), 16_000).unwrap().a2.is_nan());
    assert_eq!(Given::by_source(peak(-12_900.0), 16_000).a, 3e-323);
    assert!(Coefficients::design(peak(-12_900.0), 16_000).unwrap().a2.is_nan(), "a NaN within the domain");
}

pub fn check() {
    refused_blocks();
    counters();
    formats_and_lengths();
    mixdowns();
    settings();
}
