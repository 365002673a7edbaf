//! Clipped samples (document 02, Q-2): sound at and beside the limits through every stage that can hold a sample back, in chains, at
//! finishes, under all cuttings and around refusals.

use super::{Random, Session, ample_block, ample_finish, block_over, cuttings, finish_over};
use crate::model::MOST_FRAMES;
use crate::protocol::LONGEST;
use crate::recipe::{self, Recipe, record};
use crate::source::{Block, Format};
use oracle::elements::{BiquadKind, DcBlock};
use std::f32::consts::TAU;

pub fn bytes_of(samples: &[i16]) -> Vec<u8> {
    samples.iter().flat_map(|sample| sample.to_le_bytes()).collect()
}

pub fn open(session: &mut Session, rate: u32, channels: u16, records: &[Vec<u8>]) {
    assert_eq!(session.open(Format { rate, channels }, &records.concat()), 0, "a recipe that does not open");
}

/// A block of the samples, and how many the chain holds back.
fn fed(session: &mut Session, random: &mut Random, samples: &[i16]) -> u64 {
    ample_block(session, random, &bytes_of(samples)).clipped
}

const LIMITS: [i64; 2] = [-32_768, 32_767];

/// The samples within three of those that a gain takes to the limits, and the ends of the range.
fn beside_limits(q15: i32) -> Vec<i16> {
    let reached = LIMITS.map(|limit| limit * 32_768 / i64::from(q15));
    let places = reached.into_iter().chain(LIMITS).chain([0]);
    places.flat_map(|x| x - 3..=x + 3).filter_map(|x| i16::try_from(x).ok()).collect()
}

const FACTORS: [i32; 10] = [1, 16_384, 32_767, 32_768, 32_769, 49_152, 65_535, 65_536, 1_048_576, 33_554_432];

/// Each sample alone and all at once; in stereo, on one side of silence and on the other.
pub fn gains(session: &mut Session, random: &mut Random) {
    for q15 in FACTORS.into_iter().flat_map(|q15| [q15, -q15]) {
        let samples = beside_limits(q15);
        open(session, 16_000, 1, &[recipe::gain(q15)]);
        let alone: u64 = samples.iter().map(|x| fed(session, random, &[*x])).sum();
        let whole = fed(session, random, &samples);
        open(session, 16_000, 2, &[recipe::gain(q15)]);
        let [left, right] = [[1, 0], [0, 1]].map(|side| {
            let frames: Vec<i16> = samples.iter().flat_map(|x| side.map(|on| on * x)).collect();
            fed(session, random, &frames)
        });
        assert_eq!([whole, left, right], [alone; 3], "the count of gain {q15} depends on the block or the side");
    }
}

/// Factors that bring some sample to the last product within a limit, or to the first beyond it.
fn exact_factors() -> impl Iterator<Item = i32> {
    let last = [32_767 * 32_768 + 16_383, 32_768 * 32_768 + 16_384];
    let products = last.into_iter().flat_map(|product| [product, product + 1]);
    products.flat_map(|product| (33..=32_768).filter(move |x| product % x == 0).map(move |x| product / x))
}

/// These factors and any others, each over the samples beside its limits at once.
pub fn any_gains(session: &mut Session, random: &mut Random) {
    let any: Vec<i32> = (0..600).map(|_| (random.next() as i32) >> (6 + random.below(11)) | 1).collect();
    for q15 in exact_factors().flat_map(|q15| [q15, -q15]).chain(any) {
        open(session, 16_000, 1, &[recipe::gain(q15)]);
        fed(session, random, &beside_limits(q15));
    }
}

/// Every sample clipped, up to the longest streams: the count passes 16 bits.
pub fn many(session: &mut Session, random: &mut Random) {
    for length in [65_534, 65_536, 65_538, 131_070, 131_072, 131_074, LONGEST] {
        let sound = bytes_of(&[i16::MIN]).repeat(length / 2);
        session.mix(&sound, &sound, vec![3; length]);
    }
    for (channels, frames) in [(1, MOST_FRAMES), (2, MOST_FRAMES / 2)] {
        open(session, 8_000, channels, &[recipe::resample([8_000, 80_000]), recipe::gain(40_000), recipe::gain(-40_000)]);
        let clipped = fed(session, random, &vec![i16::MAX; frames * usize::from(channels)]);
        assert!(clipped > 2 * 65_536, "a loud block of which {clipped} samples are clipped");
    }
}

/// Two streams of all pairs of samples with a sum.
fn pairs_of(sum: i64) -> (Vec<i16>, Vec<i16>) {
    let firsts = i16::MIN..=i16::MAX;
    firsts.filter_map(|a| Some((a, i16::try_from(sum - i64::from(a)).ok()?))).unzip()
}

/// Sums within three of each limit: all pairs at once, and some of them alone.
pub fn mixes(session: &mut Session, random: &mut Random) {
    for sum in LIMITS.into_iter().flat_map(|limit| limit - 3..=limit + 3) {
        let (a, b) = pairs_of(sum);
        let room = random.bytes(2 * a.len() + 1);
        session.mix(&bytes_of(&a), &bytes_of(&b), room);
        a.iter().zip(&b).step_by(4_095).for_each(|(a, b)| session.mix(&a.to_le_bytes(), &b.to_le_bytes(), vec![5; 2]));
    }
}

/// Floats within a sample of each limit by steps of 2^-8 and those beside them, far floats, infinities and NaN; numbers likewise.
pub fn rounding(session: &mut Session, _: &mut Random) {
    for value in LIMITS.into_iter().flat_map(|limit| (-256..=256).map(move |part| limit as f32 + part as f32 / 256.0)) {
        [value.next_down(), value, value.next_up()].iter().for_each(|float| session.round_sat16(*float));
    }
    for value in [f32::INFINITY, f32::MAX, 1e9, 65_535.0, 2_147_483_648.0, f32::NAN, f32::from_bits(0x7F80_0001)] {
        [value, -value].iter().for_each(|float| session.round_sat16(*float));
    }
    for limit in LIMITS.into_iter().chain([-65_536, 65_535, 0]) {
        (limit - 300..=limit + 300).for_each(|number| session.sat16(number as i32));
    }
    [i32::MIN, i32::MIN + 1, i32::MAX - 1, i32::MAX].iter().for_each(|number| session.sat16(*number));
}

/// A biquad by its five coefficients, which need be no kind's.
pub fn biquad(rate: u32, coefficients: [f32; 5]) -> Vec<u8> {
    let [b0, b1, b2, a1, a2] = coefficients.map(f32::to_bits);
    record(recipe::BIQUAD, &[rate, b0, b1, b2, a1, a2])
}

/// A rate and a corner whose pole is this one.
fn tuned(pole: f32) -> (u32, f32) {
    let corner = |rate: u32| (1.0 - pole) * rate as f32 / TAU;
    let near = |rate| [corner(rate).next_down(), corner(rate), corner(rate).next_up()].map(|corner| (rate, corner));
    let found = (8_000..384_000).flat_map(near).find(|(rate, corner)| DcBlock::pole(*corner, *rate) == pole);
    found.expect("a pole that some rate gives")
}

/// The rate and the record of each filter that makes a second y of x - part × x1 from x1, x.
fn stepping(part: f32) -> [(u32, Vec<u8>); 2] {
    let (rate, corner) = tuned(1.0 - part);
    [(rate, recipe::dc_block(corner)), (16_000, biquad(16_000, [1.0, -part, 0.0, 0.0, 0.0]))]
}

/// Steps to the limits and a part of a sample beyond and before them, in each channel beside silence.
pub fn steps(session: &mut Session, random: &mut Random) {
    for part in [0.25, 0.5, 0.75, 127.0 / 256.0, 129.0 / 256.0] {
        for (rate, bytes) in stepping(part) {
            for (channels, channel) in [(1, 0), (2, 0), (2, 1)] {
                open(session, rate, channels, std::slice::from_ref(&bytes));
                steps_of(session, random, part, channel);
            }
        }
    }
}

/// Each step alone: a frame of x1, then one of x.
fn steps_of(session: &mut Session, random: &mut Random, part: f32, channel: usize) {
    let channels = usize::from(session.chain.format.channels);
    for (limit, inwards) in [(32_767, -1), (-32_768, 1)] {
        for (x1, x) in [(inwards, limit), (-inwards, limit), (inwards, limit + inwards), (4 * inwards, limit + 2 * inwards)] {
            let mut samples = vec![0; 2 * channels];
            (samples[channel], samples[channels + channel]) = (x1, x);
            let y = f64::from(x) - f64::from(part) * f64::from(x1);
            let expected = u64::from(y >= 32_767.5 || y <= -32_768.5);
            assert_eq!(fed(session, random, &samples), expected, "a y of {y}");
            session.reset();
        }
    }
}

/// Coefficients that overflow, grow without bound, or are no numbers.
#[rustfmt::skip]
const WILD: [[f32; 5]; 12] = [
    [f32::INFINITY, 0.0, 0.0, 0.0, 0.0], [f32::NEG_INFINITY, 1.0, 0.0, 0.0, 0.0], [f32::NAN, 0.0, 0.0, 0.0, 0.0],
    [1.0, f32::NAN, 0.0, 0.0, 0.0], [1.0, 0.0, 0.0, 0.0, f32::INFINITY], [1e38, 0.0, 0.0, 0.0, 0.0], [1e38, -1e38, 0.0, 0.0, 0.0],
    [1.0, 0.0, 0.0, -2.0, 0.0], [1.0, 0.0, 0.0, 1e20, 0.0], [1.0, 0.0, 0.0, 0.0, -3.0], [0.0; 5], [1.0, 0.0, 0.0, -1.0, 0.0],
];

/// Any coefficients: small ones, or any bits.
fn any_coefficients(random: &mut Random) -> [f32; 5] {
    let bits = random.one_in(4);
    [0; 5].map(|_| if bits { f32::from_bits(random.next() as u32) } else { (random.below(4_097) as f32 - 2_048.0) / 1_024.0 })
}

/// Filters that the Rust cannot make, and corners whose y is infinite or a NaN; one channel still, at first.
pub fn wild(session: &mut Session, random: &mut Random) {
    let any: Vec<[f32; 5]> = (0..150).map(|_| any_coefficients(random)).collect();
    let biquads = WILD.into_iter().chain(any).map(|coefficients| biquad(16_000, coefficients));
    let corners = [f32::NAN, f32::INFINITY, 1e30, -1e30, 9_000.0].map(recipe::dc_block);
    for bytes in biquads.chain(corners).collect::<Vec<_>>() {
        for channels in [1, 2] {
            open(session, 16_000, channels, std::slice::from_ref(&bytes));
            let frame = session.chain.format.frame();
            fed(session, random, &[0, 0]);
            fed(session, random, &[1, 0, -1, 0]);
            fed(session, random, &[i16::MAX, 0, i16::MIN, 0, i16::MAX, 1]);
            for frames in [1, 40, 7] {
                let sound = random.sound(frames * frame);
                ample_block(session, random, &sound);
            }
            session.reset();
            fed(session, random, &[i16::MIN, i16::MAX]);
        }
    }
}

/// At full scale, by samples of either sign.
fn loud(random: &mut Random, frames: usize, channels: u16) -> Vec<u8> {
    let samples: Vec<i16> = (0..frames * usize::from(channels)).map(|_| random.choice(&[i16::MIN, i16::MAX, 30_000, -20_000])).collect();
    bytes_of(&samples)
}

/// Chains of stages that clip, some after others that clip, for mono and stereo.
fn chains(session: &mut Session) -> Vec<Recipe> {
    use recipe::{dc_block, gain, resample};
    let peak = recipe::biquad(BiquadKind::Peak { f0: 2_000.0, q: 1.0, gain_db: 12.0 }, 16_000, &mut session.designs);
    let (stereo, mono) = (record(recipe::MONO_TO_STEREO, &[]), record(recipe::STEREO_TO_MONO, &[]));
    let any_channels = [
        vec![gain(65_536)],
        vec![gain(49_152); 8],
        [65_536, 16_384].repeat(4).into_iter().map(gain).collect(),
        vec![gain(40_000), gain(-40_000), dc_block(400.0), peak.clone(), gain(20_000), peak.clone()],
        vec![dc_block(20.0), biquad(16_000, [1.0, 0.5, 0.25, 0.0, 0.0]), gain(32_768)],
        vec![gain(65_536), resample([16_000, 48_000]), gain(65_536)],
        vec![gain(65_536), resample([16_000, 4_000]), gain(40_000), resample([4_000, 6_000]), gain(-65_536)],
        vec![resample([16_000, 8_000]), gain(65_536), resample([8_000, 4_000])],
    ];
    let both = any_channels.into_iter().flat_map(|records| [(1, records.clone()), (2, records)]);
    let up = (1, vec![gain(65_536), stereo, gain(65_536), dc_block(900.0)]);
    let down = (2, vec![gain(65_536), mono, gain(65_536), peak]);
    let all = both.chain([up, down]);
    all.map(|(channels, records)| Recipe { format: Format { rate: 16_000, channels }, bytes: records.concat() }).collect()
}

/// All cuttings of loud streams that end in a finish, and of the same after two frames that every chain clips: the counts add up equally.
pub fn cut(session: &mut Session, random: &mut Random) {
    for recipe in chains(session) {
        session.open_recipe(&recipe);
        let first_two = bytes_of(&[i16::MAX; 2]).repeat(recipe.format.channels.into());
        for frames in [1, 2, 5] {
            let stream = loud(random, frames, recipe.format.channels);
            cuttings::every_cutting(session, random, &recipe, &stream);
            let joined = cuttings::every_cutting(session, random, &recipe, &[first_two.clone(), stream].concat());
            assert!(joined.clipped > 0, "a loud stream that is not clipped: {:02X?}", recipe.bytes);
        }
    }
}

/// Blocks and finishes that are refused between some that clip: no count, and nothing moved.
pub fn refused(session: &mut Session, random: &mut Random) {
    for recipe in chains(session) {
        session.open_recipe(&recipe);
        for frames in [1, 2, 9] {
            let sound = loud(random, frames, recipe.format.channels);
            refusals(session, random, &sound);
            ample_block(session, random, &sound);
            if session.chain.room_at_end() > 0 {
                finish_over(session, random, [64, 0]);
            }
        }
        ample_finish(session, random);
    }
}

/// The sound over a half of no bytes, cut inside a frame, and in another format.
fn refusals(session: &mut Session, random: &mut Random, sound: &[u8]) {
    let Format { rate, channels } = session.chain.format;
    block_over(session, random, sound, [0, 64]);
    block_over(session, random, &sound[1..], [64, 64]);
    session.block(Block { format: Format { rate: rate + 1, channels }, timestamp: 0, sound, halves: [&[1; 64], &[2; 64]] });
}

/// Stage 1 clips a first frame that a resampler keeps: 'nothing yet' with a count.
fn first_frame(session: &mut Session, random: &mut Random, channels: u16) {
    open(session, 8_000, channels, &[recipe::gain(65_536), recipe::resample([8_000, 16_000])]);
    let answer = ample_block(session, random, &bytes_of(&[20_000, -3][..usize::from(channels)]));
    assert_eq!((answer.outcome(), answer.clipped), (2, 1), "a first frame");
}

/// A finish's last frame is clipped by a gain after the resampler; after it a second resampler may have nothing.
fn last_frame(session: &mut Session, random: &mut Random) {
    for (records, outcome) in [
        (vec![recipe::resample([8_000, 16_000]), recipe::gain(65_536)], 1),
        (vec![recipe::resample([8_000, 16_000]), recipe::gain(65_536), recipe::resample([16_000, 3_000])], 2),
    ] {
        open(session, 8_000, 1, &records);
        assert_eq!(fed(session, random, &[0, 20_000]), 0, "10,000 is not clipped, 20,000 waits");
        finish_over(session, random, [1, 1]);
        let answer = ample_finish(session, random);
        assert_eq!((answer.outcome(), answer.clipped), (outcome, 1), "a last frame");
    }
}

/// First and last frames.
pub fn waiting(session: &mut Session, random: &mut Random) {
    [1, 2].iter().for_each(|channels| first_frame(session, random, *channels));
    last_frame(session, random);
}

/// Some of each, for the sample.
pub fn few(session: &mut Session, random: &mut Random) {
    waiting(session, random);
    for q15 in [32_768, -32_768, 65_536, 7_206_211, 524_296] {
        open(session, 16_000, 1, &[recipe::gain(q15)]);
        fed(session, random, &beside_limits(q15));
    }
    for (rate, bytes) in stepping(0.5) {
        open(session, rate, 2, &[bytes]);
        steps_of(session, random, 0.5, 1);
    }
    for coefficients in WILD {
        open(session, 16_000, 1, &[biquad(16_000, coefficients)]);
        fed(session, random, &[0, 1, i16::MAX, i16::MIN, -3]);
    }
    open(session, 16_000, 1, &vec![recipe::gain(49_152); 8]);
    fed(session, random, &[0, 1_000, 5_000, 30_000, -30_000]);
    for (a, b) in [(32_767, 0), (32_767, 1), (-32_768, 0), (-32_768, -1)] {
        session.mix(&bytes_of(&[a, 5]), &bytes_of(&[b, 5]), vec![0; 4]);
    }
    [32_767, 32_768, -32_768, -32_769].iter().for_each(|number| session.sat16(*number));
    [32_767.49, 32_767.5, -32_768.49, -32_768.5].iter().for_each(|float| session.round_sat16(*float));
}
