//! What every call must answer: the questions of documents 01 and 02 in their order, and the Rust's values wherever it has the call.

use crate::beforehand::{self, Room};
use crate::clipping;
use crate::ending::{self, End, Resampler};
use crate::mixdown::{self, Held, Mixdown};
use crate::notes::{self, is_note};
use crate::recipe::{self, Designs};
use crate::source::{self, ADDRESSES, Address, Block, Buffer, Format, Ran, Sound, Stage, refusal};
use oracle::elements::{BiquadKind, Coefficients, DcBlock, LinearResampler, MonoToStereo, mix_i16};
use std::f64::consts::TAU;

pub const INVALID_FORMAT: u16 = 1;
pub const UNSUPPORTED: u16 = 2;
pub const BUFFER_TOO_SMALL: u16 = 3;
pub const INVALID_GEOMETRY: u16 = 4;
pub const SHORT_RECORD: u16 = 5;
pub const UNKNOWN_STAGE: u16 = 6;
pub const RECORD_LENGTH: u16 = 7;
pub const TOO_MANY_STAGES: u16 = 8;
pub const SETTING_OUT_OF_RANGE: u16 = 9;
pub const TOO_MANY_FRAMES: u16 = 10;
pub const TOO_MANY_BYTES: u16 = 10;
pub const NOTE_TOO_LONG: u16 = 11;

pub const MOST_FRAMES: usize = 8_192;
const MOST_STAGES: usize = 8;
const GAIN_LIMIT: u32 = 33_554_432;

pub fn rate_allowed(rate: u32) -> bool {
    (1..=384_000).contains(&rate)
}

/// A chain in use, with the Rust's stages twice: run on buffers at even addresses, where a second reading runs beside them and counts, and
/// at odd ones.
pub struct Chain {
    pub format: Format,
    /// What the chain writes back.
    pub recipe: Vec<u8>,
    stages: [Vec<Stage>; 2],
    /// The Rust's own chain, run beside one that mixes down by another rule than the Rust's.
    own: Option<Vec<Stage>>,
    pub counters: [u64; 2],
}

/// Each stage's kind and the length that its records say.
#[rustfmt::skip]
const RECORD_LENGTHS: [(u16, u16); 6] = [
    (recipe::GAIN, 6), (recipe::MONO_TO_STEREO, 2), (recipe::STEREO_TO_MONO, 2),
    (recipe::RESAMPLE, 10), (recipe::DC_BLOCK, 6), (recipe::BIQUAD, 26),
];

/// One record: its kind, its fields or a note's bytes, and the bytes after it.
type Record<'a> = (u16, &'a [u8], &'a [u8]);

fn read_record(recipe: &[u8]) -> Result<Record<'_>, u16> {
    let two = |at: usize| recipe.get(at..at + 2).map(|bytes| u16::from_le_bytes([bytes[0], bytes[1]]));
    let (Some(length), Some(kind)) = (two(0), two(2)) else { return Err(SHORT_RECORD) };
    if length < 2 {
        return Err(SHORT_RECORD);
    }
    let end = 2 + usize::from(length);
    if is_note(kind) {
        if end > 4 + notes::LONGEST {
            return Err(NOTE_TOO_LONG);
        }
    } else {
        let Some((_, own)) = RECORD_LENGTHS.iter().find(|(known, _)| *known == kind) else { return Err(UNKNOWN_STAGE) };
        if length != *own {
            return Err(RECORD_LENGTH);
        }
    }
    let Some(fields) = recipe.get(4..end) else { return Err(SHORT_RECORD) };
    Ok((kind, fields, &recipe[end..]))
}

/// The stage of a record whose settings are within their limits.
fn stage(kind: u16, fields: &[u8], designs: &Designs) -> Result<Stage, u16> {
    let field = |i: usize| u32::from_le_bytes(fields[4 * i..4 * i + 4].try_into().unwrap());
    let float = |i: usize| f32::from_bits(field(i));
    let rates = match kind {
        recipe::RESAMPLE => vec![field(0), field(1)],
        recipe::BIQUAD => vec![field(0)],
        _ => vec![],
    };
    if !rates.into_iter().all(rate_allowed) || kind == recipe::GAIN && (field(0) as i32).unsigned_abs() > GAIN_LIMIT {
        return Err(SETTING_OUT_OF_RANGE);
    }
    Ok(match kind {
        recipe::GAIN => Stage::gain(field(0) as i32),
        recipe::MONO_TO_STEREO => Stage::MonoToStereo(MonoToStereo),
        recipe::STEREO_TO_MONO => Stage::StereoToMono(Mixdown::default()),
        recipe::RESAMPLE => Stage::Resample(Resampler::new([field(0), field(1)]).unwrap()),
        recipe::DC_BLOCK => Stage::dc_block(float(0)),
        _ => Stage::biquad([1, 2, 3, 4, 5].map(float), designs.get(fields).copied()),
    })
}

/// The format after a stage that suits the one before it: the Rust's answer, and the rate that a biquad was designed for.
fn suited(stage: &mut Stage, fields: &[u8], reaching: Format) -> Result<Format, u16> {
    if matches!(stage, Stage::Biquad(_) | Stage::Undesigned(_)) && fields[..4] != reaching.rate.to_le_bytes() {
        return Err(UNSUPPORTED);
    }
    stage.element().output_format(reaching.pcm()).map(Format::from).map_err(|error| refusal(error).0)
}

pub fn open(format: Format, bytes: &[u8], designs: &Designs) -> Result<Chain, u16> {
    if !rate_allowed(format.rate) || !(1..=2).contains(&format.channels) {
        return Err(INVALID_FORMAT);
    }
    let (mut stages, mut reaching, mut rest, mut kept) = (vec![], format, bytes, vec![]);
    while !rest.is_empty() {
        let (kind, fields, after) = read_record(rest)?;
        let record = &rest[..rest.len() - after.len()];
        rest = after;
        if is_note(kind) {
            continue;
        }
        if stages.len() == MOST_STAGES {
            return Err(TOO_MANY_STAGES);
        }
        let mut stage = stage(kind, fields, designs)?;
        reaching = suited(&mut stage, fields, reaching)?;
        stages.push(stage);
        kept.extend_from_slice(record);
    }
    let unread = stages.iter().cloned().map(Stage::unread).collect();
    let mixes_down = stages.iter().any(|stage| matches!(stage, Stage::StereoToMono(_)));
    let own = mixes_down.then(|| stages.iter().cloned().map(Stage::own).collect());
    Ok(Chain { format, recipe: kept, stages: [stages, unread], own, counters: [0; 2] })
}

/// What a block or a finish answers.
#[derive(Default)]
pub struct Answer {
    pub number: u16,
    pub needed: u64,
    pub sound: Option<Sound>,
    pub halves: [Vec<u8>; 2],
    pub counters: [u64; 2],
    pub clipped: u64,
    /// None for a refusal, and where no stage mixes down.
    pub held: Option<Held>,
}

impl Answer {
    /// 0 refused, 1 sound, 2 nothing yet.
    pub fn outcome(&self) -> u8 {
        match (&self.sound, self.number) {
            (Some(_), _) => 1,
            (None, 0) => 2,
            (None, _) => 0,
        }
    }
}

impl Chain {
    /// Whole frames of the chain's format, at least one, and at most 8,192.
    fn length_refused(&self, length: u64) -> Option<u16> {
        let frame = self.format.frame() as u64;
        if length == 0 || !length.is_multiple_of(frame) {
            return Some(INVALID_GEOMETRY);
        }
        (length / frame > MOST_FRAMES as u64).then_some(TOO_MANY_FRAMES)
    }

    pub fn block(&mut self, block: Block) -> Answer {
        let refused = self.length_refused(block.sound.len() as u64).or((block.format != self.format).then_some(UNSUPPORTED));
        let (number, needed, ran) = match refused {
            Some(number) => (number, 0, None),
            None => self.run(block),
        };
        let Some((ran, held)) = ran else {
            let halves = block.halves.map(<[u8]>::to_vec);
            return Answer { number, needed, halves, counters: self.counters, ..Answer::default() };
        };
        self.counters = ran.counters;
        Answer { number, needed, sound: ran.answer.unwrap(), halves: ran.halves, counters: self.counters, clipped: ran.clipped, held }
    }

    /// The Rust's answer over buffers at even and odd addresses, which must agree; its stages are kept where it took the block.
    fn run(&mut self, block: Block) -> (u16, u64, Option<(Ran, Option<Held>)>) {
        let [even, odd] = ADDRESSES.map(|address| source::process(&self.stages[address as usize], self.counters, block, address));
        let same = even.answer == odd.answer && even.halves == odd.halves && even.counters == odd.counters;
        assert!(same, "the source's arms disagree: {:?} {:X?}, {} bytes", self.format, self.recipe, block.sound.len());
        let held = self.run_own(block, &even);
        match even.answer {
            Err(error) => (refusal(error).0, refusal(error).1, None),
            Ok(_) => {
                self.stages = [even.stages.clone(), odd.stages];
                (0, 0, Some((even, held)))
            }
        }
    }

    /// The same block through the Rust's own chain, where that runs beside; its stages are kept where it took the block.
    fn run_own(&mut self, block: Block, ran: &Ran) -> Option<Held> {
        let own = source::process(self.own.as_ref()?, self.counters, block, Address::Even);
        let same_bytes = ran.answer == own.answer && ran.halves == own.halves;
        let held = self.hold(ran.but_bytes() == own.but_bytes(), same_bytes, mixdown::all_even(&ran.stages));
        if own.answer.is_ok() {
            self.own = Some(own.stages);
        }
        Some(held)
    }

    /// The Rust's own chain has always the same lengths, and the same bytes where every l + r was even.
    fn hold(&self, same_lengths: bool, same_bytes: bool, all_even: bool) -> Held {
        assert!(same_lengths, "the source's own chain has other lengths: {:?} {:02X?}", self.format, self.recipe);
        assert!(same_bytes || !all_even, "the source's own chain has other bytes: {:?} {:02X?}", self.format, self.recipe);
        if all_even { Held::Sound } else { Held::Lengths }
    }

    /// What each stage delivers at a finish, over buffers at even and odd addresses, which must agree.
    pub fn end(&self) -> End {
        let [even, odd] = ADDRESSES.map(|address| ending::end(&self.stages[address as usize], self.format, address));
        assert!(even.delivered == odd.delivered, "the source's arms disagree at the end: {:?} {:X?}", self.format, self.recipe);
        even
    }

    /// The same end of the Rust's own chain, where that runs beside.
    fn hold_end(&self, end: &End) -> Option<Held> {
        let own = ending::end(self.own.as_ref()?, self.format, Address::Even);
        let same_lengths = end.format == own.format && end.lengths().eq(own.lengths());
        Some(self.hold(same_lengths, end.delivered == own.delivered, end.all_even))
    }

    /// The bytes of each of the smallest equal halves that a finish accepts.
    pub fn room_at_end(&self) -> usize {
        self.end().room().half as usize
    }

    /// 1 to 8,192 frames: none is 4, too many is 10.
    pub fn block_room(&mut self, frames: u64) -> Result<Room, u16> {
        match frames {
            0 => Err(INVALID_GEOMETRY),
            _ if frames > MOST_FRAMES as u64 => Err(TOO_MANY_FRAMES),
            _ => Ok(beforehand::by_counts(&mut self.stages[0], self.format, frames)),
        }
    }

    /// The same by sound, for as many frames as are allowed.
    pub fn room_by_sound(&self, frames: u64) -> Room {
        beforehand::by_sound(&self.stages[1], self.format, frames)
    }

    /// Room for what each stage delivers, in chain order; then the front of each stage's half is written and the stream is over.
    pub fn finish(&mut self, end: End, halves: [&[u8]; 2]) -> Answer {
        let shorter = halves[0].len().min(halves[1].len());
        let held = self.hold_end(&end);
        let short = end.lengths().find(|length| *length > shorter);
        let End { delivered, format, clipped, .. } = end;
        let mut answer = Answer { halves: halves.map(<[u8]>::to_vec), counters: self.counters, ..Answer::default() };
        if let Some(length) = short {
            (answer.number, answer.needed) = (BUFFER_TOO_SMALL, 2 * length as u64);
            return answer;
        }
        let mut output = Sound { format, ..Sound::default() };
        for (bytes, half) in delivered.into_iter().zip([0, 1].into_iter().cycle()) {
            answer.halves[half][..bytes.len()].copy_from_slice(&bytes);
            (output.half, output.bytes) = (half as u8, bytes);
        }
        answer.sound = (!output.bytes.is_empty()).then_some(output);
        (answer.clipped, answer.held) = (clipped, held);
        self.reset();
        answer
    }

    pub fn reset(&mut self) {
        self.stages.iter_mut().chain(&mut self.own).for_each(|stages| source::reset(stages));
    }

    pub fn scratch_bytes(&mut self, length: u64) -> Result<u64, u16> {
        match self.length_refused(length) {
            Some(number) => Err(number),
            None => source::scratch_bytes(&mut self.stages[0], self.format, length as usize)
                .map(|value| value as u64)
                .map_err(|error| refusal(error).0),
        }
    }

    pub fn output_format(&mut self) -> Format {
        source::output_format(&mut self.stages[0], self.format).expect("a chain that opened")
    }

    /// The recipe's bytes at the front of the room, or number and needed.
    pub fn write_recipe(&self, room: &mut [u8]) -> Result<usize, (u16, u64)> {
        let length = self.recipe.len();
        let Some(front) = room.get_mut(..length) else { return Err((BUFFER_TOO_SMALL, length as u64)) };
        front.copy_from_slice(&self.recipe);
        Ok(length)
    }
}

/// Number and needed, and how many sums were held back.
pub fn mix(a: &[u8], b: &[u8], out: &mut Vec<u8>) -> ((u16, u64), u64) {
    let answers = ADDRESSES.map(|address| {
        let (a, b, mut room) = (Buffer::new(&[a], address), Buffer::new(&[b], address), Buffer::new(&[out], address));
        let refused = mix_i16(a.get(), b.get(), room.get_mut()).err().map_or((0, 0), refusal);
        (refused, room.get().to_vec())
    });
    assert!(answers[Address::Even as usize] == answers[Address::Odd as usize], "the source's arms of mix_i16 disagree");
    let [(refused, after), _] = answers;
    *out = after;
    if refused != (0, 0) {
        return (refused, 0);
    }
    let (sums, clipped) = clipping::mixed(a, b);
    assert!(out.starts_with(&sums), "the second reading of mix_i16 gives other samples");
    (refused, clipped)
}

pub fn max_output_frames(rates: [u32; 2], frames: u64) -> Result<u64, u16> {
    if !rates.into_iter().all(rate_allowed) {
        return Err(INVALID_FORMAT);
    }
    if frames > MOST_FRAMES as u64 {
        return Err(TOO_MANY_FRAMES);
    }
    let resampler = LinearResampler::new(rates[0], rates[1]).map_err(|error| refusal(error).0)?;
    Ok(resampler.max_output_frames(frames as usize) as u64)
}

pub fn pole(corner: f32, rate: u32) -> Result<f32, u16> {
    if rate_allowed(rate) { Ok(DcBlock::pole(corner, rate)) } else { Err(INVALID_FORMAT) }
}

/// The sine and cosine of w0 and Peak's a, which the caller of `design` brings.
#[derive(Debug, Clone, Copy, PartialEq)]
pub struct Given {
    pub sine: f64,
    pub cosine: f64,
    pub a: f64,
}

/// A kind's number in the script, f0, q and gain_db, which only Peak has.
pub fn settings(kind: BiquadKind) -> (u8, f32, f32, Option<f32>) {
    match kind {
        BiquadKind::LowPass { f0, q } => (1, f0, q, None),
        BiquadKind::HighPass { f0, q } => (2, f0, q, None),
        BiquadKind::Peak { f0, q, gain_db } => (3, f0, q, Some(gain_db)),
        BiquadKind::Notch { f0, q } => (4, f0, q, None),
    }
}

impl Given {
    /// As the Rust works them out.
    pub fn by_source(kind: BiquadKind, rate: u32) -> Self {
        let (_, f0, _, gain_db) = settings(kind);
        let w0 = TAU * f64::from(f0) / f64::from(rate);
        let a = gain_db.map_or(1.0, |gain_db| libm::pow(10.0, f64::from(gain_db) / 40.0));
        Given { sine: libm::sin(w0), cosine: libm::cos(w0), a }
    }

    fn allowed(self, kind: BiquadKind) -> bool {
        let a = !matches!(kind, BiquadKind::Peak { .. }) || self.a.is_finite() && self.a > 0.0;
        (-1.0..=1.0).contains(&self.cosine) && (0.0..=1.0).contains(&self.sine) && a
    }
}

/// The Rust's coefficients, where the values given are its own or are refused.
pub fn design(kind: BiquadKind, rate: u32, given: Given) -> Result<Coefficients, u16> {
    let (_, f0, q, _) = settings(kind);
    let (f0, half_rate) = (f64::from(f0), f64::from(rate) / 2.0);
    let filter_allowed = rate_allowed(rate) && f0 > 0.0 && f0 < half_rate && q > 0.0;
    if !filter_allowed || !given.allowed(kind) {
        assert!(
            !rate_allowed(rate) || filter_allowed || Coefficients::design(kind, rate).is_err(),
            "only document 01 refuses {kind:?} at {rate}"
        );
        return Err(INVALID_FORMAT);
    }
    let own = Given::by_source(kind, rate);
    assert!(given.sine == own.sine && given.cosine == own.cosine, "a sine or cosine that the source does not work out");
    assert!(given.a == own.a || !matches!(kind, BiquadKind::Peak { .. }), "an a that the source does not work out");
    Coefficients::design(kind, rate).map_err(|error| refusal(error).0)
}
