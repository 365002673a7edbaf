//! Mixdowns (document 02, Q-6): pairs of samples, blocks of every length, chains over even sums, every answer of which is held to the
//! source's sound, and over any.

use super::beforehand::{TO_MONO, TO_STEREO};
use super::clipping::{biquad, bytes_of, open};
use super::samples::feed;
use super::{Random, Session, ample_block, ample_finish, any_frames, block_over, finish_over, frames_that_fit};
use crate::clipping::samples;
use crate::mixdown::Held;
use crate::model::Answer;
use crate::notes::records;
use crate::protocol::BLOCK;
use crate::recipe::{self, Recipe};
use crate::source::Format;

/// A generator for the fixed cases, so that they move none of the cases after them.
fn apart() -> Random {
    Random::new(6)
}

/// A mixdown alone.
fn lone(session: &mut Session) {
    open(session, 16_000, 2, &[TO_MONO.to_vec()]);
}

/// Frames and the samples that they become: document 02's, and others at an exact half or at the limits.
#[rustfmt::skip]
const NAMED: [(i16, i16, i16); 14] = [
    (1, 2, 2), (0, 1, 0), (-1, -2, -2), (-1, 0, 0), (2, 3, 2), (-3, -2, -2), (32_767, 32_767, 32_767), (32_767, 32_766, 32_766),
    (32_765, 32_766, 32_766), (-32_768, -32_768, -32_768), (-32_768, -32_767, -32_768), (-32_766, -32_767, -32_766),
    (32_767, -32_768, 0), (-32_768, 32_767, 0),
];

/// A block of the frames, through a mixdown alone.
fn becomes(session: &mut Session, random: &mut Random, frames: &[i16], mono: &[i16]) {
    let sound = ample_block(session, random, &bytes_of(frames)).sound.expect("a mixdown of each frame");
    assert!(samples(&sound.bytes).eq(mono.iter().copied()), "{frames:?} does not become {mono:?}");
}

/// Each of these frames alone, and all at once.
fn named(session: &mut Session, random: &mut Random) {
    lone(session);
    NAMED.iter().for_each(|(l, r, mono)| becomes(session, random, &[*l, *r], &[*mono]));
    let frames: Vec<i16> = NAMED.iter().flat_map(|(l, r, _)| [*l, *r]).collect();
    becomes(session, random, &frames, &NAMED.map(|(_, _, mono)| mono));
}

/// The samples near 0 and at both ends.
fn near() -> impl Iterator<Item = i16> {
    (-64..=64).chain(i16::MIN..i16::MIN + 64).chain(i16::MAX - 63..=i16::MAX)
}

/// Document 02's frames, and each of these samples with each.
pub fn pairs(session: &mut Session, _: &mut Random) {
    let random = &mut apart();
    named(session, random);
    let frames: Vec<i16> = near().flat_map(|l| near().flat_map(move |r| [l, r])).collect();
    feed(session, random, &frames);
}

/// At the limits, near 0 and between, of both parities.
#[rustfmt::skip]
const RIGHTS: [i16; 24] = [
    -32_768, -32_767, -32_766, -32_765, -16_385, -16_384, -257, -256, -3, -2, -1, 0, 1, 2, 3, 255, 256, 16_383, 16_384, 21_845, 32_764,
    32_765, 32_766, 32_767,
];

fn every_left(session: &mut Session, random: &mut Random, r: i16) {
    lone(session);
    let frames: Vec<i16> = (i16::MIN..=i16::MAX).flat_map(|l| [l, r]).collect();
    feed(session, random, &frames);
}

/// Every left sample with each of these right ones.
pub fn lefts(session: &mut Session, _: &mut Random) {
    RIGHTS.iter().for_each(|r| every_left(session, &mut apart(), *r));
}

/// Every left sample with some right ones of any value.
pub fn any_rights(session: &mut Session, random: &mut Random) {
    for _ in 0..16 {
        let r = random.next() as i16;
        every_left(session, random, r);
    }
}

/// How the channels of stereo sound go together.
#[derive(Clone, Copy, PartialEq)]
enum Channels {
    Any,
    EqualParity,
    Equal,
}

/// Sound of so many frames, whose channels go together like this where there are two.
fn sound(random: &mut Random, format: Format, frames: usize, channels: Channels) -> Vec<u8> {
    let mut out = random.sound(frames * format.frame());
    if format.channels == 2 {
        out.chunks_exact_mut(4).for_each(|frame| match channels {
            Channels::Any => (),
            Channels::EqualParity => frame[2] = frame[2] & 0xFE | frame[0] & 1,
            Channels::Equal => frame.copy_within(..2, 2),
        });
    }
    out
}

/// An answer in a stream of even sums: where it is no refusal, every byte of it is the source's.
fn hold_to_sound(session: &Session, answer: &Answer) {
    let expected = (answer.outcome() > 0).then_some(Held::Sound);
    assert_eq!(answer.held, expected, "an answer not held to the source's sound: {:02X?}", session.chain.recipe);
}

/// Blocks of every length up to 200 frames, over halves that just suffice and longer ones: even sums, and after them any.
pub fn lengths(session: &mut Session, _: &mut Random) {
    let random = &mut apart();
    lone(session);
    for frames in 1..=200 {
        for longer in [0, 1 + random.below(9)] {
            let lengths = [2 * frames, 2 * frames].map(|half| half + longer);
            session.reset();
            let even = sound(random, session.chain.format, frames, Channels::EqualParity);
            let answer = block_over(session, random, &even, lengths);
            hold_to_sound(session, &answer);
            let any = random.bytes(4 * frames);
            block_over(session, random, &any, lengths);
        }
    }
}

/// A stage that leaves samples as they are; the format becomes the one after it.
fn copying(random: &mut Random, format: &mut Format) -> Vec<u8> {
    let rate = format.rate;
    match random.below(4) {
        0 => recipe::gain(32_768),
        1 => recipe::dc_block(0.0),
        2 => biquad(rate, [1.0, 0.0, 0.0, 0.0, 0.0]),
        _ => {
            let part = random.choice(&[1, 2, 3]);
            format.rate = if rate.is_multiple_of(part) { rate / part } else { rate };
            recipe::resample([rate, format.rate])
        }
    }
}

/// Up to three stages that leave samples as they are, a mixdown, and up to four of any kinds.
fn after_copies(session: &mut Session, random: &mut Random) -> Recipe {
    let format = Format { rate: random.choice(&recipe::RATES), channels: 2 };
    let mut reaching = format;
    let mut bytes: Vec<u8> = (0..random.below(4)).flat_map(|_| copying(random, &mut reaching)).collect();
    bytes.extend_from_slice(TO_MONO);
    reaching.channels = 1;
    let more = random.below(5);
    bytes.extend(recipe::any_from(random, reaching, more, &mut session.designs));
    Recipe { format, bytes }
}

/// One to eight stages of any kinds, a mixdown among them.
fn with_mixdown(session: &mut Session, random: &mut Random) -> Recipe {
    let stages = 1 + random.below(8);
    loop {
        let recipe = recipe::any(random, stages, &mut session.designs);
        if records(&recipe.bytes).iter().any(|(kind, _)| *kind == recipe::STEREO_TO_MONO) {
            return recipe;
        }
    }
}

/// A chain with a mixdown, and how the channels must go together for its sums to be even: any stage keeps equal channels equal.
fn chain(session: &mut Session, random: &mut Random) -> (Recipe, Channels) {
    if random.one_in(2) {
        return (after_copies(session, random), Channels::EqualParity);
    }
    (with_mixdown(session, random), Channels::Equal)
}

/// Blocks, resets, finishes and refusals.
fn calls(session: &mut Session, random: &mut Random, channels: Channels, count: usize) {
    for _ in 0..count {
        let wanted = any_frames(random).min(300);
        let frames = frames_that_fit(session, wanted);
        let sound = sound(random, session.chain.format, frames, channels);
        let short = [0, 0].map(|_| random.below(sound.len()));
        let answer = match random.below(10) {
            0 => {
                session.reset();
                continue;
            }
            1 => ample_finish(session, random),
            2 => finish_over(session, random, short),
            3 => block_over(session, random, &sound, short),
            4 => block_over(session, random, &sound[1..], [64, 64]),
            _ => ample_block(session, random, &sound),
        };
        if channels != Channels::Any {
            hold_to_sound(session, &answer);
        }
    }
}

/// Chains over even sums, cut anyhow.
pub fn even(session: &mut Session, random: &mut Random) {
    for _ in 0..1_500 {
        let (recipe, channels) = chain(session, random);
        session.open_recipe(&recipe);
        calls(session, random, channels, 9);
    }
}

/// A reset, an opening, or a finish that is accepted.
fn begin_anew(session: &mut Session, random: &mut Random, recipe: &Recipe) {
    match random.below(3) {
        0 => session.reset(),
        1 => _ = session.open_recipe(recipe),
        _ if ample_finish(session, random).number > 0 => session.reset(),
        _ => (),
    }
}

/// Chains over any sums, and in new streams over even ones.
pub fn any(session: &mut Session, random: &mut Random) {
    let of_lengths = |session: &Session| session.held.get(&(BLOCK, Held::Lengths)).copied().unwrap_or(0);
    let before = of_lengths(session);
    for _ in 0..1_000 {
        let (recipe, channels) = chain(session, random);
        session.open_recipe(&recipe);
        for _ in 0..2 {
            calls(session, random, Channels::Any, 5);
            begin_anew(session, random, &recipe);
            calls(session, random, channels, 3);
        }
    }
    assert!(of_lengths(session) - before > 1_000, "few sums are odd");
}

/// Frames in a row, the halves they come with, and how far their answers are held: an odd sum counts to the end of its stream, but not
/// where the stage after the mixdown is short.
const ODD_SUMS: [([i16; 2], usize, Option<Held>); 5] = [
    ([0, 2], 4, Some(Held::Sound)),
    ([0, 1], 2, None),
    ([-3, 1], 4, Some(Held::Sound)),
    ([-1, 0], 4, Some(Held::Lengths)),
    ([5, 5], 4, Some(Held::Lengths)),
];

/// These frames at first, after a reset and after a finish; then an odd sum that only the finish brings.
fn odd_sums(session: &mut Session, random: &mut Random) {
    open(session, 16_000, 2, &[TO_MONO.to_vec(), TO_STEREO.to_vec()]);
    for turn in 0..3 {
        match turn {
            0 => (),
            1 => session.reset(),
            _ => _ = ample_finish(session, random),
        }
        for (frame, half, held) in ODD_SUMS {
            assert_eq!(block_over(session, random, &bytes_of(&frame), [half, 5]).held, held, "{frame:?} over {half} bytes");
        }
    }
    open(session, 8_000, 2, &[recipe::resample([8_000, 16_000]), TO_MONO.to_vec()]);
    for (last, held) in [([1, 2], Held::Lengths), ([1, 1], Held::Sound)] {
        let answer = ample_block(session, random, &bytes_of(&[0, 0, last[0], last[1]]));
        hold_to_sound(session, &answer);
        finish_over(session, random, [1, 4]);
        assert_eq!(ample_finish(session, random).held, Some(held), "a finish with {last:?}");
    }
}

/// The same in the run.
pub fn after_odd(session: &mut Session, _: &mut Random) {
    odd_sums(session, &mut apart());
}

/// Some of each, for the sample: also blocks about sixteen frames, and a chain with a mixdown in its middle.
pub fn few(session: &mut Session, random: &mut Random) {
    named(session, random);
    odd_sums(session, random);
    lone(session);
    for frames in [15, 16, 17, 33, 211] {
        let any = random.bytes(4 * frames);
        ample_block(session, random, &any);
    }
    open(session, 48_000, 2, &[recipe::gain(20_001), recipe::resample([48_000, 32_000]), TO_MONO.to_vec(), recipe::dc_block(300.0)]);
    for frames in [1, 6, 18] {
        let any = sound(random, session.chain.format, frames, Channels::Any);
        ample_block(session, random, &any);
    }
    ample_finish(session, random);
}
