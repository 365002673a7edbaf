//! Every stage kind alone, chains of up to eight, and calls of every sort on them.

use super::{Random, Session, ample_finish, any_frames, block_over, feed, finish_over, open_any, sound_of};
use crate::model::MOST_FRAMES;
use crate::recipe;
use crate::source::{Block, Format};

/// Each stage kind alone: blocks of 1, 2, odd, 8,191 and 8,192 frames, a reset and a finish among them.
pub fn lone(session: &mut Session, random: &mut Random) {
    for recipe in recipe::lone_stages(random, &mut session.designs) {
        session.open_recipe(&recipe);
        session.output_format();
        for frames in [1, 1, 2, 3, 17, 255] {
            feed(session, random, frames);
        }
        session.reset();
        for frames in [1, 31, random.choice(&[8_191, 8_192]), 5] {
            feed(session, random, frames);
        }
        ample_finish(session, random);
        feed(session, random, 3);
        any_call(session, random);
    }
}

/// Random chains under random calls.
pub fn any(session: &mut Session, random: &mut Random) {
    for _ in 0..5_500 {
        let stages = random.below(9);
        open_any(session, random, stages);
        (0..4 + random.below(16)).for_each(|_| any_call(session, random));
    }
}

/// Random chains over blocks of up to 8,192 frames, and each resampling over several such blocks.
pub fn long_blocks(session: &mut Session, random: &mut Random) {
    for rates in recipe::RESAMPLINGS {
        session.open(Format { rate: rates[0], channels: 1 + random.below(2) as u16 }, &recipe::resample(rates));
        for _ in 0..5 {
            feed(session, random, MOST_FRAMES);
        }
    }
    for _ in 0..150 {
        let stages = random.below(9);
        open_any(session, random, stages);
        for frames in [8_192, 8_191, 1 + random.below(MOST_FRAMES)] {
            feed(session, random, frames);
        }
    }
}

/// Blocks that the first three questions refuse, between blocks that pass.
pub fn refused_blocks(session: &mut Session, random: &mut Random) {
    for _ in 0..40 {
        let stages = random.below(9);
        open_any(session, random, stages);
        for length in 0..8 {
            let sound = random.bytes(length);
            block_over(session, random, &sound, [5 * length, 64]);
        }
        let frame = session.chain.format.frame();
        for length in [8_193 * frame, 8_193 * frame - 1, 8_192 * frame + 2, 8_194 * frame] {
            let sound = random.sound(length);
            block_over(session, random, &sound, [8, 9]);
        }
        wrong_formats(session, random, &[1, 6, 8_193]);
        any_call(session, random);
    }
}

/// Formats that are not the chain's, over blocks of so many frames, and of a byte more.
pub fn wrong_formats(session: &mut Session, random: &mut Random, frames: &[usize]) {
    let Format { rate, channels } = session.chain.format;
    let formats = [(rate ^ 1, channels), (rate, 3 - channels), (rate, 0), (rate, 3), (rate, 65_535), (0, channels), (u32::MAX, 0)];
    for (rate, channels) in formats {
        let whole = frames.iter().map(|frames| frames * session.chain.format.frame());
        for length in whole.flat_map(|length| [length, length + 1]).collect::<Vec<_>>() {
            let sound = random.sound(length);
            let halves = [random.bytes(40), random.bytes(33)];
            session.block(Block { format: Format { rate, channels }, timestamp: 3, sound: &sound, halves: [&halves[0], &halves[1]] });
        }
    }
}

/// Any call on the chain in use.
pub fn any_call(session: &mut Session, random: &mut Random) {
    match random.below(20) {
        0 => session.reset(),
        1 => {
            let length = session.chain.recipe.len();
            let room = random.choice(&[0, length.saturating_sub(1), length, length + 1, length + 40]);
            let room = random.bytes(room);
            session.write_recipe(room);
        }
        2 => {
            let length = random.below(9_000) as u64 * session.chain.format.frame() as u64;
            let _ = session.scratch_bytes(length);
        }
        3 => session.output_format(),
        4 => {
            let frames = any_frames(random);
            let sound = sound_of(session, random, frames);
            let lengths = [0, 0].map(|_| random.below(2 * sound.len() + 8));
            block_over(session, random, &sound, lengths);
        }
        5 => {
            let length = random.below(30);
            let sound = random.sound(length);
            block_over(session, random, &sound, [64, 64]);
        }
        6 => {
            let wrong = [Format { rate: 0, channels: 1 }, Format { rate: 384_001, channels: 2 }, Format { rate: 8_000, channels: 3 }];
            session.open(random.choice(&wrong), &[]);
        }
        7 => {
            let length = 1 + random.below(3);
            let recipe = random.bytes(length);
            session.open(session.chain.format, &recipe);
        }
        8 => _ = ample_finish(session, random),
        9 => {
            let lengths = [0, 0].map(|_| random.below(40));
            finish_over(session, random, lengths);
        }
        _ => {
            let frames = any_frames(random);
            feed(session, random, frames);
        }
    }
}
