//! The room known beforehand (document 02, Q-5): frame counts within and past the limits, halves exactly as long and a byte shorter, stages
//! that are not reached, figures past 2^32, after calls of every sort.

use super::{Random, Session, any_frames, block_over, chains, feed, finish_over, frames_that_fit};
use crate::beforehand::Room;
use crate::model::{Answer, BUFFER_TOO_SMALL};
use crate::protocol::LONGEST;
use crate::recipe::{self, Designs, Recipe};
use crate::source::Format;

/// At the limits and past them, also where their bytes would come to few or none in 64 bits.
#[rustfmt::skip]
const COUNTS: [u64; 18] = [
    0, 1, 2, 8_191, 8_192, 8_193, 8_194, 65_535, 65_536, 65_537, 1 << 32, (1 << 32) + 1, 1 << 62, (1 << 62) + 1, 1 << 63, (1 << 63) + 1,
    u64::MAX - 1, u64::MAX,
];

fn ask(session: &mut Session, counts: impl IntoIterator<Item = u64>) {
    counts.into_iter().for_each(|frames| _ = session.block_room(frames));
}

/// Every count at the limits, and the end. Asking alters nothing, so one frame is asked of again.
fn limits_here(session: &mut Session) {
    ask(session, COUNTS);
    session.finish_room();
    ask(session, [1]);
}

/// Each stage kind alone: as opened, after a frame, some frames and a finish.
pub fn limits(session: &mut Session, random: &mut Random) {
    for recipe in recipe::lone_stages(random, &mut session.designs) {
        session.open_recipe(&recipe);
        limits_here(session);
        for frames in [1, 18] {
            feed(session, random, frames);
            limits_here(session);
        }
        exact_finish(session, random);
        limits_here(session);
    }
}

/// A call over a byte less than the figure in both halves, in the one and in the other; then over halves that just suffice.
fn exact(session: &mut Session, random: &mut Random, room: Room, call: impl Fn(&mut Session, &mut Random, [usize; 2]) -> Answer) {
    let half = room.half as usize;
    if half > LONGEST {
        call(session, random, [9, 40]);
        return;
    }
    let more = (half + 1 + random.below(9)).min(LONGEST);
    if half > 0 {
        for short in [[half - 1, half - 1], [half - 1, more], [more, half - 1]] {
            let answer = call(session, random, short);
            assert_eq!((answer.number, answer.needed), (BUFFER_TOO_SMALL, 2 * room.half), "a byte less: {:02X?}", session.chain.recipe);
        }
    }
    let lengths = random.choice(&[[half, half], [half, half], [half, more], [more, half]]);
    let answer = call(session, random, lengths);
    assert_eq!(answer.number, 0, "the figure: {:02X?}", session.chain.recipe);
}

fn exact_block(session: &mut Session, random: &mut Random, frames: usize) {
    let sound = random.sound(frames * session.chain.format.frame());
    let Ok(room) = session.block_room(frames as u64) else { unreachable!() };
    exact(session, random, room, |session, random, lengths| block_over(session, random, &sound, lengths));
}

fn exact_finish(session: &mut Session, random: &mut Random) {
    let room = session.finish_room();
    exact(session, random, room, finish_over);
}

/// Chains of up to eight stages, each second one of resamplers mostly, under calls of every sort.
pub fn of_chains(session: &mut Session, random: &mut Random) {
    for turn in 0..900 {
        let stages = turn / 2 % 9;
        let any: fn(&mut Random, usize, &mut Designs) -> Recipe = if turn % 2 == 0 { recipe::any } else { recipe::resamplers };
        let recipe = any(random, stages, &mut session.designs);
        session.open_recipe(&recipe);
        for _ in 0..5 {
            let wanted = any_frames(random).min(300);
            let frames = frames_that_fit(session, wanted);
            exact_block(session, random, frames);
            ask(session, [random.choice(&COUNTS), any_frames(random) as u64]);
            match random.below(6) {
                0 => exact_finish(session, random),
                1 => _ = session.open_recipe(&recipe),
                2 => session.reset(),
                _ => chains::any_call(session, random),
            }
        }
        exact_finish(session, random);
    }
}

/// A chain, and the blocks that reach it in turn.
type Row = (Recipe, &'static [usize]);

/// The records of the channel stages.
pub const TO_STEREO: &[u8] = &[2, 0, 2, 0];
pub const TO_MONO: &[u8] = &[2, 0, 3, 0];

/// Resamplers in a row, and other stages after them.
fn chain(rate: u32, channels: u16, resamplers: &[[u32; 2]], others: &[&[u8]]) -> Recipe {
    let resamplers: Vec<u8> = resamplers.iter().flat_map(|rates| recipe::resample(*rates)).collect();
    Recipe { format: Format { rate, channels }, bytes: [resamplers, others.concat()].concat() }
}

fn open(session: &mut Session, recipe: &Recipe) {
    assert_eq!(session.open_recipe(recipe), 0, "a recipe that does not open");
}

/// Rows whose later stages some blocks reach and others do not; whose last stage wants less than an earlier one, or more; whose stages
/// all want less than the block.
fn shapes() -> [Row; 18] {
    let turns = [[2, 1], [1, 2], [2, 1], [1, 2], [2, 1], [1, 2], [2, 1], [1, 2]];
    [
        (chain(16_000, 1, &[], &[]), &[1, 5]),
        (chain(16_000, 2, &[], &[]), &[1, 5]),
        (chain(16_000, 2, &[], &[TO_MONO]), &[1, 2, 3]),
        (chain(16_000, 2, &[], &[TO_MONO, &recipe::gain(9)]), &[1, 2, 3]),
        (chain(16_000, 2, &[], &[TO_MONO, TO_STEREO]), &[1, 2, 3]),
        (chain(16_000, 1, &[], &[TO_STEREO, TO_MONO]), &[1, 2, 3]),
        (chain(16_000, 1, &[], &[TO_STEREO, TO_MONO].repeat(4)), &[1, 2, 3]),
        (chain(16_000, 1, &[], &[&recipe::gain(40_000)[..]; 8]), &[1, 2, 3]),
        (chain(16_000, 2, &[[16_000, 16_000]], &[TO_MONO]), &[1, 2, 3]),
        (chain(1, 1, &[[1, 1]; 8], &[]), &[1, 2, 3]),
        (chain(8_000, 1, &[[8_000, 48_000], [48_000, 8_000]], &[]), &[1, 1, 2, 7, 1]),
        (chain(48_000, 2, &[[48_000, 8_000], [8_000, 48_000]], &[TO_MONO]), &[1, 1, 5, 2, 7, 1]),
        (chain(10, 1, &[[10, 1], [1, 100]], &[]), &[1, 1, 8, 1, 1, 10, 3, 40, 1, 1, 1, 1, 1, 1, 1, 1, 1, 1, 1]),
        (chain(10, 1, &[[10, 1], [1, 100]], &[TO_STEREO]), &[1, 1, 8, 1, 1, 10, 3, 40]),
        (chain(1_000, 1, &[[1_000, 1], [1, 384_000]], &[]), &[1, 1]),
        (chain(1_000, 1, &[[1_000, 1], [1, 384_000], [384_000, 100]], &[TO_STEREO]), &[1, 1]),
        (chain(6, 1, &[[6, 2], [2, 1], [1, 50], [50, 300]], &[TO_STEREO]), &[1; 14]),
        (chain(2, 2, &turns, &[]), &[1; 12]),
    ]
}

/// The questions before each block of a row, before its finish and after.
fn each_state(session: &mut Session, random: &mut Random, (recipe, blocks): &Row, questions: impl Fn(&mut Session)) {
    open(session, recipe);
    for frames in *blocks {
        questions(session);
        exact_block(session, random, *frames);
    }
    questions(session);
    exact_finish(session, random);
    questions(session);
}

/// Every count up to some hundred, and many of the others.
pub fn counts(session: &mut Session, random: &mut Random) {
    for row in &shapes() {
        each_state(session, random, row, |session| ask(session, (0..=130).chain((131..8_200).step_by(367))));
    }
}

/// Rows whose figures pass 2^32, and a finish in which one frame becomes a million.
fn long_rows() -> [Row; 8] {
    let doubled = [[1, 2], [2, 4], [4, 8], [8, 16], [16, 32], [32, 64], [64, 384_000]];
    let there_and_back = [[2, 1], [1, 131_070], [131_070, 1], [1, 131_070], [131_070, 1], [1, 131_070], [131_070, 384_000]];
    [
        (chain(1, 1, &[[1, 384_000]], &[]), &[]),
        (chain(1, 1, &[[1, 384_000]], &[TO_STEREO]), &[]),
        (chain(1, 2, &[[1, 384_000], [384_000, 384_000]], &[]), &[]),
        (chain(1, 2, &[[1, 384_000], [384_000, 1], [1, 384_000]], &[]), &[]),
        (chain(2, 2, &[[2, 384_000], [384_000, 383_999]], &[]), &[]),
        (chain(1, 1, &[[1, 131_070], [131_070, 384_000]], &[TO_STEREO]), &[1]),
        (chain(1, 1, &doubled, &[TO_STEREO]), &[1, 1]),
        (chain(2, 1, &there_and_back, &[TO_STEREO]), &[1; 7]),
    ]
}

/// Of the exact calls those that a script can lend the halves for.
pub fn long(session: &mut Session, random: &mut Random) {
    for row in &long_rows() {
        each_state(session, random, row, |session| {
            limits_here(session);
            ask(session, (3..8_192).step_by(501));
            assert!(session.block_room(8_192).is_ok_and(|room| room.half > 1 << 32), "a figure within 2^32");
        });
    }
}

/// Some of each, for the sample.
pub fn few(session: &mut Session, random: &mut Random) {
    for (recipe, blocks) in &shapes() {
        open(session, recipe);
        for frames in blocks.iter().take(3) {
            ask(session, [2, 12]);
            if session.chain.block_room(*frames as u64).is_ok_and(|room| room.half < 80) {
                exact_block(session, random, *frames);
            }
        }
        exact_finish(session, random);
    }
    for (recipe, _) in long_rows().iter().skip(1).step_by(3) {
        open(session, recipe);
        limits_here(session);
    }
}
