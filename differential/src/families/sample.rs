//! A sample of scripts, small enough to store, that reaches every command, refusal, outcome and stage kind.

use super::{
    Random, Session, ample_block, ample_finish, ample_half, any_frames, beforehand, block_over, chains, clipping, divisors, ends,
    finish_over, finishes, mixdowns, notes, numbers, open_any, sound_of,
};
use crate::protocol::{BLOCK, BLOCK_ROOM, COMMANDS, END_MARK, FINISH, FINISH_ROOM, MIX, ROUND_SAT16, SAT16};
use crate::recipe;
use crate::source::Format;
use std::collections::BTreeSet;

/// The halves lent in the sample are at most this long, but for the longest block.
const SHORT_HALF: usize = 80;

pub fn gather(session: &mut Session, random: &mut Random) {
    ends::one_of_each(session);
    let sounded = stages(session, random);
    longest_block(session, random);
    any_chains(session, random);
    finishes::few(session, random);
    divisors::few(session, random);
    notes::few(session, random);
    clipping::few(session, random);
    damaged(session, random);
    numbers::few(session, random);
    beforehand::few(session, random);
    mixdowns::few(session, random);
    session.script.push(END_MARK);
    session.answers.push(END_MARK);
    check(session, &sounded);
}

/// Every kind alone, at every second of its settings, over the blocks that a short half holds; gives the kinds that made sound.
fn stages(session: &mut Session, random: &mut Random) -> BTreeSet<u8> {
    let mut sounded = BTreeSet::new();
    let lone = recipe::lone_stages(random, &mut session.designs);
    for recipe in lone[..3].iter().chain(lone[3..].iter().step_by(2)) {
        session.open_recipe(recipe);
        for frames in [1, 2, 7] {
            let sound = random.sound(frames * recipe.format.frame());
            if ample_half(session, sound.len()) > SHORT_HALF {
                continue;
            }
            if ample_block(session, random, &sound).outcome() == 1 {
                sounded.extend(recipe.bytes.get(2));
            }
        }
    }
    sounded
}

/// 8,192 frames pass, 8,193 do not.
fn longest_block(session: &mut Session, random: &mut Random) {
    session.open(Format { rate: 48_000, channels: 1 }, &recipe::resample([48_000, 1_000]));
    let sound = random.sound(2 * 8_193);
    ample_block(session, random, &sound[2..]);
    block_over(session, random, &sound, [3, 4]);
}

fn any_chains(session: &mut Session, random: &mut Random) {
    for _ in 0..35 {
        let stages = random.below(9);
        open_any(session, random, stages);
        session.output_format();
        let _ = session.scratch_bytes(random.below(40_000) as u64);
        for turn in 0..5 {
            if turn == 3 {
                short_finish(session, random);
            }
            let frames = any_frames(random).min(9);
            let sound = sound_of(session, random, frames);
            let half = ample_half(session, sound.len());
            if half <= SHORT_HALF {
                ample_block(session, random, &sound);
                block_over(session, random, &sound, [half.saturating_sub(1), half + 1]);
            } else {
                block_over(session, random, &sound, [0, 9]);
            }
        }
        session.reset();
        let room = session.chain.recipe.len() - usize::from(random.one_in(3) && stages > 0);
        session.write_recipe(vec![3; room]);
        if random.one_in(6) {
            chains::wrong_formats(session, random, &[1, 3]);
        }
    }
}

/// A finish that is short where something is due, and one that suits where a short half holds it.
fn short_finish(session: &mut Session, random: &mut Random) {
    let room = session.chain.room_at_end();
    finish_over(session, random, [room.saturating_sub(1).min(9), SHORT_HALF]);
    if room <= SHORT_HALF {
        ample_finish(session, random);
    }
}

fn damaged(session: &mut Session, random: &mut Random) {
    for _ in 0..3 {
        let whole = recipe::any(random, 4, &mut session.designs);
        for cut in 0..whole.bytes.len() {
            session.open(whole.format, &whole.bytes[..cut]);
        }
        for at in 0..whole.bytes.len() {
            let mut bytes = whole.bytes.clone();
            bytes[at] ^= 1 << random.below(8);
            session.open(whole.format, &bytes);
        }
    }
    for count in 7..=9 {
        session.open(Format { rate: 1, channels: 1 }, &recipe::gain(9).repeat(count));
    }
    for q15 in [33_554_432, 33_554_433, -33_554_433] {
        session.open(Format { rate: 384_000, channels: 2 }, &recipe::gain(q15));
    }
}

fn check(session: &Session, sounded: &BTreeSet<u8>) {
    let reached = &session.reached;
    let has = |wanted: &dyn Fn(&(u8, u16, u8)) -> bool| reached.keys().any(wanted);
    COMMANDS.iter().for_each(|command| assert!(has(&|seen| seen.0 == command.code), "{} is not in the sample", command.name));
    (1..=11).for_each(|number| assert!(has(&|seen| seen.1 == number), "refusal {number} is not in the sample"));
    for (command, outcome) in [BLOCK, FINISH].into_iter().flat_map(|command| [0, 1, 2].map(|outcome| (command, outcome))) {
        assert!(has(&|seen| seen.0 == command && seen.2 == outcome), "outcome {outcome} of command {command} is not in the sample");
    }
    for (command, number) in [(BLOCK_ROOM, 0), (BLOCK_ROOM, 4), (BLOCK_ROOM, 10), (FINISH_ROOM, 0)] {
        assert!(has(&|seen| seen.0 == command && seen.1 == number), "number {number} of command {command} is not in the sample");
    }
    for counted in [(BLOCK, 1), (BLOCK, 2), (FINISH, 1), (FINISH, 2), (MIX, 0), (ROUND_SAT16, 0), (SAT16, 0)] {
        assert!(session.clipped[&counted] > 0, "nothing is clipped in the sample by command and outcome {counted:?}");
    }
    (1..=6).for_each(|kind| assert!(sounded.contains(&kind), "stage kind {kind} makes no sound in the sample"));
}
