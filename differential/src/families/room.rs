//! Halves exactly full, one byte short at each stage in turn, unequal and empty; the scratch figure.

use super::{Random, Session, ample_block, any_frames, block_over, open_any, sound_of};
use crate::model::{Answer, BUFFER_TOO_SMALL};
use crate::protocol::LONGEST;
use crate::recipe::{self, Recipe};

/// From empty halves to the exact room: each refusal names the next stage that is short, one byte below it is still refused.
pub fn climb(session: &mut Session, random: &mut Random) {
    for _ in 0..1_500 {
        let stages = random.below(9);
        open_any(session, random, stages);
        for _ in 0..3 {
            let frames = any_frames(random).min(200);
            let sound = sound_of(session, random, frames);
            climb_once(session, random, |session, random, lengths| block_over(session, random, &sound, lengths));
        }
    }
}

/// One climb by a call over halves of the lengths given.
pub fn climb_once(session: &mut Session, random: &mut Random, call: impl Fn(&mut Session, &mut Random, [usize; 2]) -> Answer) {
    let mut room = 0;
    loop {
        let larger = (room + 1 + random.below(9)).min(LONGEST);
        let lengths = random.choice(&[[room, room], [room, larger], [larger, room]]);
        let answer = call(session, random, lengths);
        if answer.number != BUFFER_TOO_SMALL || answer.needed as usize / 2 > LONGEST {
            return;
        }
        room = answer.needed as usize / 2;
        for short in [[room - 1, room - 1], [room - 1, larger.max(room)], [larger.max(room), room - 1], [0, room], [room, 0]] {
            call(session, random, short);
        }
    }
}

/// Each stage kind over every length of block and halves up to some twenty bytes; every room for the recipe.
pub fn every_length(session: &mut Session, random: &mut Random) {
    let lone = recipe::lone_stages(random, &mut session.designs);
    let of_kind = |kind: u8, channels| move |recipe: &&Recipe| recipe.bytes.get(2) == Some(&kind) && recipe.format.channels == channels;
    let kinds = (1..=6).flat_map(|kind| [1, 2].map(|channels| lone.iter().filter(of_kind(kind, channels)).step_by(6).take(3)));
    for recipe in kinds.flatten().chain(&lone[..1]) {
        session.open_recipe(recipe);
        for (length, a, b) in (0..=9).flat_map(|length| (0..=22).flat_map(move |a| (0..=22).map(move |b| (length, a, b)))) {
            let sound = random.sound(length);
            block_over(session, random, &sound, [a, b]);
        }
        (0..=recipe.bytes.len() + 2).for_each(|room| session.write_recipe(vec![6; room]));
    }
}

/// Halves of half the scratch figure each are never short.
pub fn scratch(session: &mut Session, random: &mut Random) {
    for _ in 0..1_200 {
        let stages = random.below(9);
        open_any(session, random, stages);
        let frame = session.chain.format.frame() as u64;
        for length in [0, 1, frame, frame + 1, 8_192 * frame, 8_192 * frame + 1, 8_193 * frame, u64::MAX, u64::MAX - 3, 1 << 63] {
            let _ = session.scratch_bytes(length);
        }
        for _ in 0..4 {
            let frames = any_frames(random);
            let sound = sound_of(session, random, frames);
            let Ok(figure) = session.scratch_bytes(sound.len() as u64) else { unreachable!() };
            let half = figure as usize / 2;
            if half <= LONGEST {
                let answer = block_over(session, random, &sound, [half, half]);
                assert_ne!(answer.number, BUFFER_TOO_SMALL, "the source's scratch figure does not suffice: {:02X?}", session.chain.recipe);
            }
            ample_block(session, random, &sound);
        }
    }
}
