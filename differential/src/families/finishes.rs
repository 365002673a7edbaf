//! Finishes (document 02, Q-1): after every length, at many rates, in chains of several resamplers, over halves short, exact and ample.

use super::{Random, Session, ample_finish, block_over, chains, finish_over, room};
use crate::model::{BUFFER_TOO_SMALL, MOST_FRAMES};
use crate::protocol::LONGEST;
use crate::recipe;
use crate::source::Format;

/// A block of so many frames over halves of no bytes, then of those that each refusal asks for; whether it was accepted.
fn accepted(session: &mut Session, random: &mut Random, frames: usize) -> bool {
    let sound = random.sound(frames * session.chain.format.frame());
    let mut half = 0;
    while half <= LONGEST {
        let answer = block_over(session, random, &sound, [half, half]);
        if answer.number != BUFFER_TOO_SMALL {
            return true;
        }
        half = answer.needed as usize / 2;
    }
    false
}

/// So many frames, in blocks as long as a script can lend the halves for.
fn stream(session: &mut Session, random: &mut Random, frames: usize) {
    let (mut rest, mut block) = (frames, MOST_FRAMES);
    while rest > 0 {
        block = block.min(rest);
        if accepted(session, random, block) || block == 1 {
            rest -= block;
        } else {
            block = block.div_ceil(2);
        }
    }
}

/// The first of two finishes is climbed to, from empty halves; the second has nothing due, and takes them.
fn two_finishes(session: &mut Session, random: &mut Random) {
    room::climb_once(session, random, finish_over);
    if session.chain.room_at_end() == 0 {
        let answer = finish_over(session, random, [0, 0]);
        assert_eq!(answer.outcome(), 2, "a finish after a finish: {:02X?}", session.chain.recipe);
    }
}

/// Channels, the rates of resamplers in a row, and lengths of streams.
type Row = (u16, &'static [[u32; 2]], &'static [usize]);

/// Each stream with two finishes and a reset at its end.
pub fn row(session: &mut Session, random: &mut Random, channels: u16, resamplers: &[[u32; 2]], lengths: impl IntoIterator<Item = usize>) {
    let recipe: Vec<u8> = resamplers.iter().flat_map(|rates| recipe::resample(*rates)).collect();
    session.open(Format { rate: resamplers[0][0], channels }, &recipe);
    for frames in lengths {
        stream(session, random, frames);
        two_finishes(session, random);
        session.reset();
    }
}

fn rows(session: &mut Session, random: &mut Random, rows: &[Row]) {
    rows.iter().for_each(|(channels, resamplers, lengths)| row(session, random, *channels, resamplers, lengths.iter().copied()));
}

/// After every length up to 12, at the named rates and at all from 1 to 6.
pub fn lengths(session: &mut Session, random: &mut Random) {
    let small = (1..=6).flat_map(|input| (1..=6).map(move |output| [input, output]));
    for rates in recipe::RESAMPLINGS.into_iter().chain(small) {
        let longest = if rates[1] / rates[0] < 100 { 12 } else { 2 };
        [1, 2].iter().for_each(|channels| row(session, random, *channels, &[rates], 0..=longest));
    }
}

#[rustfmt::skip]
const WIDE: [Row; 12] = [
    (1, &[[1_000, 1], [1, 1_000], [1_000, 4_000]], &[1_000, 1_001, 1_002, 2_001]),
    (2, &[[1_000, 1], [1, 1_000], [1_000, 4_000]], &[1, 1_001]),
    (1, &[[384_000, 1]], &[1, 2, 384_000, 384_001, 384_002]),
    (2, &[[384_000, 383_999]], &[384_000, 384_001]),
    (1, &[[383_999, 384_000]], &[383_999, 384_000, 384_001]),
    (1, &[[3, 384_000]], &[1, 2]),
    (2, &[[6, 384_000]], &[1, 2]),
    (1, &[[384_000, 1], [1, 384_000]], &[1, 2]),
    (1, &[[384_000, 1], [1, 131_070]], &[1, 384_001]),
    (2, &[[48_000, 1], [1, 65_535]], &[48_000, 48_001]),
    (1, &[[48_000, 1], [1, 131_070], [131_070, 384_000], [384_000, 1]], &[1, 48_001]),
    (1, &[[2, 1], [1, 2], [2, 1], [1, 2], [2, 1], [1, 2], [2, 1], [1, 2]], &[1, 2, 3, 4, 5, 6, 7, 8, 9, 10, 11]),
];

/// The smallest and the largest rates, and a last frame that becomes many.
pub fn wide(session: &mut Session, random: &mut Random) {
    rows(session, random, &WIDE);
}

/// Among them a last frame that becomes many, and a finish whose first stage writes and whose last has nothing.
const FEW: [Row; 6] = [
    (1, &[[8_000, 16_000]], &[0, 1, 3]),
    (2, &[[16_000, 8_000]], &[1, 3, 4]),
    (1, &[[10, 1], [1, 10], [10, 40]], &[11]),
    (2, &[[2, 3], [3, 1], [1, 2]], &[1, 3, 4]),
    (1, &[[6, 3], [3, 1]], &[5]),
    (1, &[[16_000, 16_000]], &[2]),
];

/// Some of each, for the sample.
pub fn few(session: &mut Session, random: &mut Random) {
    rows(session, random, &FEW);
}

/// One resampler at any rates, half of them small beside a common divisor.
pub fn rates(session: &mut Session, random: &mut Random) {
    for _ in 0..1_200 {
        let rates = if random.one_in(2) {
            let divisor = 1 + random.below(16_000) as u32;
            [0, 0].map(|_| divisor * (1 + random.below(24) as u32))
        } else {
            [0, 0].map(|_| 1 + random.below(384_000) as u32)
        };
        session.open(Format { rate: rates[0], channels: 1 + random.below(2) as u16 }, &recipe::resample(rates));
        for _ in 0..4 {
            let frames = random.below(13);
            stream(session, random, frames);
            ample_finish(session, random);
        }
        let frames = random.below(50);
        stream(session, random, frames);
        two_finishes(session, random);
    }
}

/// Chains of one to eight stages, half of them resamplers: streams of up to 12 frames, refused finishes and other calls within them.
pub fn of_chains(session: &mut Session, random: &mut Random) {
    for _ in 0..1_500 {
        let stages = 1 + random.below(8);
        let recipe = recipe::resamplers(random, stages, &mut session.designs);
        session.open_recipe(&recipe);
        for _ in 0..4 {
            for _ in 0..1 + random.below(2) {
                let frames = random.below(13);
                stream(session, random, frames);
                refused(session, random);
            }
            match random.below(4) {
                0 => chains::any_call(session, random),
                1 => _ = ample_finish(session, random),
                _ => two_finishes(session, random),
            }
        }
    }
}

/// A finish that has a byte too little, where something is due.
fn refused(session: &mut Session, random: &mut Random) {
    let room = session.chain.room_at_end();
    if room > 0 {
        let short = random.choice(&[0, room / 2, room - 1]).min(LONGEST);
        let other = random.choice(&[short, room, room + 3]).min(LONGEST);
        let lengths = random.choice(&[[short, other], [other, short]]);
        finish_over(session, random, lengths);
    }
}
