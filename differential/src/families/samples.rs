//! All 65,536 samples at many gains and through many filters.

use super::{Random, Session, ample_block};
use crate::model::MOST_FRAMES;
use crate::recipe::{self, Recipe};
use crate::source::Format;

fn all_samples() -> Vec<i16> {
    (i16::MIN..=i16::MAX).collect()
}

/// In blocks of 8,192 frames.
pub fn feed(session: &mut Session, random: &mut Random, samples: &[i16]) {
    for block in samples.chunks(MOST_FRAMES * session.chain.format.frame() / 2) {
        let sound: Vec<u8> = block.iter().flat_map(|sample| sample.to_le_bytes()).collect();
        ample_block(session, random, &sound);
    }
}

pub fn gains(session: &mut Session, random: &mut Random) {
    let more =
        [3, -3, 10_923, 21_846, 40_000, 50_000, -50_000, 65_534, 100_000, -100_000, 131_072, 2_000_000, -2_000_000, 2_147_483, 16_777_216];
    for q15 in recipe::GAINS.into_iter().chain(more) {
        session.open(Format { rate: 8_000, channels: 1 + (q15 & 1) as u16 }, &recipe::gain(q15));
        feed(session, random, &all_samples());
    }
}

/// Rising once, and once shuffled.
pub fn filters(session: &mut Session, random: &mut Random) {
    let mut shuffled = all_samples();
    for i in (1..shuffled.len()).rev() {
        shuffled.swap(i, random.below(i + 1));
    }
    let mut recipes = Vec::new();
    for rate in [8_000, 44_100] {
        for channels in [1, 2] {
            let format = Format { rate, channels };
            recipes.extend([20.0, 500.0].map(|corner| Recipe { format, bytes: recipe::dc_block(corner) }));
            recipes
                .extend((0..6).map(|_| Recipe { format, bytes: recipe::biquad(recipe::kind(random, rate), rate, &mut session.designs) }));
        }
    }
    for recipe in recipes {
        session.open_recipe(&recipe);
        feed(session, random, &all_samples());
        feed(session, random, &shuffled);
    }
}
