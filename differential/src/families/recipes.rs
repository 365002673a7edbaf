//! Opening: short recipes exhaustively, recipes cut and damaged at every byte, settings at their limits.

use super::{Random, Session, feed};
use crate::recipe::{self, record};
use crate::source::Format;

const MONO: Format = Format { rate: 16_000, channels: 1 };
const STEREO: Format = Format { rate: 48_000, channels: 2 };

/// All recipes of 0 to 2 bytes, and of 3 and 4 bytes those with few values in their high bytes.
pub fn short(session: &mut Session, _: &mut Random) {
    session.open(MONO, &[]);
    for first in 0..=255 {
        session.open(MONO, &[first]);
        for second in 0..=255 {
            session.open(MONO, &[first, second]);
            session.open(MONO, &[first, 0, second]);
            for [length, kind] in [[0, 0], [0, 1], [1, 0], [255, 255]] {
                session.open(STEREO, &[first, length, second, kind]);
            }
        }
        session.run_if_long();
    }
}

/// Every length at every kind, and at kinds beside them.
pub fn lengths(session: &mut Session, _: &mut Random) {
    for kind in 0..=8u16 {
        for length in 0..=65_535u16 {
            let mut bytes = [length.to_le_bytes(), kind.to_le_bytes()].concat();
            if length < 40 {
                bytes.resize(44, 1);
                session.open(STEREO, &bytes);
                bytes.truncate(2 + usize::from(length));
            }
            session.open(STEREO, &bytes);
        }
        session.run_if_long();
    }
    for kind in 0..=65_535u16 {
        session.open(MONO, &[[2, 0], kind.to_le_bytes()].concat());
    }
}

/// Formats, gains and rates at and beside their limits.
pub fn limits(session: &mut Session, _: &mut Random) {
    let rates = [0, 1, 2, 15_999, 16_000, 16_001, 383_999, 384_000, 384_001, 1 << 31, u32::MAX];
    for rate in rates {
        for channels in [0, 1, 2, 3, 256, 65_535] {
            let format = Format { rate, channels };
            session.open(format, &[]);
            session.output_format();
            for bytes in [record(recipe::MONO_TO_STEREO, &[]), record(recipe::STEREO_TO_MONO, &[]), vec![0]] {
                session.open(format, &bytes);
                session.output_format();
            }
            for other in rates {
                for rates in [[rate, other], [other, rate]] {
                    session.open(format, &recipe::resample(rates));
                    session.output_format();
                }
                session.open(format, &record(recipe::BIQUAD, &[other, 0x3F80_0000, 0, 0, 0, 0]));
                session.write_recipe(vec![7; 30]);
                let biquad = record(recipe::BIQUAD, &[other, 1, 2, 3, 4, 0x7FA0_0001]);
                session.open(format, &[recipe::resample([rate, other]), biquad].concat());
                session.write_recipe(vec![7; 40]);
            }
        }
    }
    for q15 in [0, 1, -1, 33_554_431, 33_554_432, 33_554_433, -33_554_431, -33_554_432, -33_554_433, i32::MAX, i32::MIN] {
        session.open(MONO, &recipe::gain(q15));
        session.write_recipe(vec![0; 8]);
    }
    for corner in [0x7F80_0001, 0x7FC0_0000, 0xFFFF_FFFF, 0x8000_0000] {
        session.open(MONO, &record(recipe::DC_BLOCK, &[corner]));
        session.write_recipe(vec![0; 9]);
    }
}

/// Eight records, and a ninth that other questions refuse first.
pub fn nine(session: &mut Session, _: &mut Random) {
    for count in 0..=10 {
        session.open(MONO, &recipe::gain(5).repeat(count));
        session.write_recipe(vec![9; 8 * count]);
    }
    let eight = recipe::gain(16_384).repeat(8);
    let lasts: [&[u8]; 10] = [
        &[2],
        &[2, 0, 2],
        &[1, 0, 1, 0],
        &[2, 0, 9, 0],
        &[3, 0, 2, 0, 0],
        &[6, 0, 1, 0, 0],
        &[2, 0, 2, 0],
        &[2, 0, 3, 0],
        &recipe::gain(i32::MAX),
        &recipe::resample([0, 0]),
    ];
    for last in lasts {
        session.open(MONO, &[&eight, last].concat());
        session.open(MONO, &[&eight[8..], last].concat());
        session.open(MONO, &[&eight[..8], last, &eight].concat());
        session.write_recipe(vec![1; 70]);
    }
}

/// Recipes cut at every byte and damaged at every byte, and what the chain in use says after each.
pub fn damaged(session: &mut Session, random: &mut Random) {
    for round in 0..120 {
        let stages = 1 + random.below(8);
        let whole = recipe::any(random, stages, &mut session.designs);
        for cut in 0..=whole.bytes.len() {
            session.open(whole.format, &whole.bytes[..cut]);
        }
        session.write_recipe(vec![0; whole.bytes.len()]);
        for at in 0..whole.bytes.len() {
            let own = whole.bytes[at];
            for value in [0, 1, 2, 255, own ^ 1, own ^ 0x80, own.wrapping_add(1), random.next() as u8] {
                let mut bytes = whole.bytes.clone();
                bytes[at] = value;
                let opened = session.open(whole.format, &bytes) == 0;
                if opened && random.one_in(4) {
                    session.write_recipe(vec![1; bytes.len()]);
                    session.output_format();
                }
            }
        }
        for room in [whole.bytes.len(), whole.bytes.len() - 1, whole.bytes.len() + 30, 0] {
            session.open_recipe(&whole);
            let room = random.bytes(room);
            session.write_recipe(room);
        }
        let more = random.below(6);
        let other = recipe::any(random, more, &mut session.designs);
        session.open(whole.format, &[&whole.bytes[..], &other.bytes].concat());
        session.open(other.format, &[&other.bytes[..], &whole.bytes].concat());
        let mut wrong = whole.clone();
        wrong.format.channels = 3 - wrong.format.channels;
        session.open_recipe(&wrong);
        wrong.format.rate = 1 + random.below(384_000) as u32;
        session.open_recipe(&wrong);
        feed(session, random, 1 + round);
    }
}
