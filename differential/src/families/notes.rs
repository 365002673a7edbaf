//! Recipes with notes in them: every length, every place, and whole chains.

use super::{Random, Session, ample_block, ample_finish, any_frames, sound_of};
use crate::notes::LONGEST;
use crate::recipe::{self, note, record};
use crate::source::Format;

const MONO: Format = Format { rate: 16_000, channels: 1 };
const KINDS: [u16; 5] = [0x7FFF, 0x8000, 0x8001, 0xC0DE, 0xFFFF];

/// Notes of any kinds and lengths, mostly short.
fn any_notes(random: &mut Random) -> Vec<u8> {
    let many = random.choice(&[0, 0, 1, 1, 2, 5]);
    let one = |_| {
        let length = random.choice(&[0, 1, 2, 11, LONGEST - 1, LONGEST]);
        note(0x8000 + random.below(0x8000) as u16, &random.bytes(length))
    };
    (0..many).flat_map(one).collect()
}

/// A recipe that opens, with notes before, between and after its records.
pub fn annotated(random: &mut Random, bytes: &[u8]) -> Vec<u8> {
    let (mut rest, mut out) = (bytes, any_notes(random));
    while !rest.is_empty() {
        let (record, later) = rest.split_at(2 + usize::from(u16::from_le_bytes([rest[0], rest[1]])));
        out.extend_from_slice(record);
        out.extend(any_notes(random));
        rest = later;
    }
    out
}

/// Every length that two bytes can say, with the record cut off after its kind; the short ones whole too, and one byte short.
pub fn lengths(session: &mut Session, random: &mut Random) {
    for kind in KINDS {
        for length in 0..=u16::MAX {
            session.open(MONO, &[length.to_le_bytes(), kind.to_le_bytes()].concat());
        }
        session.run_if_long();
        for length in 0..=LONGEST + 8 {
            let whole = note(kind, &random.bytes(length));
            session.open(MONO, &whole);
            session.write_recipe(vec![7; 3]);
            session.open(MONO, &whole[..whole.len() - 1]);
            session.open(MONO, &[&whole[..], &recipe::gain(5)].concat());
            session.write_recipe(vec![7; 9]);
        }
    }
}

/// Each question that a record can fail, after a note and before one, with as many stages before it as a chain takes.
pub fn orders(session: &mut Session, _: &mut Random) {
    let remark = note(0x9000, b"drop at 11:20");
    let records: [Vec<u8>; 16] = [
        remark.clone(),
        note(0x8000, &[]),
        vec![2],
        vec![2, 0, 0],
        vec![1, 0, 0, 0x80],
        vec![0, 0, 0xFF, 0xFF],
        note(0x7FFF, &[]),
        note(0x7FFF, &[1; LONGEST + 1]),
        note(0x8000, &[1; LONGEST + 1]),
        note(0x8000, &[1; LONGEST + 1])[..20].to_vec(),
        note(0x8000, &[1; LONGEST])[..20].to_vec(),
        vec![3, 0, 2, 0, 0],
        vec![7, 0, 1, 0],
        recipe::gain(i32::MIN),
        record(recipe::STEREO_TO_MONO, &[]),
        recipe::gain(5),
    ];
    for before in [0, 1, 7, 8, 9] {
        let stages = recipe::gain(16_384).repeat(before);
        for first in &records {
            for second in &records {
                for parts in [[&stages[..], first, second], [first, &stages, second], [first, second, &stages]] {
                    session.open(MONO, &parts.concat());
                    session.write_recipe(vec![9; 8 * (before + 1)]);
                }
            }
        }
        session.run_if_long();
        session.open(MONO, &[&remark[..], &stages, &remark.repeat(2_000)].concat());
        session.write_recipe(vec![9; 8 * before]);
        session.write_recipe(vec![9; (8 * before).saturating_sub(1)]);
    }
}

/// Chains with notes: their sound, their end, and what they write back, with as much room as the stages' records take and one byte less.
pub fn chains(session: &mut Session, random: &mut Random) {
    for _ in 0..150 {
        let stages = random.below(9);
        let mut whole = recipe::any(random, stages, &mut session.designs);
        let plain = whole.bytes.len();
        whole.bytes = annotated(random, &whole.bytes);
        session.open_recipe(&whole);
        session.output_format();
        for _ in 0..3 {
            let frames = any_frames(random);
            let sound = sound_of(session, random, frames);
            ample_block(session, random, &sound);
        }
        ample_finish(session, random);
        for room in [plain, plain.saturating_sub(1), whole.bytes.len()] {
            let room = random.bytes(room);
            session.write_recipe(room);
        }
    }
}

/// Recipes with notes, cut and damaged at every byte.
pub fn damaged(session: &mut Session, random: &mut Random) {
    for _ in 0..30 {
        let stages = random.below(9);
        let plain = recipe::any(random, stages, &mut session.designs);
        let bytes = annotated(random, &plain.bytes);
        for at in 0..bytes.len() {
            session.open(plain.format, &bytes[..at]);
            for value in [0, 1, 255, bytes[at] ^ 0x80, random.next() as u8] {
                let mut other = bytes.clone();
                other[at] = value;
                if session.open(plain.format, &other) == 0 && random.one_in(4) {
                    session.write_recipe(vec![1; plain.bytes.len()]);
                }
            }
        }
    }
}

/// For the stored sample.
pub fn few(session: &mut Session, random: &mut Random) {
    let drum = [recipe::resample([48_000, 16_000]), recipe::dc_block(20.0), recipe::gain(49_152)].concat();
    let format = Format { rate: 48_000, channels: 1 };
    for _ in 0..4 {
        let bytes = annotated(random, &drum);
        session.open(format, &bytes);
        let sound = random.sound(2 * 7);
        ample_block(session, random, &sound);
        ample_finish(session, random);
        session.write_recipe(vec![3; drum.len()]);
        session.write_recipe(vec![3; drum.len() - 1]);
        for cut in (0..bytes.len()).step_by(3) {
            session.open(format, &bytes[..cut]);
        }
    }
    for kind in KINDS {
        for length in [0, 1, LONGEST, LONGEST + 1] {
            let whole = note(kind, &random.bytes(length));
            session.open(MONO, &[&recipe::gain(9).repeat(8), &whole[..]].concat());
            session.write_recipe(vec![3; 64]);
            session.open(MONO, &whole[..whole.len() - 1]);
            session.open(MONO, &whole[..4]);
            session.open(MONO, &[&whole[..], &recipe::gain(9).repeat(9)].concat());
        }
    }
}
