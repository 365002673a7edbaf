//! Scripts that end inside a command, unknown commands and bytes that are too long: one end mark, and no more.

use super::{Random, Session};
use crate::model::Given;
use crate::protocol::*;
use crate::source::{Block, Format};
use oracle::elements::BiquadKind;

/// One call of each command, short.
pub fn one_of_each(session: &mut Session) {
    let format = Format { rate: 16_000, channels: 1 };
    session.open(format, &[2, 0, 2, 0]);
    session.block(Block { format, timestamp: 9, sound: &[1, 2], halves: [&[0; 4], &[0; 5]] });
    session.reset();
    session.finish([&[6; 2], &[7; 3]]);
    let _ = session.block_room(3);
    session.finish_room();
    session.write_recipe(vec![8; 5]);
    let _ = session.scratch_bytes(4);
    session.output_format();
    session.mix(&[1, 2], &[3, 4], vec![5; 3]);
    session.max_output_frames([8_000, 16_000], 3);
    session.pole(20.0, 16_000);
    let kind = BiquadKind::Notch { f0: 50.0, q: 2.0 };
    session.design(kind, 16_000, Given::by_source(kind, 16_000), 0.0);
    session.from_q15(7);
    session.linear(0.5);
    session.round_sat16(2.5);
    session.sat16(70_000);
}

pub fn every(session: &mut Session, _: &mut Random) {
    session.run();
    one_of_each(session);
    let (script, calls) = (session.script.clone(), session.calls.clone());
    session.run();
    let ends = calls.iter().skip(1).map(|start| start[0]).chain([script.len()]);
    for (start, end) in calls.iter().map(|start| start[0]).zip(ends) {
        (start + 1..end).for_each(|cut| session.run_to_end_mark(&script[start..cut]));
    }
    unknown(session);
    too_long(session);
}

fn unknown(session: &mut Session) {
    for command in (0..=255).filter(|command| command_of(*command).is_none()) {
        session.run_to_end_mark(&[command]);
        one_of_each(session);
        session.run_to_end_mark(&[command, SAT16, 0, 0, 0, 0]);
    }
    for kind in (0..=255).filter(|kind| !(1..=4).contains(kind)) {
        session.run_to_end_mark(&[[DESIGN, kind].as_slice(), &[0; 40]].concat());
    }
}

/// Each "bytes" field one over the limit, and with the longest length that four bytes can say.
fn too_long(session: &mut Session) {
    let fields: [(u8, &[usize]); 5] = [(OPEN, &[6]), (BLOCK, &[14, 18, 22]), (WRITE_RECIPE, &[0]), (MIX, &[0, 4, 8]), (FINISH, &[0, 4])];
    for (command, places) in fields {
        for before in places {
            for length in [LONGEST as u32 + 1, 1 << 31, u32::MAX] {
                let mut rest = vec![command];
                rest.resize(1 + before, 0);
                rest.put(length.to_le_bytes());
                session.sat16(5);
                session.run_to_end_mark(&rest);
                if length == LONGEST as u32 + 1 {
                    rest.resize(rest.len() + LONGEST + 20, 0);
                    session.run_to_end_mark(&rest);
                }
            }
        }
    }
}
