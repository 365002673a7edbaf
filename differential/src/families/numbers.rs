//! The calls that need no chain: rounding, gains, poles, designs, frames, mixing.

use super::{Random, Session};
use crate::model::{Given, settings};
use crate::recipe;
use oracle::elements::BiquadKind;

/// Every half from -32,769.5 to 32,769.5, the floats beside it, and the whole numbers likewise.
pub fn halves(session: &mut Session, _: &mut Random) {
    for twice in -65_539..=65_539 {
        let value = twice as f32 / 2.0;
        [value.next_down(), value, value.next_up()].iter().for_each(|float| session.round_sat16(*float));
        if twice % 16 == 0 || !(-65_500..=65_500).contains(&twice) {
            let factor = value / 32_768.0;
            [factor.next_down(), factor, factor.next_up()].iter().for_each(|float| session.linear(*float));
        }
        session.run_if_long();
    }
}

#[rustfmt::skip]
const FLOATS: [f32; 21] = [
    0.0, -0.0, 0.5, -0.5, 0.49999997, 1.0, -1.0, 1_023.999_9, 1_024.0, -1_024.0, 1_024.000_1, 2_048.0, -2_048.0, 1e9, 1e-45,
    f32::MAX, f32::MIN, f32::MIN_POSITIVE, f32::INFINITY, f32::NEG_INFINITY, f32::NAN,
];

const RATES: [u32; 9] = [0, 1, 2, 16_000, 44_100, 383_999, 384_000, 384_001, u32::MAX];

pub fn limits(session: &mut Session, random: &mut Random) {
    for float in FLOATS {
        for near in [float.next_down(), float, float.next_up()] {
            session.round_sat16(near);
            session.linear(near);
            RATES.iter().for_each(|rate| session.pole(near, *rate));
        }
    }
    for bits in [0x7F80_0001, 0xFFC0_0000, 0xFFFF_FFFF, 0x7FC0_1234] {
        session.round_sat16(f32::from_bits(bits));
        session.linear(f32::from_bits(bits));
        session.pole(f32::from_bits(bits), 16_000);
    }
    for q15 in [0, 1, -1, 32_768, 33_554_431, 33_554_432, 33_554_433, -33_554_431, -33_554_432, -33_554_433, i32::MAX, i32::MIN] {
        session.from_q15(q15);
        session.sat16(q15);
    }
    for limit in [-32_768, 32_767, -65_536, 65_535] {
        (limit - 3..=limit + 3).for_each(|number| session.sat16(number));
    }
    for input in RATES {
        for output in RATES {
            for frames in [0, 1, 2, 3, 4_095, 8_191, 8_192, 8_193, 1 << 32, 1 << 63, u64::MAX] {
                session.max_output_frames([input, output], frames);
            }
        }
    }
    designs(session, random);
}

const KINDS: [fn(f32, f32, f32) -> BiquadKind; 4] = [
    |f0, q, _| BiquadKind::LowPass { f0, q },
    |f0, q, _| BiquadKind::HighPass { f0, q },
    |f0, q, gain_db| BiquadKind::Peak { f0, q, gain_db },
    |f0, q, _| BiquadKind::Notch { f0, q },
];

/// What the caller brings: the Rust's own values, with any a for the kinds that have none.
fn given_for(random: &mut Random, kind: BiquadKind, rate: u32) -> Given {
    let mut given = Given::by_source(kind, rate);
    if settings(kind).3.is_none() {
        given.a = random.choice(&[1.0, 0.0, -1.0, f64::NAN, f64::INFINITY]);
    }
    given
}

/// Peak gains whose a is near 1, at the ends of binary64, 0 or infinite, and such as have none.
#[rustfmt::skip]
const DECIBELS: [f32; 11] = [
    0.0, 3.0, -60.0, 12_000.0, 12_400.0, -12_900.0, 13_000.0, -13_100.0, f32::NAN, f32::INFINITY, f32::NEG_INFINITY,
];

/// f0, q and gain_db at their limits, at rates at theirs.
fn designs(session: &mut Session, random: &mut Random) {
    for rate in RATES {
        let half = rate as f32 / 2.0;
        let edges = [half, half.next_down(), half.next_up(), half / 2.0, half / 3.0, 1e-45, 0.0, -0.0, -1.0, 1e30];
        for f0 in edges.into_iter().chain([f32::NAN, f32::INFINITY, f32::NEG_INFINITY]) {
            for q in [0.707, 1e-45, 1e-30, 1e38, 0.0, -0.0, -0.5, f32::INFINITY, f32::NEG_INFINITY, f32::NAN] {
                for make in KINDS {
                    let gain_db = random.choice(&DECIBELS);
                    let kind = make(f0, q, gain_db);
                    let given = given_for(random, kind, rate);
                    session.design(kind, rate, given, gain_db);
                }
            }
        }
    }
    KINDS.iter().for_each(|make| outside(session, make(1_000.0, 0.9, 4.0)));
}

/// Sines, cosines and a outside what they can be, one at a time, and together with another refusal.
fn outside(session: &mut Session, kind: BiquadKind) {
    let (rate, own) = (16_000, Given::by_source(kind, 16_000));
    let beyond = [1.0f64.next_up(), 2.0, -1.0f64.next_up(), -2.0, f64::INFINITY, f64::NEG_INFINITY, f64::NAN];
    for value in beyond {
        session.design(kind, rate, Given { sine: value, ..own }, 0.0);
        session.design(kind, rate, Given { cosine: value, ..own }, 0.0);
        session.design(kind, 0, Given { cosine: value, ..own }, 0.0);
    }
    for sine in [-f64::from_bits(1), -1e-9, -0.5, -1.0] {
        session.design(kind, rate, Given { sine, ..own }, 0.0);
    }
    if settings(kind).3.is_some() {
        for a in [0.0, -0.0, -1.0, f64::INFINITY, f64::NEG_INFINITY, f64::NAN] {
            session.design(kind, rate, Given { a, ..own }, 0.0);
        }
    }
}

/// Numbers of any bits.
pub fn any(session: &mut Session, random: &mut Random) {
    leaves(session, random, 120_000);
    rated(session, random, 60_000);
}

/// Some of each, for the sample.
pub fn few(session: &mut Session, random: &mut Random) {
    for float in FLOATS {
        session.round_sat16(float);
        session.linear(float);
        session.pole(float, random.choice(&RATES));
    }
    for frames in [0, 1, 8_192, 8_193, u64::MAX] {
        RATES.iter().for_each(|rate| session.max_output_frames([*rate, 16_000], frames));
    }
    KINDS.iter().for_each(|make| outside(session, make(1_000.0, 0.9, 4.0)));
    leaves(session, random, 200);
    rated(session, random, 150);
    for length in 0..40 {
        let (a, b, room) = (random.sound(length), random.sound(length & !8), random.bytes(length ^ 1));
        session.mix(&a, &b, room);
    }
}

fn leaves(session: &mut Session, random: &mut Random, count: usize) {
    for _ in 0..count {
        let bits = random.next() as u32;
        session.round_sat16(f32::from_bits(bits));
        session.linear(f32::from_bits(bits));
        session.sat16((bits as i32) >> random.below(20));
        session.from_q15((bits as i32) >> random.below(10));
        session.round_sat16((bits as i32) as f32 / 60_000.0);
        session.linear((bits as i32) as f32 / 2e6);
        session.run_if_long();
    }
}

/// Calls that take a rate.
fn rated(session: &mut Session, random: &mut Random, count: usize) {
    for _ in 0..count {
        let rate = 1 + random.below(384_000) as u32;
        session.pole(f32::from_bits(random.next() as u32), rate);
        session.pole(random.below(1 << 24) as f32 / 256.0, rate);
        let kind = recipe::kind(random, rate);
        let given = given_for(random, kind, rate);
        session.design(kind, rate, given, 1.0);
        let rates = [rate, 1 + random.below(384_000) as u32];
        session.max_output_frames(rates, random.below(8_400) as u64);
        session.run_if_long();
    }
}

/// Equal, unequal, odd and empty buffers; room short, exact and larger; samples of every character.
pub fn mix(session: &mut Session, random: &mut Random) {
    for a in 0..12 {
        for b in 0..12 {
            for room in 0..14 {
                let (a, b, room) = (random.bytes(a), random.bytes(b), random.bytes(room));
                session.mix(&a, &b, room);
            }
        }
    }
    let limits = [i16::MIN, -32_767, -16_385, -16_384, -1, 0, 1, 16_383, 16_384, 32_766, i16::MAX];
    for x in limits {
        for y in limits {
            session.mix(&x.to_le_bytes().repeat(19), &y.to_le_bytes().repeat(19), vec![5; 40]);
        }
    }
    for _ in 0..1_500 {
        let length = 2 * if random.one_in(30) { random.below(16_385) } else { random.below(300) };
        let (a, b) = (random.sound(length), random.sound(length));
        let room = random.choice(&[length, length + 1, length + 9, length.saturating_sub(1)]);
        let room = random.bytes(room);
        session.mix(&a, &b, room);
        session.run_if_long();
    }
}
