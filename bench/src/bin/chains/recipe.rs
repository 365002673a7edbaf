//! The chains that are timed, and the script that has `speed` run one.

use oracle::elements::{BiquadKind, Coefficients};

pub const SOUND_FRAMES: usize = 8_192;
pub const IN_RATE: u32 = 48_000;
pub const OUT_RATE: u32 = 16_000;
pub const CORNER: f32 = 20.0;
pub const LOW_PASS: BiquadKind = BiquadKind::LowPass { f0: 3_000.0, q: 0.707 };
pub const Q15: i32 = 49_152;

#[derive(Clone, Copy)]
pub enum Chain {
    /// Resample, DC block, biquad, gain.
    Voice,
    /// The same after stereo to mono.
    FromStereo,
    EightGains,
}

pub const CHAINS: [Chain; 3] = [Chain::Voice, Chain::FromStereo, Chain::EightGains];

impl Chain {
    pub fn name(self) -> &'static str {
        match self {
            Chain::Voice => "voice",
            Chain::FromStereo => "from-stereo",
            Chain::EightGains => "eight-gains",
        }
    }

    pub fn named(name: &str) -> Self {
        CHAINS.into_iter().find(|chain| chain.name() == name).expect("voice, from-stereo or eight-gains")
    }

    pub fn channels(self) -> u16 {
        match self {
            Chain::FromStereo => 2,
            _ => 1,
        }
    }

    pub fn recipe(self) -> Vec<u8> {
        match self {
            Chain::Voice => voice(),
            Chain::FromStereo => [record(3, &[]), voice()].concat(),
            Chain::EightGains => gain().repeat(8),
        }
    }

    /// Rate, channels, frames of a block, number of passes, recipe.
    pub fn script(self, frames: u32, times: u32) -> Vec<u8> {
        let settings = [IN_RATE, self.channels().into(), frames, times];
        [settings.map(u32::to_le_bytes).concat(), self.recipe()].concat()
    }
}

fn record(kind: u16, fields: &[u32]) -> Vec<u8> {
    let length = (2 + 4 * fields.len()) as u16;
    let fields = fields.iter().flat_map(|field| field.to_le_bytes());
    length.to_le_bytes().into_iter().chain(kind.to_le_bytes()).chain(fields).collect()
}

fn gain() -> Vec<u8> {
    record(1, &[Q15 as u32])
}

fn voice() -> Vec<u8> {
    let k = Coefficients::design(LOW_PASS, OUT_RATE).unwrap();
    let [b0, b1, b2, a1, a2] = [k.b0, k.b1, k.b2, k.a1, k.a2].map(f32::to_bits);
    [record(4, &[IN_RATE, OUT_RATE]), record(5, &[CORNER.to_bits()]), record(6, &[OUT_RATE, b0, b1, b2, a1, a2]), gain()].concat()
}
