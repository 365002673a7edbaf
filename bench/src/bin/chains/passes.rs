//! A sound through a chain block by block, many times over, as the program `speed` does it.

use crate::recipe::{Chain, IN_RATE, SOUND_FRAMES};
use oracle::esp_core::pcm::{PcmBlock, PcmFormat, SampleFormat};

/// An opened chain.
pub trait Player {
    /// What a block brings, in one of the two halves.
    fn play<'b>(&mut self, block: PcmBlock<'_>, halves: &'b mut [u8]) -> Option<PcmBlock<'b>>;

    /// Samples held back so far, where they are counted.
    fn clipped(&self) -> Option<u64> {
        None
    }
}

struct Tally {
    frames: u64,
    checksum: u32,
}

fn summed(checksum: u32, n: u64) -> u32 {
    checksum.wrapping_mul(33).wrapping_add(n as u32)
}

impl Tally {
    /// Every byte of an output in the first pass, later its end.
    fn add(&mut self, first: bool, answer: Option<PcmBlock<'_>>) {
        let Some(block) = answer else {
            self.checksum = summed(self.checksum, 0);
            return;
        };
        self.frames += block.frames() as u64;
        self.checksum = summed(self.checksum, block.data.len() as u64);
        self.checksum = summed(self.checksum, u64::from(block.data[block.data.len() - 1]));
        if first {
            self.checksum = block.data.iter().fold(self.checksum, |sum, byte| summed(sum, u64::from(*byte)));
        }
    }
}

/// Noise of even samples, the same as `speed` makes: where every l + r is even the source's stereo to mono takes the mean that ours does.
fn fill(sound: &mut [u8]) {
    let mut x = 1u64;
    for byte in sound {
        x = (x * 1_103_515_245 + 12_345) % (1 << 31);
        *byte = (x >> 16) as u8 & !1;
    }
}

/// Plays the sound and prints what `speed` prints.
pub fn run(chain: Chain, frames: usize, times: u32, mut player: impl Player) {
    let format = PcmFormat::new(IN_RATE, chain.channels(), SampleFormat::I16).unwrap();
    let mut sound = vec![0; SOUND_FRAMES * format.frame_bytes()];
    fill(&mut sound);
    let mut halves = vec![0; 2 * 65_536];
    let mut tally = Tally { frames: 0, checksum: 0 };
    for pass in 0..times.max(1) {
        for data in sound.chunks(frames * format.frame_bytes()) {
            let block = PcmBlock::new(format, 0, data).unwrap();
            tally.add(pass == 0, player.play(block, &mut halves));
        }
    }
    println!("{} frames, checksum {}", tally.frames, tally.checksum);
    if let Some(clipped) = player.clipped() {
        println!("{clipped} clipped");
    }
}
