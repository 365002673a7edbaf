//! The static library's chains: the calls of embed/muzgleur.h.

use crate::passes::{self, Player};
use crate::recipe::{Chain, IN_RATE};
use oracle::esp_core::pcm::{PcmBlock, PcmFormat, SampleFormat};

const CHAIN_WORDS: usize = 152;
const SOUND: u8 = 1;

#[repr(C)]
struct BlockResult {
    number: u16,
    outcome: u8,
    needed: usize,
    rate: u32,
    channels: u16,
    timestamp: u64,
    half: u8,
    len: usize,
    clipped: usize,
}

#[link(name = "muzgleur", kind = "static")]
unsafe extern "C" {
    fn muzgleur_open(rate: u32, channels: u16, recipe: *const u8, recipe_len: usize, chain: *mut u32, chain_words: usize) -> u16;
    fn muzgleur_block(
        chain: *mut u32,
        chain_words: usize,
        rate: u32,
        channels: u16,
        timestamp: u64,
        sound: *const u8,
        sound_len: usize,
        a: *mut u8,
        a_len: usize,
        b: *mut u8,
        b_len: usize,
    ) -> BlockResult;
}

struct Words {
    chain: [u32; CHAIN_WORDS],
    clipped: u64,
}

impl Words {
    fn open(rate: u32, channels: u16, recipe: &[u8]) -> Self {
        let mut chain = [0; CHAIN_WORDS];
        // SAFETY: the slices are live and apart, and the function requires nothing else.
        let number = unsafe { muzgleur_open(rate, channels, recipe.as_ptr(), recipe.len(), chain.as_mut_ptr(), chain.len()) };
        assert_eq!(number, 0, "opening refused");
        Words { chain, clipped: 0 }
    }
}

impl Player for Words {
    fn play<'b>(&mut self, block: PcmBlock<'_>, halves: &'b mut [u8]) -> Option<PcmBlock<'b>> {
        let PcmBlock { format, timestamp, data } = block;
        let (words, (a, b)) = (&mut self.chain, halves.split_at_mut(halves.len() / 2));
        // SAFETY: as above.
        let done = unsafe {
            muzgleur_block(
                words.as_mut_ptr(),
                words.len(),
                format.sample_rate_hz,
                format.channels,
                timestamp,
                data.as_ptr(),
                data.len(),
                a.as_mut_ptr(),
                a.len(),
                b.as_mut_ptr(),
                b.len(),
            )
        };
        assert_eq!(done.number, 0, "block refused, {} bytes needed", done.needed);
        self.clipped += done.clipped as u64;
        let format = PcmFormat { sample_rate_hz: done.rate, channels: done.channels, sample: SampleFormat::I16 };
        let half = if done.half == 0 { a } else { b };
        (done.outcome == SOUND).then(|| PcmBlock { format, timestamp: done.timestamp, data: &half[..done.len] })
    }

    fn clipped(&self) -> Option<u64> {
        Some(self.clipped)
    }
}

pub fn run(chain: Chain, frames: usize, times: u32) {
    passes::run(chain, frames, times, Words::open(IN_RATE, chain.channels(), &chain.recipe()));
}
