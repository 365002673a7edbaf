//! The static library's functions. Each wrapper tests what the proved function requires.

use crate::timing::Wrote;
use oracle::elements::Coefficients;

/// 0 and the reduced rates, or the refusal's number.
#[derive(Debug, PartialEq)]
#[repr(C)]
pub struct RatesResult {
    pub number: u16,
    pub in_r: u64,
    pub out_r: u64,
}

mod raw {
    use super::RatesResult;

    #[link(name = "kernels", kind = "static")]
    unsafe extern "C" {
        pub fn new_resampler(in_rate: u32, out_rate: u32) -> RatesResult;
        pub fn gain_block(q15: i32, input: *const u8, len: usize, out: *mut u8, room: usize) -> usize;
        pub fn mono_to_stereo_block(input: *const u8, len: usize, out: *mut u8, room: usize);
        pub fn stereo_to_mono_block(input: *const u8, len: usize, out: *mut u8, room: usize);
        pub fn dc_block_block(r: f32, channels: usize, input: *const u8, len: usize, out: *mut u8, room: usize) -> usize;
        pub fn biquad_block(
            b0: f32,
            b1: f32,
            b2: f32,
            a1: f32,
            a2: f32,
            channels: usize,
            input: *const u8,
            len: usize,
            out: *mut u8,
            room: usize,
        ) -> usize;
        pub fn resample_block(
            in_rate: u32,
            out_rate: u32,
            in_r: u64,
            out_r: u64,
            channels: usize,
            input: *const u8,
            len: usize,
            out: *mut u8,
            room: usize,
        ) -> usize;
        pub fn mix_block(a: *const u8, a_len: usize, b: *const u8, b_len: usize, out: *mut u8, room: usize) -> usize;
    }
}

/// A function that counts nothing.
fn wrote(bytes: usize) -> Wrote {
    Wrote { bytes, clipped: 0 }
}

pub fn gain(q15: i32, input: &[u8], out: &mut [u8]) -> Wrote {
    assert!(input.len() % 2 == 0 && input.len() <= out.len() && q15.unsigned_abs() <= 33_554_432);
    // SAFETY: the slices are live, and the function's `requires` is tested above.
    let clipped = unsafe { raw::gain_block(q15, input.as_ptr(), input.len(), out.as_mut_ptr(), out.len()) };
    Wrote { bytes: input.len(), clipped }
}

pub fn mono_to_stereo(input: &[u8], out: &mut [u8]) -> Wrote {
    assert!(input.len() % 2 == 0 && input.len() * 2 <= out.len());
    // SAFETY: as above.
    unsafe { raw::mono_to_stereo_block(input.as_ptr(), input.len(), out.as_mut_ptr(), out.len()) };
    wrote(input.len() * 2)
}

pub fn stereo_to_mono(input: &[u8], out: &mut [u8]) -> Wrote {
    assert!(input.len() % 4 == 0 && input.len() / 2 <= out.len());
    // SAFETY: as above.
    unsafe { raw::stereo_to_mono_block(input.as_ptr(), input.len(), out.as_mut_ptr(), out.len()) };
    wrote(input.len() / 2)
}

pub fn mix(a: &[u8], b: &[u8], out: &mut [u8]) -> Wrote {
    // SAFETY: the slices are live, and the function requires nothing.
    let clipped = unsafe { raw::mix_block(a.as_ptr(), a.len(), b.as_ptr(), b.len(), out.as_mut_ptr(), out.len()) };
    Wrote { bytes: a.len(), clipped }
}

fn test_filter(channels: usize, input: &[u8], out: &[u8]) {
    assert!((1..=2).contains(&channels) && input.len() % (channels * 2) == 0 && input.len() <= out.len());
}

pub fn dc_block(r: f32, channels: usize, input: &[u8], out: &mut [u8]) -> Wrote {
    test_filter(channels, input, out);
    // SAFETY: the slices are live, and the function's `requires` is tested above.
    let clipped = unsafe { raw::dc_block_block(r, channels, input.as_ptr(), input.len(), out.as_mut_ptr(), out.len()) };
    Wrote { bytes: input.len(), clipped }
}

pub fn biquad(k: Coefficients, channels: usize, input: &[u8], out: &mut [u8]) -> Wrote {
    test_filter(channels, input, out);
    // SAFETY: as above.
    let clipped =
        unsafe { raw::biquad_block(k.b0, k.b1, k.b2, k.a1, k.a2, channels, input.as_ptr(), input.len(), out.as_mut_ptr(), out.len()) };
    Wrote { bytes: input.len(), clipped }
}

/// The rates, and the same divided by their greatest common divisor.
#[derive(Clone, Copy)]
pub struct Rates {
    pub given: [u32; 2],
    pub reduced: [u64; 2],
}

impl Rates {
    pub fn new(given: [u32; 2]) -> Self {
        let RatesResult { number, in_r, out_r } = new_resampler(given);
        assert_eq!(number, 0, "{given:?}");
        Rates { given, reduced: [in_r, out_r] }
    }

    fn room(self, frames: usize) -> usize {
        (frames * self.given[1] as usize).div_ceil(self.given[0] as usize) + 1
    }
}

pub fn new_resampler([in_rate, out_rate]: [u32; 2]) -> RatesResult {
    // SAFETY: the function requires nothing.
    unsafe { raw::new_resampler(in_rate, out_rate) }
}

pub fn resample(rates: Rates, channels: usize, input: &[u8], out: &mut [u8]) -> Wrote {
    let width = channels * 2;
    let ([in_rate, out_rate], [in_r, out_r]) = (rates.given, rates.reduced);
    assert!((1..=2).contains(&channels) && !input.is_empty() && input.len() % width == 0);
    assert!(rates.room(input.len() / width) * width <= out.len() && in_rate <= 384_000 && out_rate <= 384_000);
    // SAFETY: the slices are live, and the function's `requires` is tested above.
    let frames =
        unsafe { raw::resample_block(in_rate, out_rate, in_r, out_r, channels, input.as_ptr(), input.len(), out.as_mut_ptr(), out.len()) };
    wrote(frames * width)
}
