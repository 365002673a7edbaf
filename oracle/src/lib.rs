//! The unchanged source, with what it leans on and is not among its files.
#![allow(dead_code, unused_imports)]

include!(concat!(env!("OUT_DIR"), "/source.rs"));

pub use rusty_esp_core as esp_core;

/// The arms for the chip, which decline.
pub(crate) mod pie {
    use rusty_esp_core::pcm::{PcmBlock, SampleFormat};

    pub fn mono_to_stereo(_: &[i16], _: &mut [i16]) -> bool {
        false
    }
    pub fn stereo_to_mono(_: &[i16], _: &mut [i16]) -> bool {
        false
    }
    pub fn mix(_: &[i16], _: &[i16], _: &mut [i16]) -> bool {
        false
    }
    pub fn gain(_: &[i16], _: i32, _: &mut [i16]) -> bool {
        false
    }
    pub fn convert(_: &PcmBlock<'_>, _: SampleFormat, _: &mut [u8]) -> Option<usize> {
        None
    }
}

pub(crate) mod codec {
    pub mod pcm {
        use rusty_esp_core::error::{Error, Result};
        use rusty_esp_core::pcm::{PcmBlock, SampleFormat};

        pub fn convert(_: PcmBlock<'_>, _: SampleFormat, _: &mut [u8]) -> Result<usize> {
            Err(Error::Unsupported)
        }
    }
}

/// Stands in for a reduction that no compared stage calls.
pub(crate) fn rms_dbfs_i16(_: &[u8]) -> f32 {
    0.0
}

#[inline]
pub(crate) fn get_i16(bytes: &[u8]) -> i16 {
    i16::from_le_bytes([bytes[0], bytes[1]])
}

#[inline]
pub(crate) fn put_i16(out: &mut [u8], v: i16) {
    out[..2].copy_from_slice(&v.to_le_bytes());
}

#[inline]
pub fn sat16(v: i32) -> i16 {
    v.clamp(-32_768, 32_767) as i16
}

/// Document 01's rule: to nearest, halves away from zero, held within the sample range, NaN gives 0.
#[inline]
pub fn round_sat16(v: f32) -> i16 {
    v.round().clamp(-32_768.0, 32_767.0) as i16
}
