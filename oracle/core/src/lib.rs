//! The outside types that the source leans on, in the domain that document 01 gives.

pub mod error {
    #[derive(Debug, Clone, Copy, PartialEq, Eq)]
    pub enum Error {
        InvalidFormat,
        Unsupported,
        BufferTooSmall { needed: usize },
        InvalidGeometry,
    }

    pub type Result<T> = core::result::Result<T, Error>;
}

pub mod pcm {
    use crate::error::{Error, Result};

    #[derive(Debug, Clone, Copy, PartialEq, Eq)]
    pub enum SampleFormat {
        I16,
        I32,
        I24In32,
        F32,
    }

    impl SampleFormat {
        pub const fn bytes(self) -> usize {
            match self {
                SampleFormat::I16 => 2,
                _ => 4,
            }
        }
    }

    #[derive(Debug, Clone, Copy, PartialEq, Eq)]
    pub struct PcmFormat {
        pub sample_rate_hz: u32,
        pub channels: u16,
        pub sample: SampleFormat,
    }

    impl PcmFormat {
        pub fn new(sample_rate_hz: u32, channels: u16, sample: SampleFormat) -> Result<Self> {
            if !(1..=384_000).contains(&sample_rate_hz) || !(1..=2).contains(&channels) {
                return Err(Error::InvalidFormat);
            }
            Ok(PcmFormat { sample_rate_hz, channels, sample })
        }

        pub const fn frame_bytes(&self) -> usize {
            self.channels as usize * self.sample.bytes()
        }
    }

    #[derive(Debug, Clone, Copy)]
    pub struct PcmBlock<'a> {
        pub format: PcmFormat,
        pub timestamp: u64,
        pub data: &'a [u8],
    }

    impl<'a> PcmBlock<'a> {
        /// Whole frames, at least one.
        pub fn new(format: PcmFormat, timestamp: u64, data: &'a [u8]) -> Result<Self> {
            if data.is_empty() || data.len() % format.frame_bytes() != 0 {
                return Err(Error::InvalidGeometry);
            }
            Ok(PcmBlock { format, timestamp, data })
        }

        pub const fn frames(&self) -> usize {
            self.data.len() / self.format.frame_bytes()
        }

        pub const fn duration_micros(&self) -> u64 {
            self.frames() as u64 * 1_000_000 / self.format.sample_rate_hz as u64
        }
    }

    /// Bytes as samples, where they are aligned and the machine is little-endian.
    pub fn as_i16(bytes: &[u8]) -> Option<&[i16]> {
        // SAFETY: every pattern of 16 bits is an i16.
        let (before, samples, after) = unsafe { bytes.align_to::<i16>() };
        (cfg!(target_endian = "little") && before.is_empty() && after.is_empty()).then_some(samples)
    }

    pub fn as_i16_mut(bytes: &mut [u8]) -> Option<&mut [i16]> {
        // SAFETY: every pattern of 16 bits is an i16, and every i16 is two bytes.
        let (before, samples, after) = unsafe { bytes.align_to_mut::<i16>() };
        (cfg!(target_endian = "little") && before.is_empty() && after.is_empty()).then_some(samples)
    }
}
