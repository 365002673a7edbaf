//! How many samples are held back, counted plainly, as document 02 says it: a sample at exactly the limit is not.

use oracle::elements::Coefficients;

fn samples(bytes: &[u8]) -> impl Iterator<Item = i16> + '_ {
    bytes.chunks_exact(2).map(|pair| i16::from_le_bytes([pair[0], pair[1]]))
}

fn outside(value: i64) -> bool {
    i16::try_from(value).is_err()
}

pub fn gain(q15: i32, input: &[u8]) -> usize {
    samples(input).filter(|x| outside((i64::from(*x) * i64::from(q15) + 16_384) >> 15)).count()
}

pub fn mix(a: &[u8], b: &[u8]) -> usize {
    samples(a).zip(samples(b)).filter(|(x, y)| outside(i64::from(*x) + i64::from(*y))).count()
}

/// Each channel by itself and from silence: a filter gives the next output of x, x1, x2, y1, y2.
fn filter(channels: usize, input: &[u8], next: impl Fn([f32; 5]) -> f32) -> usize {
    let mut memory = [[0.0; 4]; 2];
    let outputs = samples(input).enumerate().map(|(i, x)| {
        let [x1, x2, y1, y2] = memory[i % channels];
        let y = next([x.into(), x1, x2, y1, y2]);
        memory[i % channels] = [x.into(), x1, y, y1];
        y
    });
    outputs.filter(|y| y.is_nan() || outside(y.round() as i64)).count()
}

pub fn dc_block(r: f32, channels: usize, input: &[u8]) -> usize {
    filter(channels, input, |[x, x1, _, y1, _]| (x - x1) + r * y1)
}

pub fn biquad(k: Coefficients, channels: usize, input: &[u8]) -> usize {
    filter(channels, input, |[x, x1, x2, y1, y2]| k.b0 * x + k.b1 * x1 + k.b2 * x2 - k.a1 * y1 - k.a2 * y2)
}
