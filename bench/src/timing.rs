//! One case timed at one length.

use std::hint::black_box;
use std::time::Instant;

pub const FRAMES: [usize; 3] = [16, 1024, 8192];
const ROUNDS: usize = 400;
const ROUND_NS: u128 = 40_000;

/// The source's block function: the bytes it wrote.
pub type Source = Box<dyn Fn(&[u8], &mut [u8]) -> usize>;

/// Ours: the bytes it wrote, and how many samples it held back.
pub type Ours = Box<dyn Fn(&[u8], &mut [u8]) -> Wrote>;

#[derive(Clone, Copy, Debug, PartialEq)]
pub struct Wrote {
    pub bytes: usize,
    pub clipped: usize,
}

/// A block function of both sides, over the same bytes. The source's counts nothing.
pub struct Case {
    pub name: &'static str,
    pub channels: usize,
    /// The largest ratio allowed at each of `FRAMES`, where there is one.
    pub goal: [Option<f64>; 3],
    pub source: Source,
    pub ours: Ours,
    /// How many samples are held back, counted plainly.
    pub clipped: Box<dyn Fn(&[u8]) -> usize>,
}

/// Bytes at an address that an i16 may have.
struct Buffer(Vec<u64>);

impl Buffer {
    fn new(len: usize) -> Self {
        Buffer(vec![0; len / 8 + 1])
    }

    fn bytes(&mut self, len: usize) -> &mut [u8] {
        // SAFETY: the vector holds at least `len` bytes, and every u64 is eight of them.
        unsafe { std::slice::from_raw_parts_mut(self.0.as_mut_ptr().cast(), len) }
    }
}

/// Sound with loud and soft parts, the same for both sides. Both samples of a frame are even, or both odd: the source's stereo to mono,
/// which rounds down, then gives the mean that ours does.
fn sound(out: &mut [u8]) {
    let mut state = 0x2545_f491_4f6c_dd1du64;
    let mut last_bit = 0;
    for (i, pair) in out.chunks_exact_mut(2).enumerate() {
        state ^= state << 13;
        state ^= state >> 7;
        state ^= state << 17;
        let x = ((state >> 32) as i16) >> (state & 3);
        last_bit = if i % 2 == 0 { x & 1 } else { last_bit };
        pair.copy_from_slice(&(x & !1 | last_bit).to_le_bytes());
    }
}

/// Nanoseconds of one run, over so many.
fn once(run: &mut impl FnMut(), times: u32) -> f64 {
    let start = Instant::now();
    (0..times).for_each(|_| run());
    start.elapsed().as_nanos() as f64 / f64::from(times)
}

/// The best nanoseconds of the source and of ours, in turn.
pub fn best(mut source: impl FnMut(), mut ours: impl FnMut()) -> [f64; 2] {
    let mut times = 1;
    while once(&mut source, times) * f64::from(times) < ROUND_NS as f64 && times < 1 << 16 {
        times *= 2;
    }
    let mut best = [f64::MAX; 2];
    for _ in 0..ROUNDS {
        best[0] = best[0].min(once(&mut source, times));
        best[1] = best[1].min(once(&mut ours, times));
    }
    best
}

/// Prints a row, and says whether its goal is met.
pub fn print(name: &str, frames: &str, best: [f64; 2], goal: Option<f64>) -> bool {
    let ratio = best[1] / best[0];
    let met = goal.is_none_or(|g| ratio <= g);
    let said = match goal {
        None => "-".into(),
        Some(g) => format!("{g:.2} {}", if met { "met" } else { "MISSED" }),
    };
    println!("{name:<34} {frames:>7} {:>11.1} {:>11.1} {ratio:>7.2}  {said}", best[0], best[1]);
    met
}

/// Times one case, prints its row, and says whether its goal is met.
pub fn row(case: &Case, frames: usize) -> bool {
    let len = frames * case.channels * 2;
    let room = len * 8 + 64;
    let (mut a, mut b, mut c) = (Buffer::new(len), Buffer::new(room), Buffer::new(room));
    let (input, theirs, ours) = (a.bytes(len), b.bytes(room), c.bytes(room));
    sound(input);
    let n = (case.source)(input, theirs);
    assert_eq!(Wrote { bytes: n, clipped: (case.clipped)(input) }, (case.ours)(input, ours), "{}: lengths or counts differ", case.name);
    assert_eq!(theirs[..n], ours[..n], "{}: bytes differ", case.name);

    let input = &*input;
    let best = best(
        || _ = black_box((case.source)(black_box(input), black_box(&mut *theirs))),
        || _ = black_box((case.ours)(black_box(input), black_box(&mut *ours))),
    );
    print(case.name, &frames.to_string(), best, case.goal[FRAMES.iter().position(|f| *f == frames).unwrap()])
}
