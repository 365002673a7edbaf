//! Each block function, and the opening of a resampler, against the same function of the unchanged source: same input, aligned buffers,
//! both sides in turn in one run, the best of many, as ratios of times (ours to the source's). Ours counts the samples it holds back, the
//! source nothing.

mod counts;
mod kernels;
mod opening;
mod stages;
mod timing;

fn main() {
    println!("time of the proved function / time of the unchanged source; best of many, aligned buffers");
    println!("{:<34} {:>7} {:>11} {:>11} {:>7}  {}", "function", "frames", "source ns", "ours ns", "ratio", "goal");
    let misses = stages::all().iter().flat_map(|case| timing::FRAMES.map(|frames| timing::row(case, frames))).filter(|met| !met).count();
    println!("{} rows over their goal", misses + opening::rows());
}
