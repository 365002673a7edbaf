//! Whole chains, as ratios of times (ours to the unchanged source's): the program `speed`, and the exported calls from Rust, each
//! against the source's twin. All three are processes that run in turn, play the same sound and must print the same frames and checksum;
//! ours print the samples held back too, which the source does not count.
//!
//! With no word it times; `source CHAIN FRAMES PASSES` and `exported CHAIN FRAMES PASSES` are the twins, and `script CHAIN FRAMES
//! PASSES` writes what `speed` reads.

mod exported;
mod passes;
mod processor;
mod recipe;
mod source;

use recipe::{CHAINS, Chain, SOUND_FRAMES};
use std::env;
use std::io::Write;
use std::process::{Command, Stdio};

const FRAMES: [u32; 5] = [16, 64, 256, 1_024, 8_192];
const ROUNDS: usize = 36;
const ROUND_SECONDS: f64 = 0.1;

#[derive(Clone, Copy)]
enum Side {
    Source,
    Program,
    Exported,
}

/// Our sides: name, and the largest ratio allowed at 16 frames and at more.
const OURS: [(Side, &str, [f64; 2]); 2] = [(Side::Program, "program", [1.35, 1.0]), (Side::Exported, "exported", [1.0, 0.9])];

/// What a process wrote, and the processor's seconds that it took.
fn timed(mut command: Command, input: &[u8]) -> (String, f64) {
    let start = processor::seconds_of_children();
    let mut child = command.stdin(Stdio::piped()).stdout(Stdio::piped()).spawn().unwrap();
    child.stdin.take().unwrap().write_all(input).unwrap();
    let output = child.wait_with_output().unwrap();
    assert!(output.status.success());
    (String::from_utf8(output.stdout).unwrap(), processor::seconds_of_children() - start)
}

fn twin(side: &str, chain: Chain, frames: u32, times: u32) -> (String, f64) {
    let mut command = Command::new(env::current_exe().unwrap());
    command.args([side, chain.name(), &frames.to_string(), &times.to_string()]);
    timed(command, &[])
}

fn played(side: Side, chain: Chain, frames: u32, times: u32) -> (String, f64) {
    match side {
        Side::Source => twin("source", chain, frames, times),
        Side::Exported => twin("exported", chain, frames, times),
        Side::Program => {
            let program = concat!(env!("CARGO_MANIFEST_DIR"), "/../crates/speed/out/speed");
            timed(Command::new(program), &chain.script(frames, times))
        }
    }
}

/// As many passes as the source makes in a round.
fn passes(chain: Chain, frames: u32) -> u32 {
    let took = |times| played(Side::Source, chain, frames, times).1;
    let mut times = 16;
    while took(times) < ROUND_SECONDS / 4.0 {
        times *= 2;
    }
    let best = (0..3).map(|_| took(times)).fold(f64::MAX, f64::min);
    (f64::from(times) * ROUND_SECONDS / best) as u32
}

/// Times one chain at one block length, prints a row for each of our sides, and counts the goals missed.
fn rows(chain: Chain, frames: u32) -> usize {
    let times = passes(chain, frames);
    let (mut source, mut ours) = (f64::MAX, [f64::MAX; 2]);
    for _ in 0..ROUNDS {
        let (said, took) = played(Side::Source, chain, frames, times);
        source = source.min(took);
        let mut counts = [String::new(), String::new()];
        for ((best, clipped), (side, name, _)) in ours.iter_mut().zip(&mut counts).zip(OURS) {
            let (answered, took) = played(side, chain, frames, times);
            *best = best.min(took);
            *clipped = answered.strip_prefix(&said).unwrap_or_else(|| panic!("{}, {name}, in blocks of {frames}", chain.name())).into();
        }
        assert!(counts[0] == counts[1] && !counts[0].is_empty(), "{}: the counts {counts:?} in blocks of {frames}", chain.name());
    }
    let a_frame = 1e9 / (f64::from(times) * SOUND_FRAMES as f64);
    let mut misses = 0;
    for (ours, (_, name, goals)) in ours.into_iter().zip(OURS) {
        let (ratio, goal) = (ours / source, goals[usize::from(frames > 16)]);
        let verdict = if ratio <= goal { "met" } else { "MISSED" };
        misses += usize::from(ratio > goal);
        let [source, ours] = [source, ours].map(|took| took * a_frame);
        println!("{:<12} {name:<9} {frames:>6} {source:>10.2} {ours:>10.2} {ratio:>6.2}  {goal:.2} {verdict}", chain.name());
    }
    misses
}

fn main() {
    let words: Vec<String> = env::args().skip(1).collect();
    let number = |i: usize| words[i].parse::<u32>().unwrap();
    let chain = || Chain::named(&words[1]);
    match words.first().map(String::as_str) {
        Some("source") => source::run(chain(), number(2) as usize, number(3)),
        Some("exported") => exported::run(chain(), number(2) as usize, number(3)),
        Some("script") => std::io::stdout().write_all(&chain().script(number(2), number(3))).unwrap(),
        _ => {
            println!("processor time, ns for each frame that enters; best of {ROUNDS} runs of each, in turn");
            println!("{:<12} {:<9} {:>6} {:>10} {:>10} {:>6}  goal", "chain", "ours by", "block", "source", "ours", "ratio");
            let misses: usize = CHAINS.into_iter().flat_map(|chain| FRAMES.map(|frames| rows(chain, frames))).sum();
            println!("{misses} rows over their goal");
        }
    }
}
