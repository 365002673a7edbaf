//! Families of cases.

mod beforehand;
mod chains;
mod clipping;
mod cuttings;
mod divisors;
mod ends;
mod finishes;
mod mixdowns;
pub mod notes;
mod numbers;
mod recipes;
mod room;
pub mod sample;
mod samples;

use crate::model::{Answer, MOST_FRAMES};
use crate::protocol::LONGEST;
use crate::random::Random;
use crate::recipe::{self, Recipe};
use crate::session::Session;
use crate::source::Block;

type Family = (&'static str, fn(&mut Session, &mut Random));

/// The same cases whatever the seed.
const FIXED: [Family; 23] = [
    ("short recipes", recipes::short),
    ("record lengths", recipes::lengths),
    ("limits of settings", recipes::limits),
    ("nine records", recipes::nine),
    ("lengths of notes", notes::lengths),
    ("notes beside every refusal", notes::orders),
    ("cuttings of short streams", cuttings::short),
    ("cuttings of finished streams", cuttings::finished),
    ("finishes after every length", finishes::lengths),
    ("finishes, one frame that becomes many", finishes::wide),
    ("divisors of rates", divisors::every),
    ("every length", room::every_length),
    ("room beforehand at the limits", beforehand::limits),
    ("room beforehand at many counts", beforehand::counts),
    ("room beforehand past 2^32", beforehand::long),
    ("rounding beside every half", numbers::halves),
    ("all samples at many gains", samples::gains),
    ("end marks", ends::every),
    ("limits of numbers", numbers::limits),
    ("mixdowns of samples near 0 and at the ends", mixdowns::pairs),
    ("mixdowns of every left sample", mixdowns::lefts),
    ("mixdowns of every length", mixdowns::lengths),
    ("mixdowns after odd sums", mixdowns::after_odd),
];

/// Other cases with every seed.
const SEEDED: [Family; 29] = [
    ("stages alone", chains::lone),
    ("chains", chains::any),
    ("chains, long blocks", chains::long_blocks),
    ("refused blocks", chains::refused_blocks),
    ("room", room::climb),
    ("finishes at any rates", finishes::rates),
    ("finishes of chains", finishes::of_chains),
    ("scratch_bytes", room::scratch),
    ("room of chains beforehand", beforehand::of_chains),
    ("recipes cut and damaged", recipes::damaged),
    ("chains with notes", notes::chains),
    ("recipes with notes, cut and damaged", notes::damaged),
    ("cuttings of long streams", cuttings::long),
    ("all samples through filters", samples::filters),
    ("mix_i16", numbers::mix),
    ("numbers", numbers::any),
    ("clipped by gains", clipping::gains),
    ("clipped by any gains", clipping::any_gains),
    ("clipped without exception", clipping::many),
    ("clipped in mixes", clipping::mixes),
    ("clipped in rounding", clipping::rounding),
    ("clipped by steps", clipping::steps),
    ("clipped by any filters", clipping::wild),
    ("clipped first and last frames", clipping::waiting),
    ("clipped under all cuttings", clipping::cut),
    ("clipped between refusals", clipping::refused),
    ("mixdowns of every left sample with any right", mixdowns::any_rights),
    ("mixdowns in chains, even sums", mixdowns::even),
    ("mixdowns in chains, any sums", mixdowns::any),
];

pub fn run(session: &mut Session, seed: u64, fixed: bool, timed: bool) {
    let mut random = Random::new(seed);
    let families = if fixed { FIXED.iter() } else { [].iter() };
    for (name, family) in families.chain(&SEEDED) {
        let start = std::time::Instant::now();
        let answers = session.tally.answers;
        session.family = name;
        family(session, &mut random);
        session.run();
        session.designs.clear();
        if timed {
            session.settle();
            println!("{name}: {} answers, {:.1} s", session.tally.answers - answers, start.elapsed().as_secs_f32());
        }
    }
}

/// Opens a chain of so many stages of any kinds.
fn open_any(session: &mut Session, random: &mut Random, stages: usize) -> Recipe {
    let recipe = recipe::any(random, stages, &mut session.designs);
    session.open_recipe(&recipe);
    recipe
}

/// A block in the chain's format, with halves of the lengths given and any contents.
fn block_over(session: &mut Session, random: &mut Random, sound: &[u8], lengths: [usize; 2]) -> Answer {
    let halves = lengths.map(|length| random.bytes(length));
    let timestamp = if random.one_in(8) { u64::MAX } else { random.next() };
    session.block(Block { format: session.chain.format, timestamp, sound, halves: [&halves[0], &halves[1]] })
}

/// Half of what `scratch_bytes` says, as far as a script can lend it.
fn ample_half(session: &mut Session, length: usize) -> usize {
    session.chain.scratch_bytes(length as u64).map_or(length, |figure| (figure as usize / 2).min(LONGEST))
}

/// Halves of so many bytes or a few more, as far as a script can lend them.
fn from_half(random: &mut Random, half: usize) -> [usize; 2] {
    [half, half].map(|half| (half + random.choice(&[0, 0, 1, 2, 7])).min(LONGEST))
}

/// A block with halves that suffice.
fn ample_block(session: &mut Session, random: &mut Random, sound: &[u8]) -> Answer {
    let half = ample_half(session, sound.len());
    let lengths = from_half(random, half);
    block_over(session, random, sound, lengths)
}

/// A finish with halves of the lengths given and any contents.
fn finish_over(session: &mut Session, random: &mut Random, lengths: [usize; 2]) -> Answer {
    let halves = lengths.map(|length| random.bytes(length));
    session.finish([&halves[0], &halves[1]])
}

/// A finish with halves that suffice, as far as a script can lend them.
fn ample_finish(session: &mut Session, random: &mut Random) -> Answer {
    let lengths = from_half(random, session.chain.room_at_end());
    finish_over(session, random, lengths)
}

/// At most so many frames that a script can lend the halves.
fn frames_that_fit(session: &mut Session, wanted: usize) -> usize {
    let frame = session.chain.format.frame();
    let mut frames = wanted.clamp(1, MOST_FRAMES);
    while frames > 1 && session.chain.scratch_bytes((frames * frame) as u64).is_ok_and(|figure| figure > 2 * LONGEST as u64) {
        frames /= 2;
    }
    frames
}

/// Sound of so many frames in the chain's format, fewer where they do not fit.
fn sound_of(session: &mut Session, random: &mut Random, frames: usize) -> Vec<u8> {
    let frames = frames_that_fit(session, frames);
    random.sound(frames * session.chain.format.frame())
}

/// A block of so many frames, or as many as fit, with halves that suffice.
fn feed(session: &mut Session, random: &mut Random, frames: usize) -> Answer {
    let sound = sound_of(session, random, frames);
    ample_block(session, random, &sound)
}

/// Mostly short, sometimes at the limits.
fn any_frames(random: &mut Random) -> usize {
    match random.below(40) {
        0 => random.choice(&[8_191, 8_192]),
        1..4 => 1 + random.below(2_000),
        4..10 => random.choice(&[1, 2, 3]),
        _ => 1 + random.below(70),
    }
}
