//! The same stream under many cuttings. The joined output and the samples clipped in all, a finish's included, must not depend on the
//! cutting.

use super::{Random, Session, ample_block, ample_finish, block_over, frames_that_fit};
use crate::model::Answer;
use crate::protocol::LONGEST;
use crate::recipe::{self, Recipe};
use crate::source::Format;

/// What the calls of a stream came to.
#[derive(Default, PartialEq)]
pub struct Joined {
    out: Vec<u8>,
    pub clipped: u64,
}

impl Joined {
    fn add(&mut self, answer: Answer) {
        assert_eq!(answer.number, 0, "a call within its room was refused by the source");
        self.out.extend(answer.sound.into_iter().flat_map(|sound| sound.bytes));
        self.clipped += answer.clipped;
    }
}

/// Feeds a stream in blocks of the frames given.
fn joined(session: &mut Session, random: &mut Random, stream: &[u8], blocks: &[usize]) -> Joined {
    let frame = session.chain.format.frame();
    let mut rest = stream;
    let mut joined = Joined::default();
    for frames in blocks {
        let (sound, after) = rest.split_at(frames * frame);
        rest = after;
        joined.add(ample_block(session, random, sound));
    }
    joined
}

/// The same, and what a finish adds; a reset where a script cannot lend the halves for it.
fn joined_to_end(session: &mut Session, random: &mut Random, stream: &[u8], blocks: &[usize]) -> Joined {
    let mut joined = joined(session, random, stream, blocks);
    if session.chain.room_at_end() > LONGEST {
        session.reset();
        return joined;
    }
    joined.add(ample_finish(session, random));
    joined
}

fn same_joined(session: &Session, whole: &Joined, cut: &Joined, blocks: &[usize]) {
    assert!(whole.out == cut.out, "the output depends on the cutting {blocks:?} of {:02X?}", session.chain.recipe);
    assert_eq!(whole.clipped, cut.clipped, "the count depends on the cutting {blocks:?} of {:02X?}", session.chain.recipe);
}

/// The blocks of a cutting whose bit i tells whether frames i and i + 1 are parted.
fn blocks_of(cutting: usize, frames: usize) -> Vec<usize> {
    let mut blocks = vec![1];
    for i in 0..frames - 1 {
        if cutting >> i & 1 == 1 {
            blocks.push(1);
        } else {
            *blocks.last_mut().unwrap() += 1;
        }
    }
    blocks
}

/// Resamplers alone that do not make too much of a frame.
fn resamplings() -> impl Iterator<Item = Recipe> {
    let rates = recipe::RESAMPLINGS.into_iter().filter(|rates| rates[1] / rates[0] < 12).chain([[3, 2], [7, 3]]);
    rates.flat_map(|rates| [1, 2].map(|channels| Recipe { format: Format { rate: rates[0], channels }, bytes: recipe::resample(rates) }))
}

/// All cuttings of streams of 1 to 8 frames that end in a finish, for resamplers alone and for chains of several. Each begins after
/// a finish, a reset or an opening.
pub fn finished(session: &mut Session, random: &mut Random) {
    let chains: Vec<Recipe> = (0..40).map(|i| recipe::resamplers(random, 2 + i % 7, &mut session.designs)).collect();
    for recipe in resamplings().chain(chains) {
        session.open_recipe(&recipe);
        if frames_that_fit(session, 8) < 8 {
            continue;
        }
        for frames in 1..=8usize {
            let stream = random.sound(frames * recipe.format.frame());
            every_cutting(session, random, &recipe, &stream);
        }
    }
}

/// All cuttings of a stream that ends in a finish, through the recipe of the chain in use; gives what each of them came to.
pub fn every_cutting(session: &mut Session, random: &mut Random, recipe: &Recipe, stream: &[u8]) -> Joined {
    let frames = stream.len() / recipe.format.frame();
    let whole = joined_to_end(session, random, stream, &[frames]);
    for cutting in 1..1usize << (frames - 1) {
        match cutting % 6 {
            0 => session.reset(),
            3 => _ = session.open_recipe(recipe),
            _ => (),
        }
        let blocks = blocks_of(cutting, frames);
        let cut = joined_to_end(session, random, stream, &blocks);
        same_joined(session, &whole, &cut, &blocks);
    }
    whole
}

/// All cuttings of streams of 1 to 8 frames, for each stage kind.
pub fn short(session: &mut Session, random: &mut Random) {
    let mut lone = recipe::lone_stages(random, &mut session.designs);
    lone.retain(|recipe| recipe.bytes.get(2) != Some(&(recipe::RESAMPLE as u8)));
    let others = lone.split_off(3).into_iter().step_by(3);
    for recipe in lone.into_iter().chain(others).chain(resamplings()) {
        for frames in 1..=8usize {
            let stream = random.sound(frames * recipe.format.frame());
            session.open_recipe(&recipe);
            let whole = joined(session, random, &stream, &[frames]);
            for cutting in 1..1usize << (frames - 1) {
                let blocks = blocks_of(cutting, frames);
                match cutting % 2 {
                    0 => session.reset(),
                    _ => _ = session.open_recipe(&recipe),
                }
                let cut = joined(session, random, &stream, &blocks);
                same_joined(session, &whole, &cut, &blocks);
            }
        }
    }
}

fn random_cutting(random: &mut Random, frames: usize, most: usize) -> Vec<usize> {
    let (mut left, mut blocks) = (frames, Vec::new());
    let typical = 1 + random.below(most);
    while left > 0 {
        let block = (1 + random.below(typical)).min(left);
        blocks.push(block);
        left -= block;
    }
    blocks
}

/// Random cuttings of streams of some thousand frames through random chains, refused blocks among them, a finish at the end.
pub fn long(session: &mut Session, random: &mut Random) {
    for _ in 0..150 {
        let stages = 1 + random.below(8);
        let recipe = recipe::any(random, stages, &mut session.designs);
        let mut whole: Option<Joined> = None;
        let frames = 500 + random.below(3_000);
        let stream = random.sound(frames * recipe.format.frame());
        for _ in 0..3 {
            session.open_recipe(&recipe);
            let most = frames_that_fit(session, 2_000);
            if most < 256 {
                break;
            }
            let blocks = random_cutting(random, frames, most);
            block_over(session, random, &stream[..recipe.format.frame()], [0, 0]);
            let cut = joined_to_end(session, random, &stream, &blocks);
            match &whole {
                None => whole = Some(cut),
                Some(whole) => same_joined(session, whole, &cut, &blocks),
            }
        }
    }
}
