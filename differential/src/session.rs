//! A script under way: calls are appended with what they must answer, then `replay` runs it and everything is compared.

use crate::beforehand::{self, Room};
use crate::clipping::held_back;
use crate::ending::End;
use crate::mixdown::Held;
use crate::model::{self, Answer, Chain, Given};
use crate::protocol::*;
use crate::recipe::{Designs, Recipe};
use crate::report;
use crate::source::{Block, Format, Sound};
use oracle::elements::{BiquadKind, Gain};
use std::collections::BTreeMap;
use std::io::{Read, Write};
use std::mem::take;
use std::path::{Path, PathBuf};
use std::process::{Command as Process, Stdio};
use std::thread::JoinHandle;

/// A script of about this length is run before the next chain is opened.
const SCRIPT_LENGTH: usize = 6 << 20;

/// What was compared.
#[derive(Default)]
pub struct Tally {
    pub answers: u64,
    pub bytes: u64,
}

/// A script, what it must answer, and where each call starts in both.
pub struct Gathered {
    pub family: &'static str,
    pub script: Vec<u8>,
    pub answers: Vec<u8>,
    pub calls: Vec<[usize; 2]>,
}

pub struct Session {
    replay: Option<PathBuf>,
    /// The script that `replay` runs while the next one is gathered; gives all that was written.
    running: Option<JoinHandle<(Gathered, Vec<u8>)>>,
    pub family: &'static str,
    pub designs: Designs,
    pub chain: Chain,
    pub script: Vec<u8>,
    pub answers: Vec<u8>,
    /// Where each call starts in the script and in the answers.
    pub calls: Vec<[usize; 2]>,
    pub tally: Tally,
    /// How many answers of each command had each number and outcome.
    pub reached: BTreeMap<(u8, u16, u8), u64>,
    /// How many samples the answers of each command and outcome say were held back.
    pub clipped: BTreeMap<(u8, u8), u64>,
    /// How many answers of each command were held to the source's own chain, and how far.
    pub held: BTreeMap<(u8, Held), u64>,
}

fn first_chain() -> Chain {
    let Ok(chain) = model::open(Format { rate: 16_000, channels: 1 }, &[], &Designs::new()) else { unreachable!() };
    chain
}

/// Runs `replay` on a script and gives all it wrote.
pub fn answered(replay: &Path, script: &[u8]) -> Vec<u8> {
    let mut child = Process::new(replay).stdin(Stdio::piped()).stdout(Stdio::piped()).spawn().expect("replay does not start");
    let (mut input, mut output) = (child.stdin.take().unwrap(), child.stdout.take().unwrap());
    let mut found = Vec::new();
    std::thread::scope(|scope| {
        // A program that ends before its script does leaves a closed pipe: the answers tell.
        scope.spawn(move || input.write_all(script));
        output.read_to_end(&mut found).expect("replay's answers cannot be read");
    });
    let status = child.wait().expect("replay was not started");
    assert!(status.code().is_some(), "replay was stopped by a signal");
    found
}

impl Session {
    /// With no program the script only grows.
    pub fn new(replay: Option<PathBuf>) -> Self {
        Session {
            replay,
            running: None,
            family: "",
            designs: Designs::new(),
            chain: first_chain(),
            script: vec![],
            answers: vec![],
            calls: vec![],
            tally: Tally::default(),
            reached: BTreeMap::new(),
            clipped: BTreeMap::new(),
            held: BTreeMap::new(),
        }
    }

    /// Has what was gathered run, and begins a new script with the first chain.
    pub fn run(&mut self) {
        let Some(replay) = self.replay.clone() else { return };
        self.chain = first_chain();
        if self.script.is_empty() {
            return;
        }
        let gathered = Gathered {
            family: self.family,
            script: take(&mut self.script),
            answers: take(&mut self.answers),
            calls: take(&mut self.calls),
        };
        self.settle();
        self.running = Some(std::thread::spawn(move || {
            let found = answered(&replay, &gathered.script);
            (gathered, found)
        }));
    }

    /// Waits for the script that runs, if there is one, and compares.
    pub fn settle(&mut self) {
        let Some(running) = self.running.take() else { return };
        let (gathered, found) = running.join().expect("replay did not run");
        if found != gathered.answers {
            report::difference(&gathered, &found, &self.tally);
        }
        self.tally.answers += gathered.calls.len() as u64;
        self.tally.bytes += found.len() as u64;
    }

    /// Runs a long script; for families whose calls do not depend on the chain in use.
    pub fn run_if_long(&mut self) {
        if self.script.len() > SCRIPT_LENGTH {
            self.run();
        }
    }

    /// A script that is no row of whole commands: after the answers so far, one end mark and no more.
    pub fn run_to_end_mark(&mut self, rest: &[u8]) {
        self.begin(rest[0]);
        self.script.extend_from_slice(&rest[1..]);
        self.answers.push(END_MARK);
        self.run();
    }

    fn begin(&mut self, command: u8) {
        self.calls.push([self.script.len(), self.answers.len()]);
        self.script.push(command);
    }

    fn reach(&mut self, command: u8, number: u16, outcome: u8) {
        *self.reached.entry((command, number, outcome)).or_default() += 1;
    }

    /// The count that ends an answer.
    fn clipped(&mut self, command: u8, outcome: u8, clipped: u64) {
        *self.clipped.entry((command, outcome)).or_default() += clipped;
        self.answers.put(clipped.to_le_bytes());
    }

    /// The number opens most answers.
    fn number(&mut self, number: u16) {
        let command = self.script[self.calls.last().unwrap()[0]];
        if ![BLOCK, FINISH].contains(&command) {
            self.reach(command, number, 0);
        }
        self.answers.put(number.to_le_bytes());
    }

    fn float(&mut self, float: f32) {
        let bits = if float.is_nan() { 0x7FC0_0000 } else { float.to_bits() };
        self.answers.put(bits.to_le_bytes());
    }

    /// The number of the refusal, or 0.
    pub fn open(&mut self, format: Format, recipe: &[u8]) -> u16 {
        let opened = model::open(format, recipe, &self.designs);
        if opened.is_ok() && self.script.len() > SCRIPT_LENGTH {
            self.run();
        }
        self.begin(OPEN);
        self.script.put(format.rate.to_le_bytes());
        self.script.put(format.channels.to_le_bytes());
        self.script.put_bytes(recipe);
        let number = opened.as_ref().err().copied().unwrap_or(0);
        self.number(number);
        if let Ok(chain) = opened {
            self.chain = chain;
        }
        number
    }

    pub fn open_recipe(&mut self, recipe: &Recipe) -> u16 {
        self.open(recipe.format, &recipe.bytes)
    }

    /// The question alone. Where a script could lend the halves, the source's sound must say the same.
    pub fn block_room(&mut self, frames: u64) -> Result<Room, u16> {
        let room = self.ask_block(frames);
        if let Ok(room) = room
            && room.half <= LONGEST as u64
        {
            assert_eq!(room, self.chain.room_by_sound(frames), "{frames} frames: {:02X?}", self.chain.recipe);
        }
        room
    }

    pub fn finish_room(&mut self) -> Room {
        let end = self.chain.end();
        self.ask_finish(&end)
    }

    fn ask_block(&mut self, frames: u64) -> Result<Room, u16> {
        self.begin(BLOCK_ROOM);
        self.script.put(frames.to_le_bytes());
        let room = self.chain.block_room(frames);
        self.room(room);
        room
    }

    fn ask_finish(&mut self, end: &End) -> Room {
        self.begin(FINISH_ROOM);
        self.room(Ok(end.room()));
        end.room()
    }

    fn room(&mut self, room: Result<Room, u16>) {
        self.number(room.err().unwrap_or(0));
        let Room { frames, half } = room.unwrap_or_default();
        [frames, half].iter().for_each(|value| self.answers.put(value.to_le_bytes()));
    }

    /// Where the block is whole frames of the chain's format, its room is asked first.
    pub fn block(&mut self, block: Block) -> Answer {
        let (length, frame) = (block.sound.len(), self.chain.format.frame());
        let suits = block.format == self.chain.format && length.is_multiple_of(frame);
        let asked = suits.then(|| self.ask_block((length / frame) as u64));
        self.begin(BLOCK);
        self.script.put(block.format.rate.to_le_bytes());
        self.script.put(block.format.channels.to_le_bytes());
        self.script.put(block.timestamp.to_le_bytes());
        [block.sound, block.halves[0], block.halves[1]].iter().for_each(|bytes| self.script.put_bytes(bytes));
        let answer = self.chain.block(block);
        self.sounded(BLOCK, &answer);
        if let Some(asked) = asked {
            beforehand::hold(asked, block.halves, &answer);
        }
        answer
    }

    /// Its room is asked first.
    pub fn finish(&mut self, halves: [&[u8]; 2]) -> Answer {
        let end = self.chain.end();
        let room = self.ask_finish(&end);
        self.begin(FINISH);
        halves.iter().for_each(|half| self.script.put_bytes(half));
        let answer = self.chain.finish(end, halves);
        self.sounded(FINISH, &answer);
        beforehand::hold(Ok(room), halves, &answer);
        answer
    }

    /// The answer of a block, or of a finish, which has no timestamp.
    fn sounded(&mut self, command: u8, answer: &Answer) {
        self.number(answer.number);
        self.reach(command, answer.number, answer.outcome());
        answer.held.iter().for_each(|held| *self.held.entry((command, *held)).or_default() += 1);
        let silence = Sound::default();
        let sound = answer.sound.as_ref().unwrap_or(&silence);
        let out = &mut self.answers;
        out.put(answer.needed.to_le_bytes());
        out.put([answer.outcome()]);
        out.put(sound.format.rate.to_le_bytes());
        out.put(sound.format.channels.to_le_bytes());
        if command == BLOCK {
            out.put(sound.timestamp.to_le_bytes());
        }
        out.put([sound.half]);
        out.put((sound.bytes.len() as u32).to_le_bytes());
        out.put_bytes(&sound.bytes);
        answer.halves.iter().for_each(|half| out.put_bytes(half));
        answer.counters.iter().for_each(|counter| out.put(counter.to_le_bytes()));
        self.clipped(command, answer.outcome(), answer.clipped);
    }

    pub fn reset(&mut self) {
        self.begin(RESET);
        self.chain.reset();
        self.reach(RESET, 0, 0);
        self.chain.counters.iter().for_each(|counter| self.answers.put(counter.to_le_bytes()));
    }

    pub fn write_recipe(&mut self, mut room: Vec<u8>) {
        self.begin(WRITE_RECIPE);
        self.script.put_bytes(&room);
        let written = self.chain.write_recipe(&mut room);
        let (number, needed) = written.err().unwrap_or((0, 0));
        self.number(number);
        self.answers.put(needed.to_le_bytes());
        self.answers.put((written.unwrap_or(0) as u32).to_le_bytes());
        self.answers.put_bytes(&room);
    }

    fn number_and_value(&mut self, answer: Result<u64, u16>) {
        self.number(answer.err().unwrap_or(0));
        self.answers.put(answer.unwrap_or(0).to_le_bytes());
    }

    pub fn scratch_bytes(&mut self, length: u64) -> Result<u64, u16> {
        self.begin(SCRATCH_BYTES);
        self.script.put(length.to_le_bytes());
        let answer = self.chain.scratch_bytes(length);
        self.number_and_value(answer);
        answer
    }

    pub fn output_format(&mut self) {
        self.begin(OUTPUT_FORMAT);
        let format = self.chain.output_format();
        self.reach(OUTPUT_FORMAT, 0, 0);
        self.answers.put(format.rate.to_le_bytes());
        self.answers.put(format.channels.to_le_bytes());
    }

    pub fn mix(&mut self, a: &[u8], b: &[u8], mut out: Vec<u8>) {
        self.begin(MIX);
        [a, b, &out].iter().for_each(|bytes| self.script.put_bytes(bytes));
        let ((number, needed), clipped) = model::mix(a, b, &mut out);
        self.number(number);
        self.answers.put(needed.to_le_bytes());
        self.answers.put_bytes(&out);
        self.clipped(MIX, 0, clipped);
    }

    pub fn max_output_frames(&mut self, rates: [u32; 2], frames: u64) {
        self.begin(MAX_OUTPUT_FRAMES);
        rates.iter().for_each(|rate| self.script.put(rate.to_le_bytes()));
        self.script.put(frames.to_le_bytes());
        self.number_and_value(model::max_output_frames(rates, frames));
    }

    pub fn pole(&mut self, corner: f32, rate: u32) {
        self.begin(POLE);
        self.script.put(corner.to_bits().to_le_bytes());
        self.script.put(rate.to_le_bytes());
        let answer = model::pole(corner, rate);
        self.number(answer.err().unwrap_or(0));
        self.float(answer.unwrap_or(0.0));
    }

    /// `gain_db` is what the script says for the kinds that have none.
    pub fn design(&mut self, kind: BiquadKind, rate: u32, given: Given, gain_db: f32) {
        self.begin(DESIGN);
        let (number, f0, q, own_gain_db) = model::settings(kind);
        self.script.put([number]);
        [f0, q, own_gain_db.unwrap_or(gain_db)].iter().for_each(|float| self.script.put(float.to_bits().to_le_bytes()));
        self.script.put(rate.to_le_bytes());
        [given.sine, given.cosine, given.a].iter().for_each(|float| self.script.put(float.to_bits().to_le_bytes()));
        let answer = model::design(kind, rate, given);
        self.number(answer.err().unwrap_or(0));
        match answer {
            Err(_) => self.answers.put([0; 20]),
            Ok(k) => [k.b0, k.b1, k.b2, k.a1, k.a2].iter().for_each(|float| self.float(*float)),
        }
    }

    /// A command of four bytes and an answer that cannot be a refusal.
    fn small<const N: usize>(&mut self, command: u8, field: [u8; 4], answer: [u8; N]) {
        self.begin(command);
        self.script.put(field);
        self.reach(command, 0, 0);
        self.answers.put(answer);
    }

    pub fn from_q15(&mut self, q15: i32) {
        self.small(FROM_Q15, q15.to_le_bytes(), Gain::from_q15(q15).q15().to_le_bytes());
    }

    pub fn linear(&mut self, factor: f32) {
        self.small(LINEAR, factor.to_bits().to_le_bytes(), Gain::linear(factor).q15().to_le_bytes());
    }

    /// A sample, and whether the value that gave it was held back.
    fn rounded(&mut self, command: u8, field: [u8; 4], sample: i16, value: f64) {
        let ([low, high], clipped) = (sample.to_le_bytes(), held_back(value));
        *self.clipped.entry((command, 0)).or_default() += u64::from(clipped);
        self.small(command, field, [low, high, u8::from(clipped)]);
    }

    pub fn round_sat16(&mut self, float: f32) {
        self.rounded(ROUND_SAT16, float.to_bits().to_le_bytes(), oracle::round_sat16(float), float.into());
    }

    pub fn sat16(&mut self, number: i32) {
        self.rounded(SAT16, number.to_le_bytes(), oracle::sat16(number), number.into());
    }
}
