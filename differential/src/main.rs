//! The differential run: scripts for the program `replay`, and what the unchanged source says every answer must be; then recipes for the
//! program `notes`.
//!
//!     differential REPLAY NOTES               compares
//!     differential REPLAY NOTES --long N      with the cases of N seeds
//!     differential REPLAY NOTES --times       says what each family took, which answers were reached, and how far mixdowns were held to
//!                                             the source
//!     differential --sample DIR               writes a sample of script and answers as DIR/stdin and DIR/stdout

mod beforehand;
mod clipping;
mod desk;
mod differences;
mod ending;
mod families;
mod mixdown;
mod model;
mod notes;
mod protocol;
mod random;
mod recipe;
mod report;
mod session;
mod source;

use desk::Desk;
use random::Random;
use session::Session;
use std::path::PathBuf;

const SEED: u64 = 1;

/// With a comma before every third figure from the right.
fn grouped(number: u64) -> String {
    let figures = number.to_string();
    let mut out = String::new();
    for (i, figure) in figures.chars().enumerate() {
        if i > 0 && (figures.len() - i).is_multiple_of(3) {
            out.push(',');
        }
        out.push(figure);
    }
    out
}

fn compare(replay: PathBuf, notes: PathBuf, rounds: u64, timed: bool) {
    differences::check();
    let mut session = Session::new(Some(replay));
    for round in 0..rounds {
        families::run(&mut session, SEED + round, round == 0, timed);
    }
    session.settle();
    if timed {
        for ((command, number, outcome), answers) in &session.reached {
            let name = protocol::command_of(*command).map_or("unknown", |command| command.name);
            println!("{name}, number {number}, outcome {outcome}: {}", grouped(*answers));
        }
        for ((command, outcome), clipped) in &session.clipped {
            let name = protocol::command_of(*command).map_or("unknown", |command| command.name);
            println!("{name}, outcome {outcome}: {} samples clipped", grouped(*clipped));
        }
        for ((command, held), answers) in &session.held {
            let name = protocol::command_of(*command).map_or("unknown", |command| command.name);
            println!("{name} with a mixdown, held to the source's {}: {}", format!("{held:?}").to_lowercase(), grouped(*answers));
        }
    }
    let mut desk = Desk::new(notes);
    desk.run(&mut Random::new(SEED));
    println!("notes: {} runs, 0 differ", grouped(desk.runs));
    println!("differential: {} answers, {} bytes, 0 differ", grouped(session.tally.answers), grouped(session.tally.bytes));
}

fn write_sample(folder: PathBuf) -> std::io::Result<()> {
    let mut session = Session::new(None);
    families::sample::gather(&mut session, &mut Random::new(SEED));
    std::fs::write(folder.join("stdin"), &session.script)?;
    std::fs::write(folder.join("stdout"), &session.answers)?;
    println!("{} answers, {} + {} bytes", session.calls.len(), session.script.len(), session.answers.len());
    Ok(())
}

fn main() {
    let arguments: Vec<String> = std::env::args().skip(1).collect();
    let words: Vec<&str> = arguments.iter().map(String::as_str).collect();
    match words[..] {
        ["--sample", folder] => write_sample(folder.into()).expect("the sample cannot be written"),
        [replay, notes] => compare(replay.into(), notes.into(), 1, false),
        [replay, notes, "--times"] => compare(replay.into(), notes.into(), 1, true),
        [replay, notes, "--long", rounds] => {
            compare(replay.into(), notes.into(), rounds.parse().expect("--long takes a number"), false);
        }
        _ => {
            eprintln!("usage: differential REPLAY NOTES [--long N | --times], or differential --sample DIR");
            std::process::exit(2);
        }
    }
}
