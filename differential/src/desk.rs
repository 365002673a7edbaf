//! The program `notes`, run on files of its own, and held to a second reading of document 02.

use crate::families::notes::annotated;
use crate::notes::{LONGEST, LONGEST_RECIPE, page};
use crate::random::Random;
use crate::recipe::{self, Designs, note};
use std::fs;
use std::path::{Path, PathBuf};
use std::process::Command;

/// The program, a folder for its files, and how many runs were compared.
pub struct Desk {
    program: PathBuf,
    folder: PathBuf,
    designs: Designs,
    pub runs: u64,
}

fn start(program: &Path, arguments: &[&str]) -> (Vec<u8>, Vec<u8>) {
    let done = Command::new(program).args(arguments).output().expect("notes does not start");
    assert!(done.status.code().is_some(), "notes was stopped by a signal: {arguments:?}");
    (done.stdout, done.stderr)
}

impl Desk {
    pub fn new(program: PathBuf) -> Self {
        let folder = std::env::temp_dir().join(format!("notes-{}", std::process::id()));
        fs::create_dir(&folder).expect("no folder for recipes");
        Desk { program, folder, designs: Designs::new(), runs: 0 }
    }

    /// A recipe with these arguments: the page, and nothing on standard error.
    fn hold(&mut self, rate: &str, channels: &str, recipe: &[u8]) {
        let path = self.folder.join("recipe");
        fs::write(&path, recipe).expect("a recipe cannot be written");
        let expected = page(rate, channels, recipe, &self.designs);
        let (printed, said) = start(&self.program, &[rate, channels, path.to_str().unwrap()]);
        assert!(
            printed == expected.as_bytes() && said.is_empty(),
            "notes differs: {rate:?} {channels:?}, {} bytes, {:02X?}..: expected {expected:.200?}, found {:.200?}, and said {:?}",
            recipe.len(),
            &recipe[..recipe.len().min(80)],
            String::from_utf8_lossy(&printed),
            String::from_utf8_lossy(&said),
        );
        self.runs += 1;
    }

    /// Arguments with which nothing is printed, and a line on standard error says why.
    fn turned_away(&mut self, arguments: &[&str]) {
        let (printed, said) = start(&self.program, arguments);
        let line = said.ends_with(b"\n") && said.iter().filter(|byte| **byte == b'\n').count() == 1;
        assert!(printed.is_empty() && line, "notes {arguments:?} printed {printed:?} and said {said:?}");
        self.runs += 1;
    }

    pub fn run(&mut self, random: &mut Random) {
        self.arguments();
        self.questions();
        self.longest();
        self.files();
        for _ in 0..150 {
            let stages = random.below(9);
            let whole = recipe::any(random, stages, &mut self.designs);
            let mut bytes = annotated(random, &whole.bytes);
            if random.one_in(3) {
                bytes.truncate(random.below(bytes.len() + 1));
            } else if random.one_in(3) && !bytes.is_empty() {
                let at = random.below(bytes.len());
                bytes[at] = random.next() as u8;
            }
            self.hold(&whole.format.rate.to_string(), &whole.format.channels.to_string(), &bytes);
        }
        fs::remove_dir_all(&self.folder).expect("the folder of recipes stays");
    }

    /// Numbers at and past their limits, and what is no number.
    fn arguments(&mut self) {
        let one = note(0xBEEF, b"first crack at 9:40");
        let zeros = format!("{:0>4000}", 16_000);
        let past = format!("{:0>5000}", 0);
        for rate in
            ["16000", "016000", &zeros, "1", "384000", "384001", "0", "4294967295", "4294967296", "4294983296", "18446744073709567616"]
        {
            self.hold(rate, "1", &one);
        }
        for rate in [
            "", " ", "x", "16000x", "x16000", "+16000", "-16000", " 16000", "16000 ", "16000\n", "1,000", "0x10", "1e3", "16000.", "/",
            ":", &past,
        ] {
            self.hold(rate, "1", &one);
        }
        for channels in ["1", "2", "3", "0", "01", "65535", "65536", "65537", "", "one", "1 ", "1\u{661}"] {
            self.hold("16000", channels, &one);
        }
    }

    /// Every number that opening gives, and no notes.
    fn questions(&mut self) {
        let long = [recipe::gain(5), note(0x8000, &[1; LONGEST + 1])].concat();
        let recipes: [Vec<u8>; 11] = [
            vec![],
            recipe::gain(5),
            note(0x8000, &[]),
            note(0xFFFF, &[0xA9; LONGEST]),
            recipe::record(recipe::STEREO_TO_MONO, &[]),
            [note(0x8000, b"x"), vec![2, 0, 1]].concat(),
            [note(0x8000, b"x"), note(0x7FFF, b"x")].concat(),
            [note(0x8000, b"x"), vec![3, 0, 1, 0, 9]].concat(),
            [recipe::gain(5).repeat(9), note(0x8000, b"x")].concat(),
            [note(0x8000, b"x"), recipe::gain(i32::MAX)].concat(),
            long.clone(),
        ];
        for recipe in recipes {
            self.hold("16000", "1", &recipe);
        }
        for cut in [2, 66, 67] {
            self.hold("16000", "1", &long[..long.len() - cut]);
        }
        self.hold("16000", "1", &[recipe::gain(5).repeat(8), note(0x8000, b"x").repeat(50)].concat());
    }

    /// As long as a recipe may be, and one byte longer: 10, before anything else.
    fn longest(&mut self) {
        let empty = note(0xABCD, &[]).repeat(LONGEST_RECIPE / 4);
        self.hold("16000", "1", &empty);
        self.hold("16000", "1", &empty[..LONGEST_RECIPE - 4]);
        self.hold("16000", "1", &empty[..LONGEST_RECIPE - 1]);
        let full = note(0x8001, &[0xC3; LONGEST - 4]).repeat(LONGEST_RECIPE / 64);
        self.hold("16000", "2", &full);
        for recipe in [[&empty[..], &[0]].concat(), [&full[..], &[0]].concat(), vec![0; LONGEST_RECIPE + 1], [&full[..], &full].concat()] {
            self.hold("16000", "1", &recipe);
            self.hold("x", "9", &recipe);
        }
        self.hold("x", "9", &full);
    }

    fn files(&mut self) {
        let path = self.folder.join("recipe");
        let (recipe, folder, none) = (path.to_str().unwrap(), self.folder.to_str().unwrap().to_owned(), "no such recipe");
        let long = "r".repeat(5_000);
        let wrong: [&[&str]; 9] = [
            &[],
            &["16000"],
            &["16000", "1"],
            &["16000", "1", recipe, "more"],
            &["16000", "1", none],
            &["x", "1", none],
            &["16000", "1", ""],
            &["16000", "1", &folder],
            &["16000", "1", &long],
        ];
        wrong.into_iter().for_each(|arguments| self.turned_away(arguments));
    }
}
