//! The room known beforehand (document 02, Q-5), which the Rust does not have. The room that a stage wants for the bytes that reach it is the
//! Rust's own figure. How many frames it delivers is read twice, from the count of frames that it received and from the Rust's sound; the
//! first needs no sound, however much it would be.

use crate::model::{Answer, BUFFER_TOO_SMALL};
use crate::source::{Address, Format, Stage, run_stage};

/// The frames that leave the last stage, and the bytes of each of the smallest equal halves.
#[derive(Debug, Default, Clone, Copy, PartialEq, Eq)]
pub struct Room {
    pub frames: u64,
    pub half: u64,
}

/// Of a block, by counts. A stage that no frame reaches wants nothing; for no stages it is the block.
pub fn by_counts(stages: &mut [Stage], mut format: Format, frames: u64) -> Room {
    let block = frames * format.frame() as u64;
    let mut room = Room { frames, half: if stages.is_empty() { block } else { 0 } };
    for stage in stages {
        if room.frames == 0 {
            break;
        }
        let (element, reaching) = (stage.element(), format.pcm());
        let wanted = element.max_output_bytes(reaching, room.frames as usize * format.frame());
        format = element.output_format(reaching).expect("a chain that opened").into();
        room = Room { frames: stage.delivers(room.frames), half: room.half.max(wanted as u64) };
    }
    room
}

/// The same by sound: copies of the stages take silence.
pub fn by_sound(stages: &[Stage], mut format: Format, frames: u64) -> Room {
    let mut sound = vec![0; frames as usize * format.frame()];
    let mut half = if stages.is_empty() { sound.len() } else { 0 };
    for stage in &mut stages.to_vec() {
        let (delivered, wanted) = run_stage(stage, &mut format, &sound, Address::Even);
        (sound, half) = (delivered, half.max(wanted));
    }
    Room { frames: (sound.len() / format.frame()) as u64, half: half as u64 }
}

/// The call that follows the question must be refused alike, or find its halves short, or bring the frames.
pub fn hold(asked: Result<Room, u16>, halves: [&[u8]; 2], answer: &Answer) {
    let shorter = halves[0].len().min(halves[1].len()) as u64;
    let frames = answer.sound.as_ref().map_or(0, |sound| sound.bytes.len() / sound.format.frame()) as u64;
    let number = answer.number;
    match asked {
        Err(refused) => assert_eq!(number, refused, "the call is not refused as the question was"),
        Ok(room) if shorter < room.half => {
            let needed = 2 * shorter + 1..=2 * room.half;
            assert!(number == BUFFER_TOO_SMALL && needed.contains(&answer.needed), "{room:?}, but {shorter} bytes give {number}");
        }
        Ok(room) => assert_eq!((number, frames), (0, room.frames), "{room:?}, over {shorter} bytes"),
    }
}
