//! The commands of `replay` and their answers, field by field.

/// A command's byte and name, its fields and its answer's: each a type and a name.
pub struct Command {
    pub code: u8,
    pub name: &'static str,
    pub fields: &'static str,
    pub answer: &'static str,
}

pub const OPEN: u8 = 0x01;
pub const BLOCK: u8 = 0x02;
pub const RESET: u8 = 0x03;
pub const WRITE_RECIPE: u8 = 0x04;
pub const SCRATCH_BYTES: u8 = 0x05;
pub const OUTPUT_FORMAT: u8 = 0x06;
pub const MIX: u8 = 0x07;
pub const MAX_OUTPUT_FRAMES: u8 = 0x08;
pub const POLE: u8 = 0x09;
pub const DESIGN: u8 = 0x0A;
pub const FROM_Q15: u8 = 0x0B;
pub const LINEAR: u8 = 0x0C;
pub const ROUND_SAT16: u8 = 0x0D;
pub const SAT16: u8 = 0x0E;
pub const FINISH: u8 = 0x10;
pub const BLOCK_ROOM: u8 = 0x11;
pub const FINISH_ROOM: u8 = 0x12;

/// The byte that `replay` ends with where the script breaks off or is not one.
pub const END_MARK: u8 = 0xFF;
/// The longest "bytes" that a script may hold.
pub const LONGEST: usize = 262_144;

const fn command(code: u8, name: &'static str, fields: &'static str, answer: &'static str) -> Command {
    Command { code, name, fields, answer }
}

/// The command of a byte, if there is one.
pub fn command_of(code: u8) -> Option<&'static Command> {
    COMMANDS.iter().find(|command| command.code == code)
}

pub const COMMANDS: [Command; 17] = [
    command(OPEN, "open", "u32 rate, u16 channels, bytes recipe", "u16 number"),
    command(
        BLOCK,
        "block",
        "u32 rate, u16 channels, u64 timestamp, bytes sound, bytes half a, bytes half b",
        "u16 number, u64 needed, u8 outcome, u32 rate, u16 channels, u64 timestamp, u8 half, u32 length, \
         bytes output, bytes half a, bytes half b, u64 blocks, u64 empty_blocks, u64 clipped",
    ),
    command(RESET, "reset", "", "u64 blocks, u64 empty_blocks"),
    command(WRITE_RECIPE, "write recipe", "bytes room", "u16 number, u64 needed, u32 length, bytes room"),
    command(SCRATCH_BYTES, "scratch_bytes", "u64 length", "u16 number, u64 value"),
    command(OUTPUT_FORMAT, "output format", "", "u32 rate, u16 channels"),
    command(MIX, "mix_i16", "bytes a, bytes b, bytes out", "u16 number, u64 needed, bytes out, u64 clipped"),
    command(MAX_OUTPUT_FRAMES, "max_output_frames", "u32 input rate, u32 output rate, u64 frames", "u16 number, u64 value"),
    command(POLE, "pole", "f32 corner, u32 rate", "u16 number, f32 pole"),
    command(
        DESIGN,
        "design",
        "u8 kind, f32 f0, f32 q, f32 gain_db, u32 rate, f64 sine, f64 cosine, f64 a",
        "u16 number, f32 b0, f32 b1, f32 b2, f32 a1, f32 a2",
    ),
    command(FROM_Q15, "from_q15", "i32 q15", "i32 q15"),
    command(LINEAR, "linear", "f32 factor", "i32 q15"),
    command(ROUND_SAT16, "round_sat16", "f32 float", "i16 sample, u8 clipped"),
    command(SAT16, "sat16", "i32 number", "i16 sample, u8 clipped"),
    command(
        FINISH,
        "finish",
        "bytes half a, bytes half b",
        "u16 number, u64 needed, u8 outcome, u32 rate, u16 channels, u8 half, u32 length, \
         bytes output, bytes half a, bytes half b, u64 blocks, u64 empty_blocks, u64 clipped",
    ),
    command(BLOCK_ROOM, "block room", "u64 frames", "u16 number, u64 frames, u64 half"),
    command(FINISH_ROOM, "finish room", "", "u16 number, u64 frames, u64 half"),
];

/// Fields, low byte first, appended to a script or an answer.
pub trait Put {
    fn put<const N: usize>(&mut self, number: [u8; N]);
    fn put_bytes(&mut self, bytes: &[u8]);
}

impl Put for Vec<u8> {
    fn put<const N: usize>(&mut self, number: [u8; N]) {
        self.extend_from_slice(&number);
    }

    fn put_bytes(&mut self, bytes: &[u8]) {
        self.put((bytes.len() as u32).to_le_bytes());
        self.extend_from_slice(bytes);
    }
}

/// A value as text, and what follows it; none where the bytes end inside it.
fn value<'a>(kind: &str, from: &'a [u8]) -> Option<(String, &'a [u8])> {
    let width = kind[1..].parse().map_or(4, |bits: usize| bits / 8);
    let (number, rest) = from.split_at_checked(width)?;
    let n = number.iter().rev().fold(0u64, |n, byte| n << 8 | u64::from(*byte));
    let text = match kind {
        "i16" => (n as i16).to_string(),
        "i32" => (n as i32).to_string(),
        "f32" => format!("{:?} (0x{n:08X})", f32::from_bits(n as u32)),
        "f64" => format!("{:?} (0x{n:016X})", f64::from_bits(n)),
        "bytes" => {
            let (bytes, rest) = rest.split_at_checked(n as usize)?;
            return Some((shown(bytes), rest));
        }
        _ => n.to_string(),
    };
    Some((text, rest))
}

/// At most 48 bytes in hexadecimal, after their count.
fn shown(bytes: &[u8]) -> String {
    let hex: Vec<String> = bytes.iter().take(48).map(|byte| format!("{byte:02X}")).collect();
    format!("{} bytes [{}{}]", bytes.len(), hex.join(" "), if bytes.len() > 48 { " .." } else { "" })
}

/// One field: its name, its value as text, its bytes.
pub type Decoded<'a> = (&'static str, String, &'a [u8]);

/// The fields, as far as the bytes reach.
pub fn decode<'a>(fields: &'static str, mut bytes: &'a [u8]) -> Vec<Decoded<'a>> {
    let mut decoded = Vec::new();
    for (kind, name) in fields.split(", ").filter_map(|field| field.split_once(' ')) {
        let Some((text, rest)) = value(kind, bytes) else { break };
        decoded.push((name, text, &bytes[..bytes.len() - rest.len()]));
        bytes = rest;
    }
    decoded
}
