//! Document 02's notes: a second reading.

use crate::model::{self, TOO_MANY_BYTES};
use crate::recipe::Designs;
use crate::source::Format;
use std::fmt::Write;

pub const FIRST_KIND: u16 = 0x8000;
/// The bytes of the longest note.
pub const LONGEST: usize = 64;
/// The bytes of the longest recipe that the desk program takes.
pub const LONGEST_RECIPE: usize = 1_048_576;

pub fn is_note(kind: u16) -> bool {
    kind >= FIRST_KIND
}

/// The kind of each record and what follows it, of a recipe that opens.
pub fn records(recipe: &[u8]) -> Vec<(u16, &[u8])> {
    let (mut rest, mut all) = (recipe, vec![]);
    while let [low, high, kind_low, kind_high, after @ ..] = rest {
        let (contents, later) = after.split_at(usize::from(u16::from_le_bytes([*low, *high])) - 2);
        all.push((u16::from_le_bytes([*kind_low, *kind_high]), contents));
        rest = later;
    }
    all
}

/// An argument as the desk program takes it: digits alone, and a number that its field holds.
fn typed(argument: &str, most: u64) -> Option<u64> {
    let digits = argument.trim_start_matches('0');
    let number = if digits.is_empty() { 0 } else { digits.parse::<u128>().unwrap_or(u128::MAX) };
    let plain = !argument.is_empty() && argument.bytes().all(|byte| byte.is_ascii_digit());
    (plain && number <= u128::from(most)).then_some(number as u64)
}

/// What the desk program prints.
pub fn page(rate: &str, channels: &str, recipe: &[u8], designs: &Designs) -> String {
    if recipe.len() > LONGEST_RECIPE {
        return format!("{TOO_MANY_BYTES}\n");
    }
    let rate = typed(rate, u32::MAX.into()).unwrap_or(0) as u32;
    let channels = typed(channels, u16::MAX.into()).unwrap_or(0) as u16;
    if let Err(number) = model::open(Format { rate, channels }, recipe, designs) {
        return format!("{number}\n");
    }
    let mut out = String::new();
    for (kind, text) in records(recipe).into_iter().filter(|(kind, _)| is_note(*kind)) {
        write!(out, "{kind:04x}").unwrap();
        text.iter().for_each(|byte| write!(out, "{byte:02x}").unwrap());
        out.push('\n');
    }
    out
}
