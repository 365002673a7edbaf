//! The first difference, decoded.

use crate::protocol::{END_MARK, OPEN, command_of, decode};
use crate::session::{Gathered, Tally};

/// Of the calls since the chain was opened, at most the last so many are printed.
const EARLIER: usize = 40;

/// A call in one line: name and fields, bytes shortened.
fn in_short(call: &[u8]) -> String {
    let Some(command) = command_of(call[0]) else { return format!("command 0x{:02X}", call[0]) };
    let fields: Vec<String> = decode(command.fields, &call[1..]).iter().map(|(name, text, _)| format!("{name} {text}")).collect();
    format!("{}: {}", command.name, fields.join(", "))
}

/// A call's own part of the script (side 0) or of the answers (side 1).
fn part(run: &Gathered, call: usize, side: usize) -> &[u8] {
    let all = if side == 0 { &run.script } else { &run.answers };
    let end = run.calls.get(call + 1).map_or(all.len(), |next| next[side]);
    &all[run.calls[call][side]..end]
}

fn field_by_field(fields: &'static str, expected: &[u8], found: &[u8]) {
    let found = decode(fields, found);
    for (i, (name, text, bytes)) in decode(fields, expected).into_iter().enumerate() {
        let (other_text, other) = found.get(i).map_or(("nothing", &[][..]), |(_, text, bytes)| (text, bytes));
        if bytes == other {
            println!("    {name}: {text}");
            continue;
        }
        println!("  * {name}: expected {text}");
        println!("    {:width$}  found    {other_text}", "", width = name.len());
        if let Some(at) = bytes.iter().zip(other).position(|(x, y)| x != y) {
            println!("    first at byte {at} of the field: expected {:02X}, found {:02X}", bytes[at], other[at]);
        }
    }
}

/// Prints the first call whose answer differs and the calls since the chain was opened, and ends the program.
pub fn difference(run: &Gathered, found: &[u8], before: &Tally) -> ! {
    let common = run.answers.iter().zip(found).take_while(|(x, y)| x == y).count();
    let call = run.calls.partition_point(|start| start[1] <= common) - 1;
    let (script, expected) = (part(run, call, 0), part(run, call, 1));
    let found_here = &found[run.calls[call][1].min(found.len())..];
    println!("differs: {}, call {} of {} in its script", run.family, call + 1, run.calls.len());
    println!("{}", in_short(script));
    match command_of(script[0]) {
        Some(command) if expected != [END_MARK] => field_by_field(command.answer, expected, found_here),
        _ => println!("    expected {expected:02X?}, found {:02X?}", &found_here[..found_here.len().min(64)]),
    }
    println!("    {} bytes expected in all, {} found", run.answers.len(), found.len());
    println!("since the last open:");
    let opened = |i: &usize| part(run, *i, 0)[0] == OPEN && part(run, *i, 1) == [0, 0];
    let first = (0..call).rev().find(opened).unwrap_or(0);
    let recent = first.max(call.saturating_sub(EARLIER));
    (recent > first).then(|| println!("    {}\n    .. {} calls", in_short(part(run, first, 0)), recent - first - 1));
    (recent..call).for_each(|earlier| println!("    {}", in_short(part(run, earlier, 0))));
    println!("differential: {} answers, {} bytes in the scripts before, 1 differs", before.answers, before.bytes);
    std::process::exit(1)
}
