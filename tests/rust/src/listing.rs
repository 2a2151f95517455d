//! What `overlap` prints of a log, put together line by line.

use crate::check;
use crate::log;

/// The draws of a probe.
const DRAWS: u32 = 32;

/// The text for the bytes on standard input.
pub fn listing(log: &[u8]) -> String {
    match log::test(log) {
        Ok(entries) => accepted(log, &entries),
        Err(refusal) => format!("refused {} {}\n", refusal.number, refusal.entry),
    }
}

fn accepted(log: &[u8], entries: &[log::Entry]) -> String {
    let mut text = format!("replicates {} probe {DRAWS}\n", entries.len());
    let (mut pairs, mut unprobed) = (0, 0);
    for owner in entries {
        if let Some(found) = check::pairs_of(log, entries, owner, check::probe_length(DRAWS)) {
            pairs += found.len();
            text.extend(found.iter().map(|[a, b, first, number]| format!("{a} {b} {first} {number}\n")));
        } else {
            unprobed += 1;
            text += &format!("unprobed {}\n", owner.id);
        }
    }
    text + &format!("total {pairs} {unprobed}\n")
}
