//! The overlap check: every block searched for the front of every other one, draw by draw.

use crate::log::{self, Entry, Refusal};
use crate::scans::Work;

/// The bytes of a draw.
const DRAW: usize = 8;

/// The most draws that a probe may have.
pub const MOST_DRAWS: u32 = 512;

/// What the check finds: four numbers for each overlapping pair, and how many owners are unprobed.
#[derive(Debug, Clone, PartialEq, Eq, Default)]
pub struct Check {
    pub result: Vec<u32>,
    pub unprobed: u32,
}

/// The check of a log with p draws, given the lengths of the work rooms and of the result room.
pub fn check(log: &[u8], p: u32, work: Work, result_room: usize) -> Result<Check, Refusal> {
    let entries = log::test(log)?;
    if !(1..=MOST_DRAWS).contains(&p) {
        return Err(Refusal::plain(20));
    }
    let probe_length = probe_length(p);
    if work.tables < 2 * probe_length || work.memory < probe_length {
        return Err(Refusal::plain(4));
    }
    if result_room < numbers_needed(entries.len()) {
        return Err(Refusal::plain(5));
    }
    Ok(search_all(log, &entries, probe_length))
}

/// The bytes of a probe of p draws.
pub fn probe_length(p: u32) -> usize {
    DRAW * p as usize
}

/// What the result room needs for c replicates.
pub fn numbers_needed(c: usize) -> usize {
    4 * c * (c - 1)
}

/// The offsets in a block of the draws from which on it has the probe's draws.
fn offsets(probe: &[u8], block: &[u8]) -> Vec<u32> {
    (0..block.len()).step_by(DRAW).filter(|&at| block[at..].starts_with(probe)).map(|at| at as u32).collect()
}

/// The pairs of one owner, searched blocks ascending: owner, searched id, first offset, occurrences. None where its
/// block is shorter than a probe.
pub fn pairs_of(log: &[u8], entries: &[Entry], owner: &Entry, probe_length: usize) -> Option<Vec<[u32; 4]>> {
    pairs_by(offsets, log, entries, owner, probe_length)
}

/// The same, over the offsets that another search finds.
pub fn pairs_by(
    search: fn(&[u8], &[u8]) -> Vec<u32>,
    log: &[u8],
    entries: &[Entry],
    owner: &Entry,
    probe_length: usize,
) -> Option<Vec<[u32; 4]>> {
    let probe = owner.block(log).get(..probe_length)?;
    let mut pairs = Vec::new();
    for searched in entries.iter().filter(|searched| searched.id != owner.id) {
        let offsets = search(probe, searched.block(log));
        if let Some(&first) = offsets.first() {
            pairs.push([owner.id, searched.id, first, offsets.len() as u32]);
        }
    }
    Some(pairs)
}

fn search_all(log: &[u8], entries: &[Entry], probe_length: usize) -> Check {
    let mut found = Check::default();
    for owner in entries {
        match pairs_of(log, entries, owner, probe_length) {
            Some(pairs) => found.result.extend(pairs.concat()),
            None => found.unprobed += 1,
        }
    }
    found
}
