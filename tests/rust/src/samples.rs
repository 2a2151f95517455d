//! Draw logs to test with: sound ones made at random, damaged ones, and one or more for each refusal.

use crate::log::{draws, Entry, Parts, Refusal, LONGEST, MARK};
use crate::words::Generator;

/// 2^32 − 8: the greatest multiple of 8 that has 32 bits.
pub const NEARLY_ALL: u32 = u32::MAX - 7;

/// A sound log with these blocks, whose ids are 1, 2, ..
pub fn numbered(blocks: &[&[u8]]) -> Parts {
    let replicates: Vec<(u32, &[u8])> = (1..).zip(blocks.iter().copied()).collect();
    Parts::of(&replicates)
}

/// A sound log with ids that rise by chance; each block is made of up to `most_draws` draws.
pub fn random_parts(
    generator: &mut Generator,
    most_replicates: usize,
    most_draws: usize,
    block: impl Fn(&mut Generator, usize) -> Vec<u8>,
) -> Parts {
    let mut id = generator.pick(&[0, 3, 1_000, 0xFFFF_FF00]);
    let mut replicates = Vec::new();
    for _ in 0..generator.between(1, most_replicates) {
        let length = generator.between(0, most_draws);
        replicates.push((id, block(generator, length)));
        id += generator.between(1, 3) as u32;
    }
    let lent: Vec<(u32, &[u8])> = replicates.iter().map(|(id, block)| (*id, &block[..])).collect();
    Parts::of(&lent)
}

/// A log with these entries over a stretch of blocks; directory start, count and mark are right.
pub fn with_entries(block_bytes: usize, entries: &[Entry]) -> Parts {
    Parts {
        blocks: vec![0x11; block_bytes],
        entries: entries.to_vec(),
        directory_start: block_bytes as u32,
        count: entries.len() as u32,
        mark: MARK,
    }
}

/// Sets one field of the log wrong, or perhaps right again.
pub fn damage(generator: &mut Generator, parts: &mut Parts) {
    let number = telling_number(generator, parts.blocks.len());
    let chosen = generator.below(parts.entries.len());
    match generator.below(8) {
        0 => parts.entries[chosen].id = number,
        1 | 2 => parts.entries[chosen].start = number,
        3 | 4 => parts.entries[chosen].length = number,
        5 => parts.directory_start = number,
        6 => parts.count = number,
        _ => parts.mark[chosen % 4] ^= 1,
    }
}

/// A number near the places where a comparison or a sum tips over.
fn telling_number(generator: &mut Generator, block_bytes: usize) -> u32 {
    let near = block_bytes as u32;
    let small = generator.below(70) as u32;
    generator.pick(&[0, 1, 4, 8, 16, near, near + 1, near + 8, small, 1 << 31, NEARLY_ALL, u32::MAX])
}

/// Logs of three replicates, damaged in one way each, with the refusal that document 01 gives.
pub fn refused_logs() -> Vec<(Vec<u8>, Refusal)> {
    let sound = numbered(&[&draws([1]), &draws([2]), &draws([3])]);
    let mut cases = vec![
        (sound.bytes()[..11].to_vec(), Refusal::plain(10)),
        (vec![0; LONGEST + 1], Refusal::plain(11)),
        (Parts { mark: [0; 4], ..sound.clone() }.bytes(), Refusal::plain(12)),
        (Parts { count: 0, ..sound.clone() }.bytes(), Refusal::plain(13)),
        (Parts { count: 65, ..sound.clone() }.bytes(), Refusal::plain(13)),
        (Parts { count: 2, ..sound.clone() }.bytes(), Refusal::plain(14)),
    ];
    for place in 0..3 {
        let mut with_entry = |number, change: fn(&mut Entry)| {
            let mut parts = sound.clone();
            change(&mut parts.entries[place]);
            cases.push((parts.bytes(), Refusal::at(number, place as u32)));
        };
        if place > 0 {
            with_entry(15, |entry| entry.id -= 1);
        }
        with_entry(16, |entry| entry.start += 8);
        with_entry(17, |entry| entry.length -= 1);
    }
    let mut ends_late = sound;
    ends_late.entries[2].length = 16;
    cases.push((ends_late.bytes(), Refusal::at(16, 3)));
    cases
}
