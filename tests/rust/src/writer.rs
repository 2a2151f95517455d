//! The writer: the log that it makes of block bytes, ids and lengths, or why it makes none.

use crate::log::{self, Parts, Refusal, DRAW_SIZE, LONGEST, MOST_REPLICATES};

/// What a log is written from, right or wrong.
#[derive(Debug, Clone, PartialEq, Eq)]
pub struct Contents {
    /// The bytes of all blocks, back to back.
    pub blocks: Vec<u8>,
    pub ids: Vec<u32>,
    /// The blocks' lengths in bytes.
    pub lengths: Vec<u32>,
}

impl Contents {
    /// The contents of a log that the log test accepts.
    pub fn of(log: &[u8]) -> Option<Contents> {
        let entries = log::test(log).ok()?;
        Some(Contents {
            blocks: entries.iter().flat_map(|entry| entry.block(log)).copied().collect(),
            ids: entries.iter().map(|entry| entry.id).collect(),
            lengths: entries.iter().map(|entry| entry.length).collect(),
        })
    }

    /// The log, or the first cause to refuse it, for an output room of this many bytes.
    pub fn write(&self, room: usize) -> Result<Vec<u8>, Refusal> {
        self.test_numbers()?;
        let sum: u128 = self.lengths.iter().map(|&length| u128::from(length)).sum();
        if self.blocks.len() as u128 != sum {
            return Err(Refusal::plain(22));
        }
        let log = self.bound();
        if log.len() > LONGEST {
            return Err(Refusal::plain(11));
        }
        if room < log.len() {
            return Err(Refusal::plain(23));
        }
        Ok(log)
    }

    fn test_numbers(&self) -> Result<(), Refusal> {
        if self.ids.len() != self.lengths.len() {
            return Err(Refusal::plain(31));
        }
        if self.ids.is_empty() || self.ids.len() > MOST_REPLICATES as usize {
            return Err(Refusal::plain(13));
        }
        for k in 0..self.ids.len() {
            if k > 0 && self.ids[k] <= self.ids[k - 1] {
                return Err(Refusal::at(15, k as u32));
            }
            if self.lengths[k] % DRAW_SIZE != 0 {
                return Err(Refusal::at(17, k as u32));
            }
        }
        Ok(())
    }

    /// The log, for lengths that fit the blocks: each block is cut off where its length ends.
    fn bound(&self) -> Vec<u8> {
        let mut rest = &self.blocks[..];
        let mut replicates = Vec::new();
        for (&id, &length) in self.ids.iter().zip(&self.lengths) {
            let (block, behind) = rest.split_at(length as usize);
            replicates.push((id, block));
            rest = behind;
        }
        Parts::of(&replicates).bytes()
    }
}
