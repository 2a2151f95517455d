//! Draw logs: the test, the lookup, and a maker of logs whose every field can be set wrong.

pub const SHORTEST: usize = 12;
pub const LONGEST: usize = 65_536;
pub const MOST_REPLICATES: u32 = 64;
pub const MARK: [u8; 4] = [0x44, 0x52, 0x41, 0x57];

const ENTRY_SIZE: usize = 12;
const TRAILER_SIZE: usize = 12;
pub(crate) const DRAW_SIZE: u32 = 8;

/// A refusal's number, and the entry number that it carries.
#[derive(Debug, Clone, Copy, PartialEq, Eq)]
pub struct Refusal {
    pub number: u32,
    pub entry: u32,
}

/// An entry of the directory.
#[derive(Debug, Clone, Copy, PartialEq, Eq)]
pub struct Entry {
    pub id: u32,
    pub start: u32,
    pub length: u32,
}

/// A log's parts, right or wrong.
#[derive(Debug, Clone, PartialEq, Eq)]
pub struct Parts {
    pub blocks: Vec<u8>,
    pub entries: Vec<Entry>,
    pub directory_start: u32,
    pub count: u32,
    pub mark: [u8; 4],
}

impl Refusal {
    /// A refusal that carries no entry.
    pub fn plain(number: u32) -> Refusal {
        Refusal { number, entry: 0 }
    }

    pub fn at(number: u32, entry: u32) -> Refusal {
        Refusal { number, entry }
    }
}

impl Entry {
    /// The byte behind the block. The sum may pass 2^32.
    fn end(&self) -> u64 {
        u64::from(self.start) + u64::from(self.length)
    }

    /// The block of this entry of an accepted log.
    pub fn block<'a>(&self, log: &'a [u8]) -> &'a [u8] {
        &log[self.start as usize..self.end() as usize]
    }
}

impl Parts {
    /// The parts of a sound log with these ids and blocks.
    pub fn of(replicates: &[(u32, &[u8])]) -> Parts {
        let mut blocks = Vec::new();
        let mut entries = Vec::new();
        for (id, block) in replicates {
            entries.push(Entry { id: *id, start: blocks.len() as u32, length: block.len() as u32 });
            blocks.extend_from_slice(block);
        }
        Parts {
            directory_start: blocks.len() as u32,
            count: entries.len() as u32,
            blocks,
            entries,
            mark: MARK,
        }
    }

    /// The log's bytes.
    pub fn bytes(&self) -> Vec<u8> {
        let mut log = self.blocks.clone();
        for entry in &self.entries {
            put(&mut log, &[entry.id, entry.start, entry.length]);
        }
        put(&mut log, &[self.directory_start, self.count]);
        log.extend_from_slice(&self.mark);
        log
    }
}

/// The log test: the entries of an accepted log, or the first cause to refuse it.
pub fn test(log: &[u8]) -> Result<Vec<Entry>, Refusal> {
    if log.len() < SHORTEST {
        return Err(Refusal::plain(10));
    }
    if log.len() > LONGEST {
        return Err(Refusal::plain(11));
    }
    let trailer = &log[log.len() - TRAILER_SIZE..];
    let directory_start = number_at(trailer, 0);
    let count = number_at(trailer, 4);
    if trailer[8..] != MARK {
        return Err(Refusal::plain(12));
    }
    if !(1..=MOST_REPLICATES).contains(&count) {
        return Err(Refusal::plain(13));
    }
    let directory_size = ENTRY_SIZE as u64 * u64::from(count);
    if u64::from(directory_start) + directory_size + TRAILER_SIZE as u64 != log.len() as u64 {
        return Err(Refusal::plain(14));
    }
    let directory = &log[directory_start as usize..];
    let entries: Vec<Entry> = (0..count as usize).map(|k| entry_at(directory, k)).collect();
    test_entries(&entries, directory_start)?;
    Ok(entries)
}

/// The lookup: the entry of the replicate with this id.
pub fn find(log: &[u8], id: u32) -> Result<Entry, Refusal> {
    let entries = test(log)?;
    entries.into_iter().find(|entry| entry.id == id).ok_or(Refusal::plain(18))
}

/// Draws as they stand in a block: 8 bytes each, low byte first.
pub fn draws(values: impl IntoIterator<Item = u64>) -> Vec<u8> {
    values.into_iter().flat_map(u64::to_le_bytes).collect()
}

/// Document 01's log of 664 bytes: replicate 9 is too short to probe, and 7 repeats all of 3.
pub fn document_log() -> Vec<u8> {
    let three = draws(0..32);
    let seven = draws((100..108).chain(0..32));
    let nine = draws([0; 5]);
    Parts::of(&[(3, &three), (7, &seven), (9, &nine)]).bytes()
}

fn test_entries(entries: &[Entry], directory_start: u32) -> Result<(), Refusal> {
    let mut id_before = None;
    let mut end_before = 0;
    for (k, entry) in entries.iter().enumerate() {
        let k = k as u32;
        if matches!(id_before, Some(before) if entry.id <= before) {
            return Err(Refusal::at(15, k));
        }
        if u64::from(entry.start) != end_before {
            return Err(Refusal::at(16, k));
        }
        if entry.length % DRAW_SIZE != 0 {
            return Err(Refusal::at(17, k));
        }
        id_before = Some(entry.id);
        end_before = entry.end();
    }
    if end_before != u64::from(directory_start) {
        return Err(Refusal::at(16, entries.len() as u32));
    }
    Ok(())
}

fn entry_at(directory: &[u8], k: usize) -> Entry {
    let place = ENTRY_SIZE * k;
    Entry {
        id: number_at(directory, place),
        start: number_at(directory, place + 4),
        length: number_at(directory, place + 8),
    }
}

fn number_at(bytes: &[u8], place: usize) -> u32 {
    let four = bytes[place..place + 4].try_into().expect("four bytes");
    u32::from_le_bytes(four)
}

fn put(log: &mut Vec<u8>, numbers: &[u32]) {
    log.extend(numbers.iter().flat_map(|number| number.to_le_bytes()));
}
