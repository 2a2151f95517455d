//! Nahuitepol for Rust: exact search for a probe in a stream, and draw logs, written and checked for overlaps.
//!
//! A safe face over the C interface: slices in, structs of plain numbers out. The borrows see to the caller's
//! one duty there, that lent rooms do not overlap.
//!
//! Each answer begins with a refusal number; 0 says that the call did its work. On a refusal every lent room is
//! unchanged and every other number is 0, but for the entry number beside 15, 16 and 17.
//!
//! | No. | Cause |
//! |---|---|
//! | 1 | probe has no bytes |
//! | 2 | probe over 4,096 bytes |
//! | 3 | stream over 16,777,216 bytes |
//! | 4 | work room below 2m numbers for both tables, below m for one or the memory, m probe bytes (in the check 8p) |
//! | 5 | result room of the check below 4·c·(c − 1) numbers, c replicates |
//! | 10 | log under 12 bytes |
//! | 11 | log over 65,536 bytes (in the writer: it would be) |
//! | 12 | mark wrong |
//! | 13 | directory count not 1 to 64 (in the writer: the number of ids) |
//! | 14 | directory start + 12·count + 12 differs from the log's length |
//! | 15 | id not above the one before |
//! | 16 | block not where the previous one ended (the first: not at byte 0), or last end not the directory start |
//! | 17 | block length no multiple of 8 |
//! | 18 | no replicate with this id |
//! | 20 | p not 1 to 512 |
//! | 22 | number of block bytes differs from the sum of the lengths |
//! | 23 | output room shorter than the log |
//! | 31 | ids and lengths differ in number |
//!
//! Rooms may be longer than needed, and may hold anything before the call.
//!
//! ```
//! let (mut tables, mut memory, mut positions) = ([0; 8], [0; 4], [0; 8]);
//! let answer = nahuitepol::remember(b"abab", b"ababab", &mut tables, &mut memory, &mut positions);
//! assert_eq!((answer.refusal, answer.occurrences, answer.comparisons), (0, 2, 6));
//! assert_eq!(positions[..2], [0, 2]);
//! ```

mod raw;

/// The occurrence table of a probe, with an entry for each byte; 256 zeros beside a refusal.
#[repr(C)]
#[derive(Debug, Clone, Copy, PartialEq, Eq)]
pub struct Occurrences {
    pub refusal: u32,
    pub table: [u32; 256],
}

/// The answer of a search.
#[repr(C)]
#[derive(Debug, Clone, Copy, PartialEq, Eq)]
pub struct Searched {
    pub refusal: u32,
    /// Always 0: a search has no entries.
    pub entry: u32,
    /// Occurrences of the probe in the stream, whether or not the position room took them.
    pub occurrences: u64,
    /// Positions written: the smaller of the occurrences and the position room's length.
    pub written: u64,
    /// Windows visited.
    pub windows: u64,
    /// Comparisons of a stream byte with a probe byte.
    pub comparisons: u64,
    /// The greatest number, over the windows visited, of trailing probe bytes that equal the stream there; 0 with no
    /// window.
    pub closest: u64,
    /// Where the first window that reached it starts; 0 with no window.
    pub closest_at: u64,
}

/// The answer of the log test.
#[repr(C)]
#[derive(Debug, Clone, Copy, PartialEq, Eq)]
pub struct Tested {
    pub refusal: u32,
    /// The entry that 15, 16 or 17 was given for; the count for a wrong last end.
    pub entry: u32,
    /// Replicates in the log.
    pub count: u32,
}

/// The answer of the lookup: the block of a replicate as a stretch of the log.
#[repr(C)]
#[derive(Debug, Clone, Copy, PartialEq, Eq)]
pub struct Found {
    pub refusal: u32,
    /// As in [`Tested`].
    pub entry: u32,
    /// First byte of the block, from the log's start.
    pub start: u32,
    /// Length in bytes; may be 0.
    pub length: u32,
}

/// The answer of the writer.
#[repr(C)]
#[derive(Debug, Clone, Copy, PartialEq, Eq)]
pub struct Written {
    pub refusal: u32,
    /// The entry that 15 or 17 was given for.
    pub entry: u32,
    /// Bytes of the log, from the front of the output room on.
    pub length: u32,
}

/// The answer of the overlap check.
#[repr(C)]
#[derive(Debug, Clone, Copy, PartialEq, Eq)]
pub struct Checked {
    pub refusal: u32,
    /// As in [`Tested`].
    pub entry: u32,
    /// Overlapping pairs; the first four times as many numbers of the result room tell them.
    pub pairs: u32,
    /// Owners whose block is shorter than 8p bytes.
    pub unprobed: u32,
}

/// Writes the suffix table of the probe to the front of the room and answers the refusal: 0, 1, 2 or 4.
///
/// Entry i is the length of the longest common suffix of the probe's bytes 0 to i and the probe. The room needs
/// an entry for each byte of the probe; further entries stay as they were.
///
/// ```
/// let mut room = [7; 5];
/// assert_eq!(nahuitepol::suffix(b"abab", &mut room), 0);
/// assert_eq!(room, [0, 2, 0, 4, 7]);
/// ```
#[inline]
pub fn suffix(probe: &[u8], room: &mut [u32]) -> u32 {
    // SAFETY: pointers and counts are those of live slices, and the borrows keep the room apart from the probe.
    unsafe { raw::nahui_suffix(probe.as_ptr(), probe.len(), room.as_mut_ptr(), room.len()) }
}

/// Writes the shift table of the probe to the front of the room and answers the refusal: 0, 1, 2 or 4.
///
/// Entry i is how far the probe moves after a stop at i; entry 0 is the probe's period. The room needs an entry
/// for each byte of the probe; further entries stay as they were.
///
/// ```
/// let mut room = [7; 5];
/// assert_eq!(nahuitepol::shift(b"abab", &mut room), 0);
/// assert_eq!(room, [2, 2, 4, 1, 7]);
/// ```
#[inline]
pub fn shift(probe: &[u8], room: &mut [u32]) -> u32 {
    // SAFETY: as in `suffix`.
    unsafe { raw::nahui_shift(probe.as_ptr(), probe.len(), room.as_mut_ptr(), room.len()) }
}

/// Writes both tables of the probe to the front of the room, in pairs, and answers the refusal: 0, 1, 2 or 4.
///
/// For each index the suffix entry, then the shift entry. The room needs two numbers for each byte of the probe;
/// further ones stay as they were.
///
/// ```
/// let mut room = [7; 9];
/// assert_eq!(nahuitepol::tables(b"abab", &mut room), 0);
/// assert_eq!(room, [0, 2, 2, 2, 0, 4, 4, 1, 7]);
/// ```
#[inline]
pub fn tables(probe: &[u8], room: &mut [u16]) -> u32 {
    // SAFETY: as in `suffix`.
    unsafe { raw::nahui_tables(probe.as_ptr(), probe.len(), room.as_mut_ptr(), room.len()) }
}

/// The occurrence table of the probe. The refusal is 0, 1 or 2.
///
/// For each byte: how far before the probe's last place it stands last, the last place itself left out; the
/// probe's length where it stands nowhere.
///
/// ```
/// let occurrences = nahuitepol::occurrence(b"aab");
/// assert_eq!(occurrences.table[usize::from(b'a')], 1);
/// assert_eq!(occurrences.table[usize::from(b'b')], 3);
/// ```
#[inline]
pub fn occurrence(probe: &[u8]) -> Occurrences {
    // SAFETY: pointer and count are those of a live slice.
    unsafe { raw::nahui_occurrence(probe.as_ptr(), probe.len()) }
}

/// Searches the stream for the probe by the plain Boyer-Moore scan. The refusal is 0, 1, 2, 3 or 4.
///
/// The tables room needs two numbers for each byte of the probe and ends with the pairs of [`tables`] in front.
/// The position room takes the first positions as far as it reaches; it may have any length.
///
/// ```
/// let (mut tables, mut positions) = ([7; 9], [9; 3]);
/// let answer = nahuitepol::plain(b"abab", b"ababab", &mut tables, &mut positions);
/// assert_eq!((answer.occurrences, answer.windows, answer.comparisons), (2, 2, 8));
/// assert_eq!(tables, [0, 2, 2, 2, 0, 4, 4, 1, 7]);
/// assert_eq!(positions, [0, 2, 9]);
/// ```
///
/// The answer also tells how close the scan came, by the windows that it visits. Here the probe does not occur, but
/// its last three bytes do; the first window that meets them is at byte 2:
///
/// ```
/// let answer = nahuitepol::plain(b"random", b"a wisdom, a freedom", &mut [0; 12], &mut []);
/// assert_eq!((answer.occurrences, answer.closest, answer.closest_at), (0, 3, 2));
/// ```
#[inline]
pub fn plain(probe: &[u8], stream: &[u8], tables: &mut [u16], positions: &mut [u32]) -> Searched {
    // SAFETY: pointers and counts are those of live slices, and the borrows keep the rooms apart from each other
    // and from the inputs.
    unsafe {
        raw::nahui_plain(
            probe.as_ptr(),
            probe.len(),
            stream.as_ptr(),
            stream.len(),
            tables.as_mut_ptr(),
            tables.len(),
            positions.as_mut_ptr(),
            positions.len(),
        )
    }
}

/// Searches the stream for the probe by the remembering scan. The refusal is 0, 1, 2, 3 or 4.
///
/// As [`plain`], with the same positions and the same answer but for the comparisons, which are never more. The
/// memory room needs an entry for each byte of the probe; these end at 0.
///
/// ```
/// let mut memory = [9; 5];
/// let answer = nahuitepol::remember(b"abab", b"ababab", &mut [0; 8], &mut memory, &mut []);
/// assert_eq!((answer.occurrences, answer.written, answer.comparisons), (2, 0, 6));
/// assert_eq!(memory, [0, 0, 0, 0, 9]);
///
/// // The probe almost occurs: only its first byte differs.
/// let answer = nahuitepol::remember(b"abab", b"bbab", &mut [0; 8], &mut memory, &mut []);
/// assert_eq!((answer.occurrences, answer.closest, answer.closest_at), (0, 3, 0));
/// ```
#[inline]
pub fn remember(
    probe: &[u8],
    stream: &[u8],
    tables: &mut [u16],
    memory: &mut [u32],
    positions: &mut [u32],
) -> Searched {
    // SAFETY: as in `plain`.
    unsafe {
        raw::nahui_remember(
            probe.as_ptr(),
            probe.len(),
            stream.as_ptr(),
            stream.len(),
            tables.as_mut_ptr(),
            tables.len(),
            memory.as_mut_ptr(),
            memory.len(),
            positions.as_mut_ptr(),
            positions.len(),
        )
    }
}

/// Tests a draw log and answers its number of replicates. The refusal is 0 or 10 to 17.
///
/// ```
/// assert_eq!(nahuitepol::log_test(b"too short").refusal, 10);
/// ```
#[inline]
pub fn log_test(log: &[u8]) -> Tested {
    // SAFETY: pointer and count are those of a live slice.
    unsafe { raw::nahui_log_test(log.as_ptr(), log.len()) }
}

/// Looks up the block of the replicate with this id. The refusal is 0 or 10 to 18.
///
/// ```
/// // One replicate with id 5 and an empty block: its directory entry, then directory start, count and mark.
/// let mut log = vec![5, 0, 0, 0, 0, 0, 0, 0, 0, 0, 0, 0];
/// log.extend([0, 0, 0, 0, 1, 0, 0, 0]);
/// log.extend(b"DRAW");
/// assert_eq!(nahuitepol::log_find(&log, 5).refusal, 0);
/// assert_eq!(nahuitepol::log_find(&log, 6).refusal, 18);
/// ```
#[inline]
pub fn log_find(log: &[u8], id: u32) -> Found {
    // SAFETY: pointer and count are those of a live slice.
    unsafe { raw::nahui_log_find(log.as_ptr(), log.len(), id) }
}

/// Writes a log to the front of the output room: the blocks, then the directory and the trailer that fit them.
/// The refusal is 0, 31, 13, 15, 17, 22, 11 or 23.
///
/// The bytes of all blocks are lent back to back; entry k has id `ids[k]` and the next `lengths[k]` bytes. The
/// room needs 12 bytes for each entry and 12 more besides the blocks; bytes beyond the log stay as they were.
///
/// ```
/// // Replicate 5 has one draw, replicate 6 has none.
/// let mut out = [9; 50];
/// let answer = nahuitepol::log_write(&[1, 2, 3, 4, 5, 6, 7, 8], &[5, 6], &[8, 0], &mut out);
/// assert_eq!((answer.refusal, answer.length), (0, 44));
/// assert_eq!(nahuitepol::log_test(&out[..44]).count, 2);
/// assert_eq!(nahuitepol::log_find(&out[..44], 5).length, 8);
/// assert_eq!(out[44..], [9; 6]);
/// ```
#[inline]
pub fn log_write(blocks: &[u8], ids: &[u32], lengths: &[u32], out: &mut [u8]) -> Written {
    // SAFETY: as in `plain`.
    unsafe {
        raw::nahui_log_write(
            blocks.as_ptr(),
            blocks.len(),
            ids.as_ptr(),
            ids.len(),
            lengths.as_ptr(),
            lengths.len(),
            out.as_mut_ptr(),
            out.len(),
        )
    }
}

/// Searches every block of the log for the first p draws (8p bytes) of every other one. What occurs inside a
/// draw, at an offset that is no multiple of 8, does not count. The refusal is 0, 10 to 17, 20, 4 or 5.
///
/// The tables room needs 16p numbers, the memory room 8p; these end at 0. The result room needs 4·c·(c − 1)
/// numbers for c replicates and takes four for each overlapping pair: owner, searched id, first offset in the
/// searched block in bytes, occurrences.
///
/// ```
/// // Replicate 1 has one draw; 2 has it from byte 3 on, inside a draw, and again as its third draw.
/// let mut log = [0; 68];
/// nahuitepol::log_write(b"abcdefgh012abcdefgh34567abcdefgh", &[1, 2], &[8, 24], &mut log);
/// let mut result = [0; 8];
/// let answer = nahuitepol::check(&log, 1, &mut [0; 16], &mut [0; 8], &mut result);
/// assert_eq!((answer.refusal, answer.pairs, answer.unprobed), (0, 1, 0));
/// assert_eq!(result[..4], [1, 2, 16, 1]);
/// ```
#[inline]
pub fn check(log: &[u8], p: u32, tables: &mut [u16], memory: &mut [u32], result: &mut [u32]) -> Checked {
    // SAFETY: as in `plain`.
    unsafe {
        raw::nahui_check(
            log.as_ptr(),
            log.len(),
            p,
            tables.as_mut_ptr(),
            tables.len(),
            memory.as_mut_ptr(),
            memory.len(),
            result.as_mut_ptr(),
            result.len(),
        )
    }
}
