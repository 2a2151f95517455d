//! Search for a probe x of m bytes in a stream y of n bytes: at every position, and by the steps of both scans.

use crate::tables::{self, LONGEST_PROBE};

/// The most bytes that a stream may have.
pub const LONGEST_STREAM: usize = 16_777_216;

/// The lengths of the work rooms: the room of both tables, and the memory room, which the plain scan does not take.
#[derive(Debug, Clone, Copy, PartialEq, Eq)]
pub struct Work {
    pub tables: usize,
    pub memory: usize,
}

impl Work {
    /// What a probe of m bytes needs.
    pub fn exact(m: usize) -> Work {
        Work { tables: 2 * m, memory: m }
    }

    /// Both rooms longer by so many numbers.
    pub fn longer(self, tables: usize, memory: usize) -> Work {
        Work { tables: self.tables + tables, memory: self.memory + memory }
    }

    /// Both rooms shorter by so many numbers, as far as they have them.
    pub fn shorter(self, tables: usize, memory: usize) -> Work {
        Work { tables: self.tables.saturating_sub(tables), memory: self.memory.saturating_sub(memory) }
    }
}

/// The refusal of a search, given the lengths of its work rooms, if there is one. The plain scan has no memory room.
pub fn refusal(m: usize, n: usize, tables_room: usize, memory_room: Option<usize>) -> Option<u32> {
    if m == 0 {
        Some(1)
    } else if m > LONGEST_PROBE {
        Some(2)
    } else if n > LONGEST_STREAM {
        Some(3)
    } else if tables_room < 2 * m || matches!(memory_room, Some(room) if room < m) {
        Some(4)
    } else {
        None
    }
}

/// A probe with its three tables.
pub struct Probe {
    pub x: Vec<u8>,
    pub suffix: Vec<u32>,
    pub shift: Vec<u32>,
    pub occurrence: [u32; 256],
}

/// What a scan did: where it found the probe, how many windows it visited, how often it compared, and how close it
/// came: the most trailing bytes that were equal at a window, and where the first such window starts.
#[derive(Debug, Clone, PartialEq, Eq, Default)]
pub struct Scan {
    pub positions: Vec<u32>,
    pub windows: u64,
    pub comparisons: u64,
    pub closest: u64,
    pub closest_at: u64,
}

/// How a window ended.
#[derive(Clone, Copy)]
enum End {
    Matched,
    StoppedAt(usize),
}

/// Every position of x in y, by a look at each.
pub fn positions(x: &[u8], y: &[u8]) -> Vec<u32> {
    let found = y.windows(x.len()).enumerate().filter(|(_, window)| *window == x);
    found.map(|(j, _)| position(j)).collect()
}

/// How many trailing bytes of x equal y at j, by a look at them that counts for no scan.
pub fn trailing_equal(x: &[u8], y: &[u8], j: usize) -> u64 {
    tables::longest_common_suffix(x, &y[j..j + x.len()]) as u64
}

impl Probe {
    pub fn new(x: &[u8]) -> Probe {
        Probe {
            x: x.to_vec(),
            suffix: tables::suffix_table(x),
            shift: tables::shift_table(x),
            occurrence: tables::occurrence_table(x),
        }
    }

    /// The suffix and the shift table as a search leaves them.
    pub fn pairs(&self) -> Vec<u16> {
        tables::pairs(&self.suffix, &self.shift)
    }

    /// The number of its bytes, m.
    pub fn length(&self) -> usize {
        self.x.len()
    }

    /// The plain scan over y.
    pub fn plain(&self, y: &[u8]) -> Scan {
        let mut scan = Scan::default();
        let mut j = 0;
        while j + self.length() <= y.len() {
            let end = self.plain_window(y, j, &mut scan.comparisons);
            scan.leave_window(j, end);
            scan.note_closeness(j, trailing_equal(&self.x, y, j));
            j += self.movement(y, j, end);
        }
        scan
    }

    /// The remembering scan over y. R has a place for each position of y, and none is ever forgotten.
    pub fn remember(&self, y: &[u8]) -> Scan {
        let mut scan = Scan::default();
        let mut remembered = vec![0; y.len()];
        let mut j = 0;
        while j + self.length() <= y.len() {
            let (end, kept) = self.remembering_window(y, j, &remembered, &mut scan.comparisons);
            scan.leave_window(j, end);
            scan.note_closeness(j, trailing_equal(&self.x, y, j));
            remembered[j + self.length() - 1] = kept;
            j += self.movement(y, j, end);
        }
        scan
    }

    fn plain_window(&self, y: &[u8], j: usize, comparisons: &mut u64) -> End {
        for i in (0..self.length()).rev() {
            *comparisons += 1;
            if y[j + i] != self.x[i] {
                return End::StoppedAt(i);
            }
        }
        End::Matched
    }

    /// How window j ends, and the number that it leaves at its last text position.
    fn remembering_window(
        &self,
        y: &[u8],
        j: usize,
        remembered: &[usize],
        comparisons: &mut u64,
    ) -> (End, usize) {
        let m = self.length();
        let mut unseen = m; // the index i is unseen − 1; it falls below 0 when nothing is unseen
        while unseen > 0 {
            let i = unseen - 1;
            let h = j + i;
            let s = self.suffix[i] as usize;
            match remembered[h] {
                0 => {
                    *comparisons += 1;
                    if y[h] != self.x[i] {
                        return (End::StoppedAt(i), m - 1 - i);
                    }
                    unseen -= 1;
                }
                r if r <= s => unseen -= r,
                _ if s == i + 1 => return (End::Matched, m),
                _ => return (End::StoppedAt(i - s), m - 1 - i),
            }
        }
        (End::Matched, m)
    }

    /// How far the probe moves from window j.
    fn movement(&self, y: &[u8], j: usize, end: End) -> usize {
        match end {
            End::Matched => self.shift[0] as usize,
            End::StoppedAt(i) => {
                let by_shift = i64::from(self.shift[i]);
                let behind = (self.length() - 1 - i) as i64;
                let by_occurrence = i64::from(self.occurrence[usize::from(y[j + i])]) - behind;
                by_shift.max(by_occurrence) as usize
            }
        }
    }
}

impl Scan {
    fn leave_window(&mut self, j: usize, end: End) {
        self.windows += 1;
        if let End::Matched = end {
            self.positions.push(position(j));
        }
    }

    /// The first window is at 0; so where no window has an equal byte, both numbers stay 0.
    fn note_closeness(&mut self, j: usize, equal: u64) {
        if equal > self.closest {
            self.closest = equal;
            self.closest_at = j as u64;
        }
    }
}

fn position(j: usize) -> u32 {
    j.try_into().expect("a position in a stream has 32 bits")
}
