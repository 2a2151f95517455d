//! A plain Boyer-Moore scan in ordinary Rust, by the rules of document 01: what the library is measured against.
//! Whole calls: the tables are filled anew each time, the shift table by figure 11 of source 001, as in the library, and
//! the suffix table entry by entry, where the library has figure 9. Rooms are lent once.

pub struct Rooms {
    pub suffix: Vec<u32>,
    pub shift: Vec<u32>,
    pub positions: Vec<u32>,
}

#[derive(Debug, Clone, Copy, PartialEq, Eq)]
pub struct Counts {
    pub occurrences: u64,
    pub windows: u64,
    pub comparisons: u64,
}

/// The simple filling: each entry by itself, compared from both ends downward.
pub fn fill_suffix(x: &[u8], suffix: &mut [u32]) {
    let last = x.len() - 1;
    for i in 0..x.len() {
        let mut k = 0;
        while k <= i && x[i - k] == x[last - k] {
            k += 1;
        }
        suffix[i] = k as u32;
    }
}

fn fill_shift(suffix: &[u32], shift: &mut [u32]) {
    let m = suffix.len();
    let mut j = 0;
    for s in 1..=m {
        if s == m || suffix[m - 1 - s] as usize == m - s {
            while j < s {
                shift[j] = s as u32;
                j += 1;
            }
        }
    }
    for i in 0..m - 1 {
        shift[m - 1 - suffix[i] as usize] = (m - 1 - i) as u32;
    }
}

fn occurrence(x: &[u8]) -> [u32; 256] {
    let last = x.len() - 1;
    let mut table = [x.len() as u32; 256];
    for (j, &byte) in x[..last].iter().enumerate() {
        table[byte as usize] = (last - j) as u32;
    }
    table
}

pub fn search(x: &[u8], y: &[u8], rooms: &mut Rooms) -> Counts {
    let (m, n) = (x.len(), y.len());
    fill_suffix(x, &mut rooms.suffix[..m]);
    fill_shift(&rooms.suffix[..m], &mut rooms.shift[..m]);
    let occ = occurrence(x);
    let shift = &rooms.shift[..m];
    let mut counts = Counts { occurrences: 0, windows: 0, comparisons: 0 };
    let mut j = 0;
    while j + m <= n {
        counts.windows += 1;
        let window = &y[j..j + m];
        let mut left = m;
        while left > 0 {
            counts.comparisons += 1;
            if window[left - 1] != x[left - 1] {
                break;
            }
            left -= 1;
        }
        if left == 0 {
            if let Some(place) = rooms.positions.get_mut(counts.occurrences as usize) {
                *place = j as u32;
            }
            counts.occurrences += 1;
            j += shift[0] as usize;
        } else {
            let i = left - 1;
            let by_byte = occ[window[i] as usize] as usize;
            j += (shift[i] as usize).max(by_byte.saturating_sub(m - left));
        }
    }
    counts
}
