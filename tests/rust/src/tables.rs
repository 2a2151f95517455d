//! The tables of a probe x of m bytes, each entry found by its definition.

/// The most bytes that a probe may have.
pub const LONGEST_PROBE: usize = 4_096;

/// The refusal of a table call for a probe of m bytes and a room that needs this many numbers for each of them,
/// if there is one.
pub fn refusal(m: usize, room: usize, per_byte: usize) -> Option<u32> {
    if m == 0 {
        Some(1)
    } else if m > LONGEST_PROBE {
        Some(2)
    } else if room < per_byte * m {
        Some(4)
    } else {
        None
    }
}

/// Entry i: the length of the longest common suffix of x[0..i] and x.
pub fn suffix_table(x: &[u8]) -> Vec<u32> {
    (0..x.len()).map(|i| number(longest_common_suffix(&x[..=i], x))).collect()
}

/// Entry i: the smallest s from 1 to m that fits a stop at i.
pub fn shift_table(x: &[u8]) -> Vec<u32> {
    let smallest = |i| (1..=x.len()).find(|&s| shift_fits(x, i, s)).expect("s = m always fits");
    (0..x.len()).map(|i| number(smallest(i))).collect()
}

/// Both tables in pairs: for each index the suffix entry, then the shift entry.
pub fn pairs(suffix: &[u32], shift: &[u32]) -> Vec<u16> {
    suffix.iter().zip(shift).flat_map(|(&a, &b)| [a, b]).map(entry_of_16_bits).collect()
}

/// The suffix table and the shift table that these pairs stand for.
pub fn taken_apart(pairs: &[u16]) -> (Vec<u32>, Vec<u32>) {
    let entries = |first: usize| pairs.iter().skip(first).step_by(2).copied().map(u32::from).collect();
    (entries(0), entries(1))
}

/// Entry a: the smallest k from 1 to m − 1 with x[m−1−k] = a; m where there is none.
pub fn occurrence_table(x: &[u8]) -> [u32; 256] {
    let m = x.len();
    let mut table = [0; 256];
    for (a, entry) in table.iter_mut().enumerate() {
        let smallest = (1..m).find(|&k| usize::from(x[m - 1 - k]) == a);
        *entry = number(smallest.unwrap_or(m));
    }
    table
}

/// The smallest q from 1 to m such that bytes that stand q places apart in x are equal.
pub fn period(x: &[u8]) -> u32 {
    let m = x.len();
    let smallest = (1..=m).find(|&q| (q..m).all(|t| x[t] == x[t - q]));
    number(smallest.expect("m is a period"))
}

/// The length of the longest word that both end in.
pub fn longest_common_suffix(u: &[u8], v: &[u8]) -> usize {
    u.iter().rev().zip(v.iter().rev()).take_while(|(a, b)| a == b).count()
}

fn shift_fits(x: &[u8], i: usize, s: usize) -> bool {
    let m = x.len();
    if s <= i {
        x[i - s] != x[i] && x[i - s + 1..m - s] == x[i + 1..]
    } else {
        x.ends_with(&x[..m - s])
    }
}

fn entry_of_16_bits(entry: u32) -> u16 {
    entry.try_into().expect("an entry is at most 4,096")
}

fn number(count: usize) -> u32 {
    count.try_into().expect("a count of a probe's bytes has 32 bits")
}
