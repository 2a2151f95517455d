//! SUFFIXES, figure 9 of source document 001, line by line as it is printed: g falls to −1, and f has no value before
//! line 7. To read f or an entry that has no value yet would stop the test.

/// The suffix table of x, and how many times line 8 compares two bytes.
pub fn suffixes(x: &[u8]) -> (Vec<u32>, usize) {
    let m = x.len() as isize;
    let mut suf = vec![None; x.len()];
    let mut f = None;
    let mut comparisons = 0;
    // Lines 1 to 3.
    suf[x.len() - 1] = Some(m);
    let mut g = m - 1;
    for i in (0..=m - 2).rev() {
        // Lines 4 and 5.
        if i > g && entry(&suf, i + m - 1 - value(f)) < i - g {
            suf[i as usize] = Some(entry(&suf, i + m - 1 - value(f)));
        } else {
            // Lines 6 to 10.
            g = g.min(i);
            f = Some(i);
            while g >= 0 && equal(x, g, g + m - 1 - value(f), &mut comparisons) {
                g -= 1;
            }
            suf[i as usize] = Some(value(f) - g);
        }
    }
    // Line 11.
    let table = (0..m).map(|i| entry(&suf, i) as u32).collect();
    (table, comparisons)
}

fn entry(suf: &[Option<isize>], i: isize) -> isize {
    value(suf[i as usize])
}

fn value(variable: Option<isize>) -> isize {
    variable.expect("what is read was set before")
}

fn equal(x: &[u8], a: isize, b: isize, comparisons: &mut usize) -> bool {
    *comparisons += 1;
    x[a as usize] == x[b as usize]
}
