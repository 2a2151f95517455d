//! Times whole searches, tables included, of streams of 61,440 bytes for their own first 256: the library's two scans
//! and a plain Rust scan by the same rules, one after another in each round. Then the suffix table of their first 4,096
//! bytes: the library's call and the simple filling in Rust. Rooms are lent once, and the first rounds are not counted.

mod plain;

use plain::{Counts, Rooms};
use std::hint::black_box;
use std::time::Instant;

const STREAM: usize = 61_440;
const PROBE: usize = 256;
const LONGEST: usize = 4_096;
const WARM: usize = 10;
const ROUNDS: usize = 201;

/// splitmix64: the sound generator.
struct Generator(u64);

impl Generator {
    fn number(&mut self) -> u64 {
        self.0 = self.0.wrapping_add(0x9E37_79B9_7F4A_7C15);
        let mut z = self.0;
        z = (z ^ (z >> 30)).wrapping_mul(0xBF58_476D_1CE4_E5B9);
        z = (z ^ (z >> 27)).wrapping_mul(0x94D0_49BB_1331_11EB);
        z ^ (z >> 31)
    }

    fn bytes(&mut self) -> Vec<u8> {
        (0..STREAM / 8).flat_map(|_| self.number().to_le_bytes()).collect()
    }
}

fn streams() -> Vec<(&'static str, Vec<u8>)> {
    let sound = Generator(2003).bytes();
    let repeated = |period: usize| (0..STREAM).map(|k| sound[k % period]).collect();
    vec![
        ("equal bytes", vec![0; STREAM]),
        ("sound generator", sound.clone()),
        ("period 40", repeated(40)),
        ("period 320", repeated(320)),
        ("two letters", Generator(2026).bytes().iter().map(|byte| byte & 1).collect()),
    ]
}

struct Times(Vec<f64>);

impl Times {
    fn take<T>(&mut self, call: impl FnOnce() -> T) -> T {
        let start = Instant::now();
        let answer = black_box(call());
        self.0.push(start.elapsed().as_secs_f64() * 1e6);
        answer
    }

    /// The least and the median, in microseconds.
    fn told(&self) -> (f64, f64) {
        let mut times = self.0[WARM..].to_vec();
        times.sort_by(f64::total_cmp);
        (times[0], times[times.len() / 2])
    }
}

fn counts(answer: nahuitepol::Searched) -> Counts {
    Counts { occurrences: answer.occurrences, windows: answer.windows, comparisons: answer.comparisons }
}

fn main() {
    searches();
    fillings();
}

fn searches() {
    println!("microseconds, least and median of {ROUNDS}; each ratio is of medians, to plain Rust");
    for (name, y) in streams() {
        let x = y[..PROBE].to_vec();
        let mut rooms = Rooms { suffix: vec![0; PROBE], shift: vec![0; PROBE], positions: vec![0; STREAM] };
        let (mut tables, mut memory) = (vec![0; 2 * PROBE], vec![0; PROBE]);
        let (mut rust, mut plain, mut remember) = (Times(vec![]), Times(vec![]), Times(vec![]));
        let mut last = None;
        for _ in 0..WARM + ROUNDS {
            let a = rust.take(|| plain::search(&x, &y, &mut rooms));
            let b = plain.take(|| nahuitepol::plain(&x, &y, &mut tables, &mut rooms.positions));
            let c = remember.take(|| {
                nahuitepol::remember(&x, &y, &mut tables, &mut memory, &mut rooms.positions)
            });
            assert_eq!(a, counts(b), "the two plain scans differ");
            last = Some((a, counts(c)));
        }
        let (by_plain, by_memory) = last.expect("there are rounds");
        let (rust, plain, remember) = (rust.told(), plain.told(), remember.told());
        println!(
            "{name:16} Rust {:8.1} {:8.1}  plain {:8.1} {:8.1} ({:.2})  remember {:8.1} {:8.1} ({:.3})",
            rust.0, rust.1, plain.0, plain.1, plain.1 / rust.1, remember.0, remember.1, remember.1 / rust.1
        );
        println!(
            "{:16} occurrences {}, windows {}, comparisons plain {}, remembering {}",
            "", by_plain.occurrences, by_plain.windows, by_plain.comparisons, by_memory.comparisons
        );
    }
}

fn fillings() {
    println!("suffix table of {LONGEST} bytes; each ratio is of medians, simple to library");
    for (name, y) in streams() {
        let x = &y[..LONGEST];
        let (mut simple, mut library) = (Times(vec![]), Times(vec![]));
        let (mut rust, mut room) = (vec![0; LONGEST], vec![0; LONGEST]);
        for _ in 0..WARM + ROUNDS {
            simple.take(|| plain::fill_suffix(x, &mut rust));
            assert_eq!(library.take(|| nahuitepol::suffix(x, &mut room)), 0);
            assert!(rust == room, "the two fillings differ");
        }
        let (simple, library) = (simple.told(), library.told());
        println!(
            "{name:16} simple {:8.1} {:8.1}  library {:8.1} {:8.1}  ({:.2})",
            simple.0, simple.1, library.0, library.1, simple.1 / library.1
        );
    }
}
