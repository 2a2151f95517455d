//! Both scans, compared with a search at every position and with their own steps: positions, windows,
//! comparisons, how close they came, every room, and what the calls refuse.

use std::fmt::{self, Display, Formatter};

use nahuitepol::Searched;
use nahuitepol_tests::rooms::Room;
use nahuitepol_tests::scans::{self, positions, trailing_equal, Probe, Scan, Work, LONGEST_STREAM};
use nahuitepol_tests::words::{
    all_words, all_words_between, fibonacci, repeated, with_byte, worst_probe, Generator,
};

/// An answer in which every number is 0.
const ZEROS: Searched = Searched {
    refusal: 0,
    entry: 0,
    occurrences: 0,
    written: 0,
    windows: 0,
    comparisons: 0,
    closest: 0,
    closest_at: 0,
};

#[derive(Debug, Clone, Copy, PartialEq, Eq)]
enum Scanner {
    Plain,
    Remembering,
}

use Scanner::{Plain, Remembering};

const BOTH: [Scanner; 2] = [Plain, Remembering];

impl Scanner {
    /// The refusal that is due with work rooms of these lengths.
    fn refusal(self, m: usize, n: usize, work: Work) -> Option<u32> {
        match self {
            Plain => scans::refusal(m, n, work.tables, None),
            Remembering => scans::refusal(m, n, work.tables, Some(work.memory)),
        }
    }
}

/// The rooms of a search. The plain scan takes no memory room, and must leave it alone.
#[derive(Clone)]
struct Rooms {
    tables: Room<u16>,
    memory: Room,
    positions: Room,
}

impl Rooms {
    fn new(work: Work, positions: usize) -> Rooms {
        Rooms {
            tables: Room::new(work.tables),
            memory: Room::new(work.memory),
            positions: Room::new(positions),
        }
    }

    fn search(&mut self, scanner: Scanner, x: &[u8], y: &[u8]) -> Searched {
        let (tables, positions) = (self.tables.lend(), self.positions.lend());
        match scanner {
            Plain => nahuitepol::plain(x, y, tables, positions),
            Remembering => nahuitepol::remember(x, y, tables, self.memory.lend(), positions),
        }
    }

    fn assert_untouched(&self, case: Case) {
        assert!(self.tables.is_untouched(), "tables room: {case}");
        assert!(self.memory.is_untouched(), "memory room: {case}");
        assert!(self.positions.is_untouched(), "position room: {case}");
    }

    fn assert_after_success(&self, case: Case, probe: &Probe, written: &[u32]) {
        let zeros = vec![0; probe.length()];
        assert!(self.tables.holds_just(&probe.pairs()), "tables room: {case}");
        match case.scanner {
            Plain => assert!(self.memory.is_untouched(), "memory room: {case}"),
            Remembering => assert!(self.memory.holds_just(&zeros), "memory room: {case}"),
        }
        assert!(self.positions.holds_just(written), "position room: {case}");
    }
}

fn steps(scanner: Scanner, probe: &Probe, y: &[u8]) -> Scan {
    match scanner {
        Plain => probe.plain(y),
        Remembering => probe.remember(y),
    }
}

fn expected_answer(scan: &Scan, position_room: usize) -> Searched {
    let occurrences = scan.positions.len();
    Searched {
        refusal: 0,
        entry: 0,
        occurrences: occurrences as u64,
        written: occurrences.min(position_room) as u64,
        windows: scan.windows,
        comparisons: scan.comparisons,
        closest: scan.closest,
        closest_at: scan.closest_at,
    }
}

/// How close a search came, and where.
fn closeness(answer: Searched) -> (u64, u64) {
    (answer.closest, answer.closest_at)
}

/// A search, for messages.
struct Case<'a> {
    scanner: Scanner,
    x: &'a [u8],
    y: &'a [u8],
}

impl Display for Case<'_> {
    fn fmt(&self, out: &mut Formatter) -> fmt::Result {
        let Case { scanner, x, y } = self;
        write!(out, "{scanner:?} scan, probe of {} bytes, stream of {}", x.len(), y.len())?;
        if x.len() + y.len() <= 200 {
            write!(out, ": {x:?} in {y:?}")?;
        }
        Ok(())
    }
}

/// One search in these rooms, compared in its answer and in every entry of every room.
fn compare_in(mut rooms: Rooms, scanner: Scanner, probe: &Probe, y: &[u8]) -> Searched {
    let case = Case { scanner, x: &probe.x, y };
    let scan = steps(scanner, probe, y);
    let answer = rooms.search(scanner, &probe.x, y);
    assert_eq!(answer, expected_answer(&scan, rooms.positions.length()), "{case}");
    assert!(scan.positions == positions(&probe.x, y), "the steps miss a position: {case}");
    assert_closeness(&case, scan.positions.first().copied(), answer);
    rooms.assert_after_success(case, probe, &scan.positions[..answer.written as usize]);
    answer
}

/// Both searches, each with work rooms that are longer than needed by `slack`. Answers how close both came.
fn compare(probe: &Probe, y: &[u8], slack: usize, position_room: usize) -> (u64, u64) {
    let rooms = Rooms::new(Work::exact(probe.length()).longer(slack, slack), position_room);
    let plain = compare_in(rooms.clone(), Plain, probe, y);
    let remembering = compare_in(rooms, Remembering, probe, y);
    assert_demand_3(probe.length(), y.len(), plain, remembering);
    closeness(remembering)
}

fn compare_words(x: &[u8], y: &[u8]) -> (u64, u64) {
    compare(&Probe::new(x), y, 2, y.len())
}

/// Equal numbers but for the comparisons; of these never more than the plain scan, and at most 2n − m + 1.
fn assert_demand_3(m: usize, n: usize, plain: Searched, remembering: Searched) {
    assert_eq!(Searched { comparisons: plain.comparisons, ..remembering }, plain);
    assert!(remembering.comparisons <= plain.comparisons);
    if n >= m {
        assert!(remembering.comparisons <= (2 * n - m + 1) as u64);
    }
}

/// What has to hold of how close a scan came, whatever its windows are: with a hit it is m at the first one, without
/// it is less; and just so many bytes are equal there.
fn assert_closeness(case: &Case, first_hit: Option<u32>, answer: Searched) {
    let m = case.x.len();
    match first_hit {
        Some(first) => assert_eq!(closeness(answer), (m as u64, first.into()), "{case}"),
        None => assert!(answer.closest < m as u64, "{case}"),
    }
    if case.y.len() < m {
        assert_eq!(closeness(answer), (0, 0), "{case}");
    } else {
        let equal = trailing_equal(case.x, case.y, answer.closest_at as usize);
        assert_eq!(answer.closest, equal, "{case}");
    }
}

fn expect_refusal(scanner: Scanner, x: &[u8], y: &[u8], work: Work, number: u32) {
    let mut rooms = Rooms::new(work, 5);
    let answer = rooms.search(scanner, x, y);
    let case = Case { scanner, x, y };
    assert_eq!(answer, Searched { refusal: number, ..ZEROS }, "rooms {work:?}: {case}");
    rooms.assert_untouched(case);
}

/// A row: probe, stream; positions, windows, plain and remembering comparisons, how close both came and where.
fn figure(
    x: &[u8],
    y: &[u8],
    found: &[u32],
    windows: u64,
    plain: u64,
    remembering: u64,
    (closest, closest_at): (u64, u64),
) {
    for (scanner, comparisons) in [(Plain, plain), (Remembering, remembering)] {
        let mut rooms = Rooms::new(Work::exact(x.len()), found.len() + 1);
        let answer = rooms.search(scanner, x, y);
        let occurrences = found.len() as u64;
        let written = occurrences;
        let expected = Searched { occurrences, written, windows, comparisons, closest, closest_at, ..ZEROS };
        let case = Case { scanner, x, y };
        assert_eq!(answer, expected, "{case}");
        assert!(rooms.positions.holds_just(found), "{case}");
    }
    compare_words(x, y);
}

#[test]
fn the_six_rows_of_document_01() {
    figure(b"aaaa", b"aaaaaa", &[0, 1, 2], 3, 12, 6, (4, 0));
    figure(b"abab", b"ababab", &[0, 2], 2, 8, 6, (4, 0));
    figure(b"abab", b"abbabab", &[3], 3, 9, 7, (4, 3));
    figure(b"caaa", b"xcaaa", &[1], 2, 7, 5, (4, 1));
    figure(b"caaa", b"xbaaaa", &[], 2, 7, 5, (3, 2));
    figure(b"aab", b"aa", &[], 0, 0, 0, (0, 0));
}

#[test]
fn a_remembered_length_does_not_outlive_its_place() {
    figure(b"a", b"ab", &[0], 2, 2, 2, (1, 0));
}

#[test]
fn the_shorter_length_is_kept_after_the_fourth_rule() {
    figure(b"aaabaabaa", b"aaaaaabaaabaabaa", &[7], 4, 23, 14, (9, 7));
}

#[test]
fn a_remembered_length_below_the_suffix_entry_does_not_stop_the_window() {
    figure(b"aabaa", b"aaababaa", &[], 3, 8, 7, (4, 3));
}

#[test]
fn equal_bytes_searched_for_their_first_256() {
    let stream = vec![0; 61_440];
    let found: Vec<u32> = (0..61_185).collect();
    figure(&stream[..256], &stream, &found, 61_185, 15_663_360, 61_440, (256, 0));
}

#[test]
fn all_two_letter_probes_up_to_6_bytes_in_all_streams_up_to_11() {
    let streams: Vec<Vec<u8>> = all_words_between(2, 0, 11).collect();
    for x in all_words_between(2, 1, 6) {
        let probe = Probe::new(&x);
        for (number, y) in streams.iter().enumerate() {
            compare(&probe, y, number % 3, number % 5);
        }
    }
}

#[test]
fn all_three_letter_probes_up_to_4_bytes_in_all_streams_up_to_6() {
    let streams: Vec<Vec<u8>> = all_words_between(3, 0, 6).collect();
    for x in all_words_between(3, 1, 4) {
        let probe = Probe::new(&x);
        for (number, y) in streams.iter().enumerate() {
            compare(&probe, y, number % 3, number % 5);
        }
    }
}

#[test]
fn random_short_probes_in_random_streams() {
    let mut generator = Generator::new(10);
    for _ in 0..40_000 {
        let letters = generator.pick(&[2, 2, 3, 4, 256]);
        let m = generator.between(1, 12);
        let n = generator.between(0, 80);
        let x = generator.word(letters, m);
        compare_words(&x, &generator.word(letters, n));
    }
}

#[test]
fn probes_taken_out_of_the_stream() {
    let mut generator = Generator::new(11);
    for _ in 0..20_000 {
        let letters = generator.pick(&[2, 3, 4, 256]);
        let m = generator.between(1, 24);
        let n = generator.between(m, 150);
        let y = generator.word(letters, n);
        compare_words(&generator.stretch(&y, m), &y);
    }
}

#[test]
fn long_probes_in_longer_streams() {
    let mut generator = Generator::new(12);
    for _ in 0..400 {
        let letters = generator.pick(&[2, 3, 256]);
        let m = generator.between(100, 400);
        let n = generator.between(m, 6_000);
        let mut y = generator.word(letters, n);
        let x = generator.stretch(&y, m);
        let copy = generator.below(n - m + 1);
        y[copy..copy + m].copy_from_slice(&x);
        compare_words(&x, &y);
    }
}

#[test]
fn periodic_probes_in_periodic_streams() {
    let mut generator = Generator::new(13);
    for _ in 0..12_000 {
        let period = generator.between(1, 9);
        let word = generator.word(2, period);
        let m = generator.between(1, 40);
        let n = generator.between(0, 200);
        compare_words(&repeated(&word, m), &repeated(&word, n));
    }
}

#[test]
fn periodic_probes_in_periodic_streams_with_flaws() {
    let mut generator = Generator::new(14);
    for _ in 0..12_000 {
        let period = generator.between(1, 7);
        let word = generator.word(3, period);
        let m = generator.between(1, 30);
        let n = generator.between(m, 200);
        let flaws = generator.between(1, 4);
        let y = generator.flawed(&repeated(&word, n), 4, flaws);
        compare_words(&repeated(&word, m), &y);
    }
}

#[test]
fn equal_bytes_are_compared_m_times_a_window_plainly_and_once_each_with_memory() {
    for m in 1..=20 {
        for n in m..=60 {
            let stream = vec![b'a'; n];
            let found: Vec<u32> = (0..=(n - m) as u32).collect();
            let windows = found.len() as u64;
            figure(&stream[..m], &stream, &found, windows, windows * m as u64, n as u64, (m as u64, 0));
        }
    }
}

#[test]
fn fibonacci_probes_in_a_fibonacci_stream() {
    let stream = fibonacci(2_000);
    for m in 1..=160 {
        compare_words(&stream[..m], &stream);
        compare_words(&stream[m..2 * m], &stream);
    }
}

#[test]
fn the_worst_family_repeated() {
    for k in 1..=40 {
        let x = worst_probe(k);
        for length in [x.len(), x.len() + 1, 20 * x.len(), 20 * x.len() + k] {
            compare_words(&x, &repeated(&x, length));
        }
    }
}

#[test]
fn all_byte_values_are_told_apart() {
    for byte in 0..=255u8 {
        let others: Vec<u8> = (0..=255).filter(|&other| other != byte).collect();
        compare_words(&[byte], &others);
        compare_words(&[byte, byte], &[&others[..], &[byte, byte, byte]].concat());
        compare_words(&[byte.wrapping_add(1), byte], &[byte, byte.wrapping_add(1), byte, byte]);
    }
}

#[test]
fn a_stream_shorter_than_the_probe_leaves_tables_zeros_and_six_zero_numbers() {
    let mut generator = Generator::new(15);
    for m in [1, 2, 3, 17, 256, 4_096] {
        let probe = Probe::new(&generator.word(2, m));
        for n in [0, m / 2, m - 1] {
            for y in [&probe.x[..n], &probe.x[m - n..]] {
                for scanner in BOTH {
                    let rooms = Rooms::new(Work::exact(m).longer(1, 1), 3);
                    assert_eq!(compare_in(rooms, scanner, &probe, y), ZEROS, "m {m}, n {n}");
                }
            }
        }
    }
}

#[test]
fn a_stream_as_long_as_the_probe_has_one_window() {
    let mut generator = Generator::new(16);
    for m in [1, 2, 3, 17, 256, 4_096] {
        let probe = Probe::new(&generator.word(2, m));
        for scanner in BOTH {
            let answer = compare_in(Rooms::new(Work::exact(m), 1), scanner, &probe, &probe.x);
            assert_eq!((answer.occurrences, answer.windows, answer.comparisons), (1, 1, m as u64));
            assert_eq!(closeness(answer), (m as u64, 0));
        }
    }
}

#[test]
fn position_rooms_of_every_length_take_the_first_positions() {
    let probe = Probe::new(b"aba");
    let stream = repeated(b"ab", 21);
    assert_eq!(positions(&probe.x, &stream).len(), 10);
    for room in 0..=14 {
        compare(&probe, &stream, 0, room);
    }
}

#[test]
fn a_short_position_room_keeps_the_total_true() {
    let mut generator = Generator::new(17);
    for _ in 0..3_000 {
        let m = generator.between(1, 3);
        let n = generator.between(0, 60);
        let (x, y) = (generator.word(2, m), generator.word(2, n));
        let total = positions(&x, &y).len();
        for room in [0, 1, total.saturating_sub(1), total, total + 1, total + 9] {
            compare(&Probe::new(&x), &y, 0, room);
        }
    }
}

#[test]
fn what_the_rooms_held_before_does_not_matter() {
    let mut generator = Generator::new(18);
    for _ in 0..6_000 {
        let m = generator.between(1, 10);
        let n = generator.between(m, 60);
        let probe = Probe::new(&generator.word(2, m));
        let y = generator.word(2, n);
        let mut left_over = |length: usize, most: usize| -> Vec<u16> {
            (0..length).map(|_| generator.below(most + 1) as u16).collect()
        };
        let wide = |numbers: Vec<u16>| -> Vec<u32> { numbers.into_iter().map(u32::from).collect() };
        let rooms = Rooms {
            tables: Room::holding(&left_over(2 * m + 2, m)),
            memory: Room::holding(&wide(left_over(m + 2, m))),
            positions: Room::holding(&wide(left_over(m + 2, n))),
        };
        for scanner in BOTH {
            compare_in(rooms.clone(), scanner, &probe, &y);
        }
    }
}

#[test]
fn one_search_after_another_in_the_same_rooms() {
    let mut generator = Generator::new(19);
    let (mut tables, mut memory, mut found) = ([0; 24], [0; 12], [0; 64]);
    for _ in 0..20_000 {
        let m = generator.between(1, 12);
        let n = generator.between(0, 60);
        let (x, y) = (generator.word(2, m), generator.word(2, n));
        let answer = nahuitepol::remember(&x, &y, &mut tables, &mut memory, &mut found);
        let scan = Probe::new(&x).remember(&y);
        assert_eq!(answer, expected_answer(&scan, 64), "{}", Case { scanner: Remembering, x: &x, y: &y });
        assert_eq!(found[..scan.positions.len()], scan.positions);
    }
}

#[test]
fn the_inputs_stay_as_they_were() {
    let mut generator = Generator::new(20);
    for _ in 0..2_000 {
        let (x, y) = (generator.word(2, 5), generator.word(2, 40));
        let before = (x.clone(), y.clone());
        for scanner in BOTH {
            assert_eq!(Rooms::new(Work::exact(5), 40).search(scanner, &x, &y).refusal, 0);
            assert!((&x, &y) == (&before.0, &before.1), "the {scanner:?} scan wrote to an input");
        }
    }
}

#[test]
fn demand_3_on_the_answers_alone() {
    let mut generator = Generator::new(21);
    for _ in 0..400 {
        let letters = generator.pick(&[1, 2, 3, 4]);
        let m = generator.between(1, 600);
        let n = generator.between(0, 30_000);
        let period = generator.pick(&[7, 60, 500, 30_000]);
        let y = repeated(&generator.word(letters, period), n);
        let x = if n >= m { generator.stretch(&y, m) } else { generator.word(letters, m) };
        let mut plain_rooms = Rooms::new(Work::exact(m), n);
        let mut remembering_rooms = plain_rooms.clone();
        let plain = plain_rooms.search(Plain, &x, &y);
        let remembering = remembering_rooms.search(Remembering, &x, &y);
        assert_eq!((plain.refusal, remembering.refusal), (0, 0));
        assert_demand_3(m, n, plain, remembering);
        assert!(plain_rooms.positions.lend() == remembering_rooms.positions.lend(), "positions");
    }
}

/// The probe is a stretch of the stream, or one with a flaw.
#[test]
fn how_close_both_came_on_the_answers_alone() {
    let mut generator = Generator::new(27);
    for flaws in (0..2).cycle().take(400) {
        let letters = generator.pick(&[1, 2, 4, 256]);
        let n = generator.between(600, 30_000);
        let period = generator.pick(&[7, 60, 500, 30_000]);
        let y = repeated(&generator.word(letters, period), n);
        let m = generator.between(1, 600);
        let stretch = generator.stretch(&y, m);
        let x = generator.flawed(&stretch, 256, flaws);
        let first_hit = positions(&x, &y).first().copied();
        let [plain, remembering] = BOTH.map(|scanner| {
            let answer = Rooms::new(Work::exact(m), 0).search(scanner, &x, &y);
            assert_closeness(&Case { scanner, x: &x, y: &y }, first_hit, answer);
            answer
        });
        assert_demand_3(m, n, plain, remembering);
    }
}

#[test]
fn a_probe_of_4096_bytes_in_a_stream_of_16777216() {
    let mut generator = Generator::new(22);
    let mut y = generator.word(4, LONGEST_STREAM);
    let x = generator.stretch(&y, 4_096);
    for start in [0, 4_095, 1_000_000, LONGEST_STREAM - 4_096] {
        y[start..start + 4_096].copy_from_slice(&x);
    }
    compare(&Probe::new(&x), &y, 1, 10);
}

#[test]
fn a_periodic_probe_of_4096_bytes_in_a_periodic_stream() {
    let mut generator = Generator::new(23);
    let word = generator.word(256, 40);
    compare(&Probe::new(&repeated(&word, 4_096)), &repeated(&word, 300_000), 0, 10);
}

#[test]
fn equal_bytes_at_the_greatest_length_pass_2_to_the_32_comparisons() {
    let stream = vec![9; LONGEST_STREAM];
    let m = 257;
    let windows = (LONGEST_STREAM - m + 1) as u64;
    assert!(windows * m as u64 > 1 << 32);
    for (scanner, comparisons) in [(Plain, windows * m as u64), (Remembering, LONGEST_STREAM as u64)] {
        let mut rooms = Rooms::new(Work::exact(m), 3);
        let answer = rooms.search(scanner, &stream[..m], &stream);
        let closest = m as u64;
        let expected = Searched { occurrences: windows, written: 3, windows, comparisons, closest, ..ZEROS };
        assert_eq!(answer, expected, "{scanner:?} scan");
        assert!(rooms.positions.holds_just(&[0, 1, 2]), "{scanner:?} scan");
    }
}

#[test]
fn with_a_hit_the_first_one_is_the_closest() {
    assert_eq!(compare_words(b"abc", b"abcxxx"), (3, 0));
    assert_eq!(compare_words(b"abc", b"xxxabc"), (3, 3));
    assert_eq!(compare_words(b"abc", b"xbcabcabcx"), (3, 3));
    assert_eq!(compare_words(b"a", b"bab"), (1, 1));
    assert_eq!(compare_words(b"aaa", b"baaaa"), (3, 1));
}

#[test]
fn where_the_last_byte_is_never_equal_both_numbers_are_0() {
    assert_eq!(compare_words(b"a", b"bcd"), (0, 0));
    assert_eq!(compare_words(b"abc", b"xxxxxxx"), (0, 0));
    assert_eq!(compare_words(b"abc", b"ababababab"), (0, 0));
}

#[test]
fn the_first_of_several_windows_that_come_closest_counts() {
    for (x, y, closest, windows) in [
        (&b"aba"[..], &b"abbabba"[..], 2, &[1, 4][..]),
        (b"abab", b"abbabbabbab", 3, &[1, 4, 7]),
        (b"random", b"a wisdom, a freedom", 3, &[2, 13]),
        (b"baa", b"aaaaaaaa", 2, &[0, 3]),
    ] {
        assert!(windows.iter().all(|&j| trailing_equal(x, y, j) == closest));
        assert_eq!(compare_words(x, y), (closest, windows[0] as u64));
    }
}

/// By the lengths that the windows leave in the memory the answers would be (2, 0), (3, 0), (4, 4) and (3, 6).
#[test]
fn the_number_is_the_true_one_where_the_closest_window_stops_without_a_comparison() {
    figure(b"baaa", b"acaaaa", &[], 2, 7, 5, (3, 2));
    figure(b"baaaa", b"acaaaaa", &[], 2, 9, 6, (4, 2));
    figure(b"babaaa", b"aaabaabaaa", &[], 3, 10, 8, (5, 4));
    figure(b"baaa", b"acaaaacaaa", &[], 3, 11, 9, (3, 2));
}

/// In each stream the offset 1 is passed over. In the first two more bytes are equal there than the scans answer; in
/// the others as many, and before the window that counts.
#[test]
fn an_offset_that_is_passed_over_does_not_count() {
    for (x, y, equal, expected) in [
        (&b"aa"[..], &b"aba"[..], 1, (0, 0)),
        (b"aaa", b"abaa", 2, (1, 0)),
        (b"ba", b"acaa", 1, (1, 2)),
        (b"aa", b"ababba", 1, (1, 4)),
    ] {
        assert_eq!(trailing_equal(x, y, 1), equal);
        assert_eq!(compare_words(x, y), expected);
    }
}

#[test]
fn a_stream_as_long_as_the_probe_is_as_close_as_their_ends_are_equal() {
    for m in 1..=6 {
        for x in all_words(2, m) {
            for y in all_words(2, m) {
                assert_eq!(compare_words(&x, &y), (trailing_equal(&x, &y, 0), 0));
            }
        }
    }
}

#[test]
fn equal_bytes_searched_for_themselves_with_a_flaw_at_every_place() {
    for m in 1..=9 {
        for n in m..=30 {
            for flaw in 0..m {
                let x = with_byte(&vec![b'a'; m], flaw, b'b');
                assert_eq!(compare_words(&x, &vec![b'a'; n]), ((m - 1 - flaw) as u64, 0));
            }
        }
    }
}

/// The probe occurs before the flaw or behind it, or else the one window has the flaw.
#[test]
fn equal_bytes_with_a_flaw_at_every_place_searched_for_themselves() {
    for m in 1..=9 {
        for n in m..=30 {
            for flaw in 0..n {
                let y = with_byte(&vec![b'a'; n], flaw, b'b');
                let (closest, closest_at) = if flaw >= m {
                    (m, 0)
                } else if flaw + 1 + m <= n {
                    (m, flaw + 1)
                } else {
                    (m - 1 - flaw, 0)
                };
                assert_eq!(compare_words(&vec![b'a'; m], &y), (closest as u64, closest_at as u64));
            }
        }
    }
}

#[test]
fn equal_bytes_with_a_flaw_at_every_place_in_both() {
    for m in 1..=7 {
        for place in 0..m {
            let probe = Probe::new(&with_byte(&vec![b'a'; m], place, b'b'));
            for n in m..=20 {
                for flaw in 0..n {
                    for byte in [b'b', b'c'] {
                        compare(&probe, &with_byte(&vec![b'a'; n], flaw, byte), 0, n);
                    }
                }
            }
        }
    }
}

#[test]
fn flawed_periodic_probes_in_flawed_periodic_streams() {
    let mut generator = Generator::new(28);
    for flaws in (0..5).cycle().take(10_000) {
        let period = generator.between(1, 7);
        let word = generator.word(3, period);
        let m = generator.between(1, 30);
        let n = generator.between(m, 200);
        let x = generator.flawed(&repeated(&word, m), 4, 1);
        compare_words(&x, &generator.flawed(&repeated(&word, n), 4, flaws));
    }
}

#[test]
fn noise_searched_for_noise() {
    let mut generator = Generator::new(29);
    for letters in [2, 4, 256].repeat(400) {
        let m = generator.between(1, 60);
        let n = generator.between(m, 1_500);
        let x = generator.word(letters, m);
        compare_words(&x, &generator.word(letters, n));
    }
}

#[test]
fn probes_that_almost_occur() {
    let mut generator = Generator::new(30);
    for letters in [2, 4, 256].repeat(300) {
        let m = generator.between(1, 20);
        let n = generator.between(m, 120);
        let y = generator.word(letters, n);
        let x = generator.stretch(&y, m);
        for changed in 0..m {
            compare_words(&with_byte(&x, changed, x[changed] ^ 1), &y);
        }
    }
}

/// No two bytes of the stream are equal; so only at `start` can the probe's last byte be met. Windows come m apart up
/// to the one that ends in the stretch from `start` on, at index `met` of the probe. That one moves on to `start`, but
/// where the byte it meets is the changed one, it passes over it.
#[test]
fn probes_that_almost_occur_among_bytes_that_all_differ() {
    let y: Vec<u8> = (1..=40).collect();
    for m in 1..=12 {
        for start in 0..=y.len() - m {
            let met = m - 1 - start % m;
            for changed in 0..m {
                let x = with_byte(&y[start..start + m], changed, 0);
                let nothing_equal = changed == met || changed == m - 1;
                let (closest, closest_at) = if nothing_equal { (0, 0) } else { (m - 1 - changed, start) };
                assert_eq!(compare_words(&x, &y), (closest as u64, closest_at as u64));
            }
        }
    }
}

#[test]
fn a_probe_of_4096_bytes_that_almost_occurs_in_a_stream_of_16777216() {
    let mut generator = Generator::new(31);
    let y = generator.word(4, LONGEST_STREAM);
    let x = &y[9_000_000..9_004_096];
    for (changed, expected) in
        [(0, (4_095, 9_000_000)), (2_048, (2_047, 9_000_000)), (4_095, (11, 7_601_846))]
    {
        let probe = Probe::new(&with_byte(x, changed, x[changed] ^ 1));
        assert_eq!(compare(&probe, &y, 0, 1), expected, "changed at {changed}");
    }
}

#[test]
fn equal_bytes_at_the_greatest_length_searched_for_4096_with_a_flaw() {
    let y = vec![9; LONGEST_STREAM];
    for flaw in [0, 2_048, 4_095] {
        let x = with_byte(&y[..4_096], flaw, 8);
        for scanner in BOTH {
            let answer = Rooms::new(Work::exact(4_096), 1).search(scanner, &x, &y);
            assert_eq!(closeness(answer), (4_095 - flaw as u64, 0), "{scanner:?} scan, flaw at {flaw}");
        }
    }
}

/// The stream's bytes before the last window are not in the probe; so windows come m apart.
#[test]
fn the_last_window_of_the_longest_stream_comes_closest() {
    let x = repeated(&[1, 2, 3, 4, 5, 6, 7], 4_096);
    let last = LONGEST_STREAM - 4_096;
    let mut y = vec![0; LONGEST_STREAM];
    y[last + 1..].copy_from_slice(&x[1..]);
    for scanner in BOTH {
        let answer = Rooms::new(Work::exact(4_096), 1).search(scanner, &x, &y);
        assert_eq!(closeness(answer), (4_095, last as u64), "{scanner:?} scan");
    }
}

#[test]
fn an_empty_probe_is_refused_1() {
    for scanner in BOTH {
        for y in [&b""[..], b"abc"] {
            expect_refusal(scanner, b"", y, Work::exact(0), 1);
            expect_refusal(scanner, b"", y, Work::exact(4), 1);
        }
    }
}

#[test]
fn a_probe_over_4096_bytes_is_refused_2() {
    for scanner in BOTH {
        for m in [4_097, 8_192, 70_000] {
            let x = vec![1; m];
            expect_refusal(scanner, &x, b"", Work::exact(m), 2);
            expect_refusal(scanner, &x, &x, Work::exact(m).shorter(1, 1), 2);
        }
    }
}

#[test]
fn a_stream_over_16777216_bytes_is_refused_3() {
    for n in [LONGEST_STREAM + 1, LONGEST_STREAM + 4_096] {
        let y = vec![0; n];
        for scanner in BOTH {
            expect_refusal(scanner, b"abc", &y, Work::exact(3), 3);
            expect_refusal(scanner, b"abc", &y, Work::exact(3).shorter(1, 1), 3);
        }
    }
}

#[test]
fn each_work_room_short_by_one_is_refused_4_and_all_rooms_left_alone() {
    let mut generator = Generator::new(24);
    for m in [1, 2, 3, 16, 255, 4_095, 4_096] {
        let x = generator.word(2, m);
        let exact = Work::exact(m);
        for scanner in BOTH {
            for y in [&x[..0], &x[..]] {
                expect_refusal(scanner, &x, y, exact.shorter(1, 0), 4);
                expect_refusal(scanner, &x, y, exact.shorter(m, 0), 4);
                expect_refusal(scanner, &x, y, exact.shorter(1, 0).longer(0, 5), 4);
                expect_refusal(scanner, &x, y, exact.shorter(1, 1), 4);
                expect_refusal(scanner, &x, y, exact.shorter(2 * m, m), 4);
            }
        }
        for y in [&x[..0], &x[..]] {
            expect_refusal(Remembering, &x, y, exact.shorter(0, 1), 4);
            expect_refusal(Remembering, &x, y, exact.shorter(0, m).longer(5, 0), 4);
        }
    }
}

#[test]
fn the_plain_scan_asks_for_no_memory_room() {
    let probe = Probe::new(b"abab");
    compare_in(Rooms::new(Work { tables: 8, memory: 0 }, 2), Plain, &probe, b"ababab");
}

#[test]
fn work_rooms_exact_and_longer_are_accepted() {
    let mut generator = Generator::new(25);
    for m in [1, 2, 5, 64] {
        let probe = Probe::new(&generator.word(2, m));
        let y = generator.word(2, 200);
        for (tables, memory) in [(0, 0), (1, 0), (0, 1), (2, 1), (9, 300), (300, 9)] {
            let work = Work::exact(m).longer(tables, memory);
            for scanner in BOTH {
                compare_in(Rooms::new(work, 200), scanner, &probe, &y);
            }
        }
    }
}

#[test]
fn work_rooms_of_every_length() {
    for m in 1..=6 {
        let probe = Probe::new(&fibonacci(m));
        for y in [&probe.x[1..], &fibonacci(20)[..]] {
            for tables in 0..=2 * m + 3 {
                for memory in 0..=m + 2 {
                    let work = Work { tables, memory };
                    for scanner in BOTH {
                        match scanner.refusal(m, y.len(), work) {
                            Some(number) => expect_refusal(scanner, &probe.x, y, work, number),
                            None => {
                                compare_in(Rooms::new(work, 9), scanner, &probe, y);
                            }
                        }
                    }
                }
            }
        }
    }
}

#[test]
fn a_search_leaves_the_pairs_of_the_table_call() {
    let mut generator = Generator::new(26);
    for m in [1, 2, 7, 256, 4_095, 4_096] {
        let x = generator.word(2, m);
        let mut pairs = vec![0; 2 * m];
        assert_eq!(nahuitepol::tables(&x, &mut pairs), 0);
        for n in [0, m - 1, m, 3 * m] {
            let y = generator.word(2, n);
            for scanner in BOTH {
                let mut rooms = Rooms::new(Work::exact(m).longer(3, 0), 2);
                assert_eq!(rooms.search(scanner, &x, &y).refusal, 0);
                assert!(rooms.tables.holds_just(&pairs), "{}", Case { scanner, x: &x, y: &y });
            }
        }
    }
}

#[test]
fn the_lowest_number_is_given_where_several_causes_hold() {
    let too_long = vec![0; LONGEST_STREAM + 1];
    let streams = [&b""[..], b"aabaab", &too_long];
    for m in [0, 1, 3, 4_096, 4_097] {
        let x = repeated(b"aab", m);
        for y in streams {
            for (tables, memory) in shortages() {
                let work = Work::exact(m).longer(1, 1).shorter(tables, memory);
                for scanner in BOTH {
                    match scanner.refusal(m, y.len(), work) {
                        Some(number) => expect_refusal(scanner, &x, y, work, number),
                        None => {
                            let answer = Rooms::new(work, 5).search(scanner, &x, y);
                            assert_eq!(answer.refusal, 0, "{}", Case { scanner, x: &x, y });
                        }
                    }
                }
            }
        }
    }
}

/// How much two rooms fall short of one number more than needed: each by 0, by 1 or by 2.
fn shortages() -> impl Iterator<Item = (usize, usize)> {
    (0..9).map(|code| (code % 3, code / 3))
}
