//! The three tables of a probe, compared with their definitions, and what the table calls refuse.

use std::fmt::Debug;

use nahuitepol_tests::figure9;
use nahuitepol_tests::rooms::{Number, Room};
use nahuitepol_tests::tables::{
    self, occurrence_table, pairs, period, shift_table, suffix_table, taken_apart, LONGEST_PROBE,
};
use nahuitepol_tests::words::{all_words_between, fibonacci, repeated, with_byte, worst_probe, Generator};

/// A call that writes to a room, and what it is to write.
struct TableCall<T> {
    name: &'static str,
    call: fn(&[u8], &mut [T]) -> u32,
    table: fn(&[u8]) -> Vec<T>,
    /// The numbers that it writes for each byte of the probe.
    per_byte: usize,
}

const SUFFIX: TableCall<u32> =
    TableCall { name: "suffix", call: nahuitepol::suffix, table: suffix_table, per_byte: 1 };
const SHIFT: TableCall<u32> =
    TableCall { name: "shift", call: nahuitepol::shift, table: shift_table, per_byte: 1 };
const PAIRS: TableCall<u16> =
    TableCall { name: "tables", call: nahuitepol::tables, table: pairs_of, per_byte: 2 };

const ROOM_CALLS: [&dyn RoomCall; 3] = [&SUFFIX, &SHIFT, &PAIRS];

/// What is tested alike, whatever numbers the room holds.
trait RoomCall {
    /// The numbers that the room needs for a probe of m bytes.
    fn needed(&self, m: usize) -> usize;

    /// The refusal that is due for a probe of m bytes and a room of this length.
    fn refusal(&self, m: usize, room_length: usize) -> Option<u32>;

    /// Calls with a room that has `slack` numbers more than needed.
    fn compare(&self, x: &[u8], slack: usize);

    /// Calls with a room that holds small numbers already, two more than needed.
    fn compare_over_left_over(&self, x: &[u8], generator: &mut Generator);

    /// Calls with a room of this length and expects a refusal that leaves it as it was.
    fn expect_refusal(&self, x: &[u8], room_length: usize, expected: u32);
}

impl<T: Number + Debug + From<u8>> RoomCall for TableCall<T> {
    fn needed(&self, m: usize) -> usize {
        self.per_byte * m
    }

    fn refusal(&self, m: usize, room_length: usize) -> Option<u32> {
        tables::refusal(m, room_length, self.per_byte)
    }

    fn compare(&self, x: &[u8], slack: usize) {
        let mut room = Room::new(self.needed(x.len()) + slack);
        let refusal = (self.call)(x, room.lend());
        assert_eq!(refusal, 0, "{} of {x:?}", self.name);
        assert!(room.holds_just(&(self.table)(x)), "{} of {x:?}: {:?}", self.name, room.lend());
    }

    fn compare_over_left_over(&self, x: &[u8], generator: &mut Generator) {
        let mut small_number = || T::from(generator.below(x.len() + 1) as u8);
        let left_over: Vec<T> = (0..self.needed(x.len()) + 2).map(|_| small_number()).collect();
        let mut room = Room::holding(&left_over);
        assert_eq!((self.call)(x, room.lend()), 0);
        assert!(room.holds_just(&(self.table)(x)), "{} of {x:?} over {left_over:?}", self.name);
    }

    fn expect_refusal(&self, x: &[u8], room_length: usize, expected: u32) {
        let mut room = Room::new(room_length);
        let refusal = (self.call)(x, room.lend());
        assert_eq!(refusal, expected, "{} of {} bytes, room {room_length}", self.name, x.len());
        assert!(room.is_untouched(), "{} of {} bytes wrote on refusal {refusal}", self.name, x.len());
    }
}

fn pairs_of(x: &[u8]) -> Vec<u16> {
    pairs(&suffix_table(x), &shift_table(x))
}

fn compare_occurrence(x: &[u8]) {
    let answer = nahuitepol::occurrence(x);
    assert_eq!(answer.refusal, 0, "occurrence of {x:?}");
    assert_eq!(answer.table, occurrence_table(x), "occurrence of {x:?}");
}

fn compare(x: &[u8]) {
    for call in ROOM_CALLS {
        call.compare(x, 0);
        call.compare(x, 3);
    }
    compare_occurrence(x);
    assert_pairs_taken_apart_are_the_tables(x);
}

fn assert_pairs_taken_apart_are_the_tables(x: &[u8]) {
    let (suffix, shift) = taken_apart(&written(&PAIRS, x));
    assert!(suffix == written(&SUFFIX, x), "the suffix entries of the pairs of {x:?}: {suffix:?}");
    assert!(shift == written(&SHIFT, x), "the shift entries of the pairs of {x:?}: {shift:?}");
}

/// What a call writes to an exact room.
fn written<T: From<u8> + Clone>(call: &TableCall<T>, x: &[u8]) -> Vec<T> {
    let mut room = vec![T::from(0); call.per_byte * x.len()];
    assert_eq!((call.call)(x, &mut room), 0);
    room
}

fn figure(x: &[u8], suffix: &[u32], shift: &[u32], occurrence: &[(u8, u32)]) {
    assert_eq!(written(&SUFFIX, x), suffix, "suffix of {x:?}");
    assert_eq!(written(&SHIFT, x), shift, "shift of {x:?}");
    assert_eq!(taken_apart(&written(&PAIRS, x)), (suffix.to_vec(), shift.to_vec()), "pairs of {x:?}");
    let mut table = [x.len() as u32; 256];
    for (byte, entry) in occurrence {
        table[usize::from(*byte)] = *entry;
    }
    assert_eq!(nahuitepol::occurrence(x).table, table, "occurrence of {x:?}");
}

#[test]
fn the_five_rows_of_document_01() {
    figure(b"b", &[1], &[1], &[(b'b', 1)]);
    figure(b"aab", &[0, 0, 3], &[3, 3, 1], &[(b'a', 1), (b'b', 3)]);
    figure(b"abab", &[0, 2, 0, 4], &[2, 2, 4, 1], &[(b'a', 1), (b'b', 2)]);
    figure(b"aaaa", &[1, 2, 3, 4], &[1, 2, 3, 4], &[(b'a', 1)]);
    figure(b"caaa", &[0, 1, 2, 4], &[4, 1, 2, 3], &[(b'a', 1), (b'c', 3)]);
}

#[test]
fn the_pairs_of_both_tables_as_they_lie_in_the_room() {
    assert_eq!(written(&PAIRS, b"b"), [1, 1]);
    assert_eq!(written(&PAIRS, b"aab"), [0, 3, 0, 3, 3, 1]);
    assert_eq!(written(&PAIRS, b"abab"), [0, 2, 2, 2, 0, 4, 4, 1]);
    assert_eq!(written(&PAIRS, b"aaaa"), [1, 1, 2, 2, 3, 3, 4, 4]);
    assert_eq!(written(&PAIRS, b"caaa"), [0, 4, 1, 1, 2, 2, 4, 3]);
}

#[test]
fn all_two_letter_probes_up_to_ten_bytes() {
    all_words_between(2, 1, 10).for_each(|x| compare(&x));
}

#[test]
fn all_three_letter_probes_up_to_seven_bytes() {
    all_words_between(3, 1, 7).for_each(|x| compare(&x));
}

#[test]
fn every_single_byte() {
    for byte in 0..=255 {
        compare(&[byte]);
        assert_eq!(nahuitepol::occurrence(&[byte]).table, [1; 256]);
    }
}

#[test]
fn random_probes_over_few_and_many_letters() {
    let mut generator = Generator::new(1);
    for _ in 0..6_000 {
        let letters = generator.pick(&[1, 2, 3, 4, 256]);
        let length = generator.between(1, 70);
        compare(&generator.word(letters, length));
    }
}

#[test]
fn periodic_probes_with_and_without_a_flaw() {
    let mut generator = Generator::new(2);
    for _ in 0..3_000 {
        let word_length = generator.between(1, 9);
        let word = generator.word(3, word_length);
        let length = generator.between(1, 90);
        let mut x = repeated(&word, length);
        compare(&x);
        let flaw = generator.below(length);
        x[flaw] = 200;
        compare(&x);
    }
}

#[test]
fn fibonacci_words_and_the_worst_family() {
    let long = fibonacci(400);
    for length in 1..=120 {
        compare(&long[..length]);
        compare(&long[length..2 * length]);
    }
    for k in 1..=60 {
        compare(&worst_probe(k));
    }
}

#[test]
fn probes_that_repeat_stretches_of_themselves() {
    let mut generator = Generator::new(6);
    for _ in 0..3_000 {
        let letters = generator.pick(&[1, 2, 3, 256]);
        let length = generator.between(1, 90);
        compare(&generator.copied(letters, length));
    }
    for _ in 0..300 {
        let length = generator.between(LONGEST_PROBE / 2, LONGEST_PROBE);
        let x = generator.copied(2, length);
        assert!(written(&SUFFIX, &x) == suffix_table(&x), "suffix of {x:?}");
    }
}

#[test]
fn a_run_of_equal_bytes_ends_anywhere() {
    for length in (1..=40).chain([300]) {
        for flaw in 0..length {
            compare(&with_byte(&vec![b'a'; length], flaw, b'b'));
        }
    }
}

#[test]
fn the_printed_figure_gives_the_same_entries_with_fewer_than_2m_comparisons() {
    let mut generator = Generator::new(7);
    let random = (0..3_000).map(|_| {
        let letters = generator.pick(&[1, 2, 3, 256]);
        let length = generator.between(1, 300);
        generator.copied(letters, length)
    });
    let longest = [vec![7; LONGEST_PROBE], fibonacci(LONGEST_PROBE), repeated(b"abaab", LONGEST_PROBE)];
    for x in all_words_between(2, 1, 12).chain(random).chain(longest) {
        let (printed, comparisons) = figure9::suffixes(&x);
        assert!(written(&SUFFIX, &x) == printed, "suffix of {x:?}");
        assert!(comparisons < 2 * x.len(), "{comparisons} comparisons for {x:?}");
    }
}

#[test]
fn probes_of_the_greatest_length() {
    let mut generator = Generator::new(3);
    for length in [LONGEST_PROBE - 1, LONGEST_PROBE] {
        compare(&vec![7; length]);
        compare(&generator.word(2, length));
        compare(&generator.word(256, length));
        compare(&fibonacci(length));
        compare(&repeated(b"abaab", length));
    }
}

#[test]
fn entry_0_of_the_shift_table_is_the_period() {
    for x in all_words_between(2, 1, 10) {
        assert_eq!(written(&SHIFT, &x)[0], period(&x), "{x:?}");
    }
    let fibonacci_word = fibonacci(LONGEST_PROBE);
    assert_eq!(written(&SHIFT, &fibonacci_word)[0], period(&fibonacci_word));
}

#[test]
fn the_last_suffix_entry_is_the_length() {
    for x in all_words_between(3, 1, 6) {
        assert_eq!(written(&SUFFIX, &x)[x.len() - 1], x.len() as u32, "{x:?}");
    }
}

#[test]
fn a_byte_only_in_the_last_place_has_the_length_as_occurrence_entry() {
    for length in [1, 2, 17, LONGEST_PROBE] {
        let mut x = vec![b'a'; length];
        x[length - 1] = b'z';
        assert_eq!(nahuitepol::occurrence(&x).table[usize::from(b'z')], length as u32);
    }
}

#[test]
fn an_empty_probe_is_refused_1_whatever_the_room() {
    for call in ROOM_CALLS {
        for room in [0, 1, 10] {
            call.expect_refusal(b"", room, 1);
        }
    }
}

#[test]
fn a_probe_over_4096_bytes_is_refused_2_whatever_the_room() {
    for call in ROOM_CALLS {
        for length in [4_097, 4_098, 8_192, 70_000] {
            let x = vec![b'a'; length];
            for room in [0, 4_096, length - 1, length, length + 1, 2 * length - 1, 2 * length, 2 * length + 1]
            {
                call.expect_refusal(&x, room, 2);
            }
        }
    }
}

#[test]
fn a_room_short_by_one_or_more_is_refused_4_and_left_alone() {
    let mut generator = Generator::new(4);
    for length in (1..=40).chain([255, 256, 257, 4_095, 4_096]) {
        let x = generator.word(2, length);
        for call in ROOM_CALLS {
            let needed = call.needed(length);
            call.expect_refusal(&x, needed - 1, 4);
            call.expect_refusal(&x, needed / 2, 4);
            call.expect_refusal(&x, 0, 4);
        }
    }
}

#[test]
fn pairs_of_the_greatest_length_need_8192_numbers() {
    let x = vec![b'a'; LONGEST_PROBE];
    for room in [0, 4_095, 4_096, 4_097, 8_190, 8_191] {
        PAIRS.expect_refusal(&x, room, 4);
    }
    for slack in [0, 1, 2, 4_096] {
        PAIRS.compare(&x, slack);
    }
    let counted: Vec<u16> = (1..=4_096).flat_map(|entry| [entry, entry]).collect();
    assert!(written(&PAIRS, &x) == counted, "both entries count from 1 to 4,096");
}

#[test]
fn a_room_of_any_length_is_answered_by_the_table_of_refusals() {
    for length in 0..=12 {
        let x = fibonacci(length);
        for room in 0..=30 {
            for call in ROOM_CALLS {
                match call.refusal(length, room) {
                    Some(number) => call.expect_refusal(&x, room, number),
                    None => call.compare(&x, room - call.needed(length)),
                }
            }
        }
    }
}

#[test]
fn a_refused_occurrence_table_has_256_zeros() {
    for (length, number) in [(0, 1), (4_097, 2), (5_000, 2), (70_000, 2)] {
        let answer = nahuitepol::occurrence(&vec![b'a'; length]);
        assert_eq!(answer.refusal, number, "{length} bytes");
        assert_eq!(answer.table, [0; 256], "{length} bytes");
    }
}

#[test]
fn what_a_room_held_before_does_not_matter() {
    let mut generator = Generator::new(5);
    for _ in 0..2_000 {
        let length = generator.between(1, 20);
        let x = generator.word(2, length);
        for call in ROOM_CALLS {
            call.compare_over_left_over(&x, &mut generator);
        }
    }
}
