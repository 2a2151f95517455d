//! The log test and the lookup, compared with the rules of document 01: sound logs, every refusal for its own
//! cause and in its own order, and logs damaged at random.

use nahuitepol::{Found, Tested};
use nahuitepol_tests::log::{self, document_log, draws, Entry, Parts, LONGEST};
use nahuitepol_tests::samples::{self, damage, with_entries, NEARLY_ALL};
use nahuitepol_tests::words::Generator;

fn expected_test(log: &[u8]) -> Tested {
    match log::test(log) {
        Ok(entries) => Tested { refusal: 0, entry: 0, count: entries.len() as u32 },
        Err(refusal) => Tested { refusal: refusal.number, entry: refusal.entry, count: 0 },
    }
}

fn expected_find(log: &[u8], id: u32) -> Found {
    match log::find(log, id) {
        Ok(Entry { start, length, .. }) => Found { refusal: 0, entry: 0, start, length },
        Err(refusal) => Found { refusal: refusal.number, entry: refusal.entry, start: 0, length: 0 },
    }
}

/// Compares the log test, and the lookup of these ids, their neighbours and the least and greatest id.
fn compare(log: &[u8], ids: &[u32]) {
    assert_eq!(nahuitepol::log_test(log), expected_test(log), "log {log:?}");
    let near = ids.iter().flat_map(|&id| [id.wrapping_sub(1), id, id.wrapping_add(1)]);
    for id in near.chain([0, u32::MAX]) {
        assert_eq!(nahuitepol::log_find(log, id), expected_find(log, id), "id {id}, log {log:?}");
    }
}

fn compare_parts(parts: &Parts) {
    let ids: Vec<u32> = parts.entries.iter().map(|entry| entry.id).collect();
    compare(&parts.bytes(), &ids);
}

/// Test and lookup refuse this log alike, whatever the id.
fn expect_refusal(log: &[u8], number: u32, entry: u32) {
    let tested = nahuitepol::log_test(log);
    assert_eq!(tested, Tested { refusal: number, entry, count: 0 }, "log of {} bytes", log.len());
    for id in [0, 1, 2, 3, 7, 9, u32::MAX] {
        let found = nahuitepol::log_find(log, id);
        assert_eq!(found, Found { refusal: number, entry, start: 0, length: 0 }, "id {id}");
    }
    assert_eq!(tested, expected_test(log));
}

fn entry(id: u32, start: u32, length: u32) -> Entry {
    Entry { id, start, length }
}

/// A sound log of three replicates, 1, 2 and 3, with 8, 0 and 16 bytes.
fn three_replicates() -> Parts {
    Parts::of(&[(1, &draws([5])), (2, &[]), (3, &draws([6, 7]))])
}

/// A sound log with blocks of random bytes.
fn random_parts(generator: &mut Generator, most_replicates: usize, most_draws: usize) -> Parts {
    samples::random_parts(generator, most_replicates, most_draws, |generator, length| {
        generator.word(256, 8 * length)
    })
}

#[test]
fn the_log_of_document_01_has_664_bytes_and_three_replicates() {
    let log = document_log();
    assert_eq!(log.len(), 664);
    assert_eq!(nahuitepol::log_test(&log), Tested { refusal: 0, entry: 0, count: 3 });
    for (id, start, length) in [(3, 0, 256), (7, 256, 320), (9, 576, 40)] {
        assert_eq!(nahuitepol::log_find(&log, id), Found { refusal: 0, entry: 0, start, length });
    }
    let unknown = Found { refusal: 18, entry: 0, start: 0, length: 0 };
    for id in [0, 1, 2, 4, 6, 8, 10, u32::MAX] {
        assert_eq!(nahuitepol::log_find(&log, id), unknown, "id {id}");
    }
}

#[test]
fn the_least_log_has_24_bytes_and_an_empty_block() {
    let parts = Parts::of(&[(5, &[])]);
    let log = parts.bytes();
    assert_eq!(log.len(), 24);
    assert_eq!(nahuitepol::log_test(&log).count, 1);
    assert_eq!(nahuitepol::log_find(&log, 5), Found { refusal: 0, entry: 0, start: 0, length: 0 });
    assert_eq!(nahuitepol::log_find(&log, 6).refusal, 18);
    compare_parts(&parts);
}

#[test]
fn sound_logs_made_at_random() {
    let mut generator = Generator::new(30);
    for _ in 0..3_000 {
        let parts = random_parts(&mut generator, 64, 12);
        assert_eq!(nahuitepol::log_test(&parts.bytes()).refusal, 0);
        compare_parts(&parts);
    }
}

#[test]
fn the_least_and_the_greatest_id_are_ids_like_others() {
    let parts = Parts::of(&[(0, &draws([1])), (1 << 31, &draws([2])), (u32::MAX, &draws([3]))]);
    let log = parts.bytes();
    for (id, start) in [(0, 0), (1 << 31, 8), (u32::MAX, 16)] {
        assert_eq!(nahuitepol::log_find(&log, id), Found { refusal: 0, entry: 0, start, length: 8 });
    }
    compare_parts(&parts);
}

#[test]
fn logs_under_12_bytes_are_refused_10() {
    let sound = document_log();
    for length in 0..12 {
        expect_refusal(&vec![0; length], 10, 0);
        expect_refusal(&sound[sound.len() - length..], 10, 0);
    }
    expect_refusal(&[0; 12], 12, 0);
}

#[test]
fn logs_over_65536_bytes_are_refused_11_even_if_all_else_is_right() {
    for length in [65_537, 65_538, 70_000, 1 << 20] {
        expect_refusal(&vec![0; length], 11, 0);
    }
    let parts = Parts::of(&[(1, &vec![0; LONGEST - 24 + 8])]);
    assert_eq!(parts.bytes().len(), LONGEST + 8);
    expect_refusal(&parts.bytes(), 11, 0);
}

#[test]
fn a_log_of_exactly_65536_bytes_is_accepted() {
    let parts = Parts::of(&[(1, &vec![0; LONGEST - 24])]);
    let log = parts.bytes();
    assert_eq!(log.len(), LONGEST);
    assert_eq!(nahuitepol::log_test(&log), Tested { refusal: 0, entry: 0, count: 1 });
    let found = nahuitepol::log_find(&log, 1);
    assert_eq!(found, Found { refusal: 0, entry: 0, start: 0, length: 65_512 });
}

#[test]
fn any_other_mark_is_refused_12() {
    for place in 0..4 {
        for bit in 0..8 {
            let mut parts = three_replicates();
            parts.mark[place] ^= 1 << bit;
            expect_refusal(&parts.bytes(), 12, 0);
        }
    }
    for mark in [*b"draw", *b"WARD", [0; 4], [0xFF; 4]] {
        expect_refusal(&Parts { mark, ..three_replicates() }.bytes(), 12, 0);
    }
}

#[test]
fn counts_outside_1_to_64_are_refused_13() {
    for count in [0, 65, 66, 256, 1 << 16, 1 << 31, 0x1555_5556, u32::MAX] {
        expect_refusal(&Parts { count, ..three_replicates() }.bytes(), 13, 0);
    }
    let entries: Vec<Entry> = (0..65).map(|id| entry(id, 0, 0)).collect();
    expect_refusal(&with_entries(0, &entries).bytes(), 13, 0);
    assert_eq!(nahuitepol::log_test(&with_entries(0, &entries[..64]).bytes()).count, 64);
}

#[test]
fn a_directory_start_or_count_that_does_not_fit_the_length_is_refused_14() {
    let sound = three_replicates();
    let right = sound.directory_start;
    for directory_start in [0, right - 1, right + 1, right + 12, 1 << 31, u32::MAX] {
        expect_refusal(&Parts { directory_start, ..sound.clone() }.bytes(), 14, 0);
    }
    for count in [1, 2, 4, 64] {
        expect_refusal(&Parts { count, ..sound.clone() }.bytes(), 14, 0);
    }
    let longer = [&sound.bytes()[..], &[0; 4], &3u32.to_le_bytes(), b"DRAW"].concat();
    expect_refusal(&longer, 14, 0);
}

#[test]
fn a_directory_start_whose_sum_would_wrap_in_32_bits_is_refused_14() {
    for count in 2..=64 {
        let directory_start = 24u32.wrapping_sub(12 * count + 12);
        let parts = Parts { directory_start, count, ..with_entries(0, &[entry(0, 0, 0)]) };
        assert_eq!(parts.bytes().len(), 24);
        expect_refusal(&parts.bytes(), 14, 0);
    }
    let parts = Parts { directory_start: u32::MAX - 23, count: 3, ..with_entries(0, &[entry(0, 0, 0)]) };
    expect_refusal(&parts.bytes(), 14, 0);
}

#[test]
fn an_id_not_above_the_one_before_is_refused_15_with_its_entry() {
    for place in 1..64 {
        let id_before = 100 + place - 1;
        for id in [0, 100, id_before] {
            let mut entries: Vec<Entry> = (0..64).map(|k| entry(100 + k, 0, 0)).collect();
            entries[place as usize].id = id;
            expect_refusal(&with_entries(0, &entries).bytes(), 15, place);
        }
    }
    let falls = [entry(u32::MAX, 0, 0), entry(0, 0, 0)];
    expect_refusal(&with_entries(0, &falls).bytes(), 15, 1);
}

#[test]
fn a_block_that_does_not_begin_where_the_previous_one_ended_is_refused_16_with_its_entry() {
    for place in 0..64 {
        let mut parts = with_entries(512, &(0..64).map(|k| entry(k, 8 * k, 8)).collect::<Vec<_>>());
        assert_eq!(nahuitepol::log_test(&parts.bytes()).refusal, 0);
        let right = parts.entries[place].start;
        for wrong in [right + 8, right + 1, right.wrapping_sub(8), u32::MAX] {
            parts.entries[place].start = wrong;
            expect_refusal(&parts.bytes(), 16, place as u32);
        }
    }
}

#[test]
fn a_last_end_that_is_not_the_directory_start_is_refused_16_with_the_count() {
    for count in [1, 2, 3, 64] {
        for (bytes, last) in [(512, 0), (512, 8), (0, 8), (8, 16), (0, NEARLY_ALL), (16, 8)] {
            let mut entries: Vec<Entry> = (0..count).map(|id| entry(id, 0, 0)).collect();
            entries[count as usize - 1].length = last;
            expect_refusal(&with_entries(bytes, &entries).bytes(), 16, count);
        }
    }
}

#[test]
fn ends_that_would_wrap_in_32_bits_are_refused_16() {
    let wraps = [entry(1, 0, NEARLY_ALL), entry(2, NEARLY_ALL, 16)];
    expect_refusal(&with_entries(8, &wraps).bytes(), 16, 2);
    let third = entry(3, 8, 0);
    expect_refusal(&with_entries(8, &[wraps[0], wraps[1], third]).bytes(), 16, 2);
    let halves = [entry(1, 0, 1 << 31), entry(2, 1 << 31, 1 << 31)];
    expect_refusal(&with_entries(0, &halves).bytes(), 16, 2);
    expect_refusal(&with_entries(0, &[halves[0], halves[1], entry(3, 0, 0)]).bytes(), 16, 2);
}

#[test]
fn a_block_length_that_is_no_multiple_of_8_is_refused_17_with_its_entry() {
    for place in 0..3u32 {
        for odd in 1..8 {
            let mut entries = [entry(1, 0, 8), entry(2, 8, 8), entry(3, 16, 8)];
            entries[place as usize].length = 8 + odd;
            for later in &mut entries[place as usize + 1..] {
                later.start += odd;
            }
            expect_refusal(&with_entries(24 + odd as usize, &entries).bytes(), 17, place);
        }
    }
}

#[test]
fn lower_numbers_come_first_within_10_to_14() {
    let wrong_in_all = Parts { count: 0, mark: *b"WARD", ..three_replicates() };
    let too_long = Parts { blocks: vec![0; LONGEST], ..wrong_in_all.clone() };
    expect_refusal(&wrong_in_all.bytes()[..11], 10, 0);
    expect_refusal(&too_long.bytes(), 11, 0);
    expect_refusal(&wrong_in_all.bytes(), 12, 0);
    expect_refusal(&Parts { mark: log::MARK, ..wrong_in_all.clone() }.bytes(), 13, 0);
    expect_refusal(&Parts { mark: log::MARK, count: 65, ..wrong_in_all.clone() }.bytes(), 13, 0);
    expect_refusal(&Parts { mark: log::MARK, count: 2, ..wrong_in_all }.bytes(), 14, 0);
}

#[test]
fn an_entry_is_tested_for_15_then_16_then_17() {
    let sound = entry(5, 0, 8);
    let cases = [
        (entry(5, 9, 9), 15),
        (entry(4, 9, 8), 15),
        (entry(5, 8, 9), 15),
        (entry(6, 9, 9), 16),
        (entry(6, 0, 9), 16),
        (entry(6, 8, 9), 17),
    ];
    for (second, number) in cases {
        expect_refusal(&with_entries(16, &[sound, second]).bytes(), number, 1);
    }
    expect_refusal(&with_entries(16, &[entry(0, 1, 7)]).bytes(), 16, 0);
    expect_refusal(&with_entries(16, &[entry(0, 0, 7)]).bytes(), 17, 0);
}

#[test]
fn entries_are_tested_one_after_another_and_the_last_end_after_all() {
    let odd = entry(5, 0, 9);
    expect_refusal(&with_entries(16, &[odd, entry(5, 9, 8)]).bytes(), 17, 0);
    expect_refusal(&with_entries(16, &[odd, entry(6, 0, 8)]).bytes(), 17, 0);
    expect_refusal(&with_entries(16, &[entry(5, 8, 8), entry(5, 8, 9)]).bytes(), 16, 0);
    expect_refusal(&with_entries(16, &[entry(5, 0, 8), entry(6, 8, 9)]).bytes(), 17, 1);
    expect_refusal(&with_entries(64, &[entry(5, 0, 80), entry(4, 80, 8)]).bytes(), 15, 1);
    expect_refusal(&with_entries(64, &[entry(5, 0, 80), entry(6, 80, 8)]).bytes(), 16, 2);
}

#[test]
fn two_entries_with_every_choice_of_telling_numbers() {
    let lengths = [0, 4, 8, 16, NEARLY_ALL];
    for ids in [[0, 0], [0, 1], [1, 0], [7, u32::MAX], [u32::MAX, u32::MAX]] {
        for first_start in [0, 8, NEARLY_ALL] {
            for second_start in [0, 4, 8, 16, NEARLY_ALL] {
                for [first, second] in pairs_of(&lengths) {
                    for block_bytes in [0, 8, 16, 24] {
                        let entries =
                            [entry(ids[0], first_start, first), entry(ids[1], second_start, second)];
                        compare_parts(&with_entries(block_bytes, &entries));
                    }
                }
            }
        }
    }
}

#[test]
fn trailers_with_every_choice_of_telling_numbers() {
    for length in 12..=72usize {
        for count in [0, 1, 2, 3, 4, 64, 65, 0x1555_5556, u32::MAX] {
            let fitting = (length as u32).wrapping_sub(12u32.wrapping_mul(count).wrapping_add(12));
            for directory_start in [0, 8, fitting, fitting.wrapping_add(1), u32::MAX - 23, u32::MAX] {
                for mark in [log::MARK, *b"DRAV"] {
                    let blocks = vec![0; length - 12];
                    let parts = Parts { blocks, entries: vec![], directory_start, count, mark };
                    compare(&parts.bytes(), &[]);
                }
            }
        }
    }
}

#[test]
fn logs_damaged_in_one_to_three_fields() {
    let mut generator = Generator::new(31);
    for _ in 0..60_000 {
        let mut parts = random_parts(&mut generator, 5, 3);
        for _ in 0..generator.between(1, 3) {
            damage(&mut generator, &mut parts);
        }
        compare_parts(&parts);
    }
}

#[test]
fn logs_with_a_changed_byte_or_cut_short() {
    let mut generator = Generator::new(32);
    for _ in 0..20_000 {
        let parts = random_parts(&mut generator, 6, 2);
        let ids: Vec<u32> = parts.entries.iter().map(|entry| entry.id).collect();
        let mut log = parts.bytes();
        let place = generator.below(log.len());
        log[place] = generator.below(256) as u8;
        compare(&log, &ids);
        compare(&log[..place], &ids);
        compare(&log[place..], &ids);
    }
}

#[test]
fn bytes_without_any_order() {
    let mut generator = Generator::new(33);
    for _ in 0..5_000 {
        let length = generator.between(0, 100);
        let mut log = generator.word(256, length);
        compare(&log, &[]);
        log.extend_from_slice(&log::MARK);
        compare(&log, &[]);
    }
}

fn pairs_of(numbers: &[u32]) -> impl Iterator<Item = [u32; 2]> + '_ {
    numbers.iter().flat_map(move |&first| numbers.iter().map(move |&second| [first, second]))
}
