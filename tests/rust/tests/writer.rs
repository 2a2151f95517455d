//! The writer of logs, compared with an independent one: its answer, every byte of its room, every refusal for its
//! own cause and in its own order; and its logs read again.

use nahuitepol::Written;
use nahuitepol_tests::log::{document_log, draws, Parts, LONGEST};
use nahuitepol_tests::rooms::Room;
use nahuitepol_tests::samples::{self, damage, NEARLY_ALL};
use nahuitepol_tests::words::Generator;
use nahuitepol_tests::writer::Contents;
use std::collections::BTreeSet;

/// Room enough for every log.
const AMPLE: usize = LONGEST + 100;

/// One call for each of two rooms of this length, compared in its answer, in all bytes of the room and in its
/// inputs, which stay as they were.
fn compare(contents: &Contents, room: usize) -> Written {
    let (answer, log) = match contents.write(room) {
        Ok(log) => (Written { refusal: 0, entry: 0, length: log.len() as u32 }, log),
        Err(refusal) => (Written { refusal: refusal.number, entry: refusal.entry, length: 0 }, vec![]),
    };
    for mut out in Room::pair_of_bytes(room) {
        let lent = contents.clone();
        let written = nahuitepol::log_write(&lent.blocks, &lent.ids, &lent.lengths, out.lend());
        assert_eq!(written, answer, "room {room}, {contents:?}");
        assert!(out.holds_just(&log), "room {room}, {contents:?}");
        assert_eq!(lent, *contents, "room {room}");
    }
    answer
}

/// The log that the writer makes of these contents, in a room that it just fills and in a longer one.
fn written(contents: &Contents) -> Vec<u8> {
    let length = length_of(contents);
    for room in [length, length + 1, length + 50] {
        assert_eq!(compare(contents, room), Written { refusal: 0, entry: 0, length: length as u32 });
    }
    let mut log = vec![0; length];
    nahuitepol::log_write(&contents.blocks, &contents.ids, &contents.lengths, &mut log);
    log
}

/// Bytes of the log, whether or not it can be written.
fn length_of(contents: &Contents) -> usize {
    contents.blocks.len() + 12 * contents.ids.len() + 12
}

/// Test and lookup of the library read the same ids and blocks from this log.
fn assert_reads(log: &[u8], contents: &Contents) {
    let tested = nahuitepol::log_test(log);
    assert_eq!((tested.refusal, tested.count), (0, contents.ids.len() as u32), "{contents:?}");
    let mut rest = &contents.blocks[..];
    for (&id, &length) in contents.ids.iter().zip(&contents.lengths) {
        let (block, behind) = rest.split_at(length as usize);
        let found = nahuitepol::log_find(log, id);
        assert_eq!((found.refusal, found.length), (0, length), "id {id}, {contents:?}");
        assert_eq!(&log[found.start as usize..][..length as usize], block, "id {id}, {contents:?}");
        rest = behind;
    }
}

fn expect_refusal(contents: &Contents, room: usize, number: u32, entry: u32) {
    assert_eq!(compare(contents, room), Written { refusal: number, entry, length: 0 }, "{contents:?}");
}

/// Contents with as many block bytes as said, right or wrong.
fn contents(block_bytes: usize, ids: &[u32], lengths: &[u32]) -> Contents {
    let blocks = (0..block_bytes).map(|place| (place % 251) as u8).collect();
    Contents { blocks, ids: ids.to_vec(), lengths: lengths.to_vec() }
}

/// Sound contents with these lengths, whose ids are 1, 2, ..
fn numbered(lengths: &[u32]) -> Contents {
    let ids: Vec<u32> = (1..=lengths.len() as u32).collect();
    contents(lengths.iter().sum::<u32>() as usize, &ids, lengths)
}

/// Sound contents with ids from all over the 32 bits or close together, and about every third block empty.
fn random_contents(generator: &mut Generator, most_replicates: usize, most_draws: usize) -> Contents {
    let (count, closeness) = (generator.between(1, most_replicates), generator.below(25));
    let draws = |generator: &mut Generator| generator.pick(&[0, 1, 1]) * generator.between(0, most_draws);
    let mut ids = BTreeSet::new();
    while ids.len() < count {
        ids.insert(generator.number() as u32 >> closeness);
    }
    let lengths: Vec<u32> = (0..count).map(|_| 8 * draws(generator) as u32).collect();
    let blocks = generator.word(256, lengths.iter().sum::<u32>() as usize);
    Contents { blocks, ids: ids.into_iter().collect(), lengths }
}

/// A sound log with blocks of random bytes.
fn random_parts(generator: &mut Generator, most_replicates: usize, most_draws: usize) -> Parts {
    samples::random_parts(generator, most_replicates, most_draws, |generator, length| {
        generator.word(256, 8 * length)
    })
}

/// Sets one part of the contents wrong, or perhaps right again.
fn spoil(generator: &mut Generator, contents: &mut Contents) {
    let number = generator.pick(&[0, 1, 4, 8, 9, 16, 64, 1 << 16, 1 << 31, NEARLY_ALL, u32::MAX]);
    let length = contents.blocks.len();
    let place = generator.below(5);
    match generator.below(10) {
        0 => contents.ids.push(number),
        1 => contents.lengths.push(number),
        2 => drop(contents.ids.pop()),
        3 => drop(contents.lengths.pop()),
        4 => contents.ids.iter_mut().skip(place).take(1).for_each(|id| *id = number),
        5 | 6 => contents.lengths.iter_mut().skip(place).take(1).for_each(|length| *length = number),
        7 => contents.blocks.resize(length + generator.between(1, 16), 7),
        8 => contents.blocks.truncate(length.saturating_sub(generator.between(1, 16))),
        _ => contents.blocks.resize(generator.pick(&[0, 8, LONGEST - 24, LONGEST, LONGEST + 8]), 7),
    }
}

#[test]
fn the_log_of_document_01_from_its_contents() {
    let blocks = [draws(0..32), draws(100..108), draws(0..32), draws([0; 5])].concat();
    let contents = Contents { blocks, ids: vec![3, 7, 9], lengths: vec![256, 320, 40] };
    assert_eq!(written(&contents), document_log());
    assert_reads(&document_log(), &contents);
}

#[test]
fn the_least_log_byte_for_byte() {
    let mut expected = vec![5, 0, 0, 0, 0, 0, 0, 0, 0, 0, 0, 0];
    expected.extend([0, 0, 0, 0, 1, 0, 0, 0, 0x44, 0x52, 0x41, 0x57]);
    assert_eq!(written(&contents(0, &[5], &[0])), expected);
}

#[test]
fn two_blocks_byte_for_byte() {
    let blocks = vec![11, 12, 13, 14, 15, 16, 17, 18, 21, 22, 23, 24, 25, 26, 27, 28];
    let contents = Contents { blocks, ids: vec![0x0102_0304, 0xFFFF_FFFE], lengths: vec![8, 8] };
    let mut expected = contents.blocks.clone();
    expected.extend([4, 3, 2, 1, 0, 0, 0, 0, 8, 0, 0, 0]);
    expected.extend([0xFE, 0xFF, 0xFF, 0xFF, 8, 0, 0, 0, 8, 0, 0, 0]);
    expected.extend([16, 0, 0, 0, 2, 0, 0, 0, 0x44, 0x52, 0x41, 0x57]);
    assert_eq!(written(&contents), expected);
}

#[test]
fn sound_contents_made_at_random_are_read_again() {
    let mut generator = Generator::new(40);
    for most_draws in [0, 1, 3, 12] {
        for _ in 0..800 {
            let contents = random_contents(&mut generator, 64, most_draws);
            assert_reads(&written(&contents), &contents);
        }
    }
    for _ in 0..200 {
        let contents = random_contents(&mut generator, 64, 120);
        assert_reads(&written(&contents), &contents);
    }
}

#[test]
fn each_number_of_replicates_with_empty_and_with_full_blocks() {
    for count in 1..=64 {
        for length in [0, 8, 16] {
            let contents = numbered(&vec![length; count]);
            assert_reads(&written(&contents), &contents);
        }
    }
}

#[test]
fn each_place_of_the_only_block_that_is_not_empty() {
    for count in [1, 2, 3, 64] {
        for place in 0..count {
            let mut lengths = vec![0; count];
            lengths[place] = 24;
            assert_reads(&written(&numbered(&lengths)), &numbered(&lengths));
        }
    }
}

#[test]
fn accepted_logs_taken_apart_and_written_again() {
    let mut generator = Generator::new(41);
    for _ in 0..2_000 {
        let log = random_parts(&mut generator, 64, 12).bytes();
        assert_eq!(written(&Contents::of(&log).expect("a sound log")), log);
    }
}

#[test]
fn damaged_logs_that_are_still_accepted_taken_apart_and_written_again() {
    let mut generator = Generator::new(42);
    let mut changed = 0;
    for _ in 0..30_000 {
        let sound = random_parts(&mut generator, 5, 3);
        let mut parts = sound.clone();
        damage(&mut generator, &mut parts);
        let mut log = parts.bytes();
        let place = generator.below(log.len());
        log[place] ^= 1 << generator.below(8);
        if nahuitepol::log_test(&log).refusal == 0 {
            changed += usize::from(log != sound.bytes());
            assert_eq!(written(&Contents::of(&log).expect("an accepted log")), log);
        }
    }
    assert!(changed > 500, "only {changed} logs");
}

#[test]
fn the_greatest_log_of_each_number_of_replicates() {
    for count in 1..=64 {
        let most = (LONGEST - 12 * count - 12) / 8 * 8;
        let mut lengths = vec![8; count];
        lengths[count / 2] += (most - 8 * count) as u32;
        let greatest = numbered(&lengths);
        assert_reads(&written(&greatest), &greatest);
        assert!(length_of(&greatest) + 8 > LONGEST);
        lengths[count / 2] += 8;
        expect_refusal(&numbered(&lengths), AMPLE, 11, 0);
    }
    assert_eq!(compare(&numbered(&[65_512]), AMPLE).length, 65_536);
}

#[test]
fn logs_over_65536_bytes_are_refused_11() {
    for length in [65_520, 65_528, 65_536, 65_544, 1 << 17, 1 << 20] {
        expect_refusal(&numbered(&[length]), AMPLE, 11, 0);
        expect_refusal(&numbered(&[length]), length as usize + 24, 11, 0);
    }
    expect_refusal(&numbered(&[1_016; 64]), AMPLE, 11, 0);
}

#[test]
fn every_shorter_room_is_refused_23() {
    for contents in [numbered(&[0]), numbered(&[8, 0, 16]), numbered(&[0; 64]), numbered(&[8; 64])] {
        let length = length_of(&contents);
        for room in 0..length {
            expect_refusal(&contents, room, 23, 0);
        }
        assert_eq!(compare(&contents, length).length as usize, length);
    }
    for room in [0, 1, 65_511, 65_512, 65_524, 65_535] {
        expect_refusal(&numbered(&[65_512]), room, 23, 0);
    }
}

#[test]
fn ids_and_lengths_that_differ_in_number_are_refused_31() {
    for (ids, lengths) in
        [(0, 1), (1, 0), (1, 2), (2, 1), (3, 2), (63, 64), (64, 63), (64, 65), (65, 64), (64, 0)]
    {
        let rising: Vec<u32> = (0..ids).collect();
        for length in [0, 8] {
            let block_bytes = lengths * length as usize;
            expect_refusal(&contents(block_bytes, &rising, &vec![length; lengths]), AMPLE, 31, 0);
        }
    }
}

#[test]
fn numbers_of_replicates_outside_1_to_64_are_refused_13() {
    expect_refusal(&numbered(&[]), AMPLE, 13, 0);
    for count in [65, 66, 128, 256, 257, 1_000, 65_536, 65_537] {
        expect_refusal(&numbered(&vec![0; count]), AMPLE, 13, 0);
    }
    assert_eq!(compare(&numbered(&[0; 64]), AMPLE).refusal, 0);
}

#[test]
fn an_id_not_above_the_one_before_is_refused_15_with_its_entry() {
    for place in 1..64 {
        let id_before = 100 + place - 1;
        for id in [0, 100, id_before] {
            let mut contents = numbered(&[8; 64]);
            contents.ids = (100..164).collect();
            contents.ids[place as usize] = id;
            expect_refusal(&contents, AMPLE, 15, place);
        }
    }
    expect_refusal(&contents(0, &[u32::MAX, 0], &[0, 0]), AMPLE, 15, 1);
    expect_refusal(&contents(0, &[1 << 31, i32::MAX as u32], &[0, 0]), AMPLE, 15, 1);
    expect_refusal(&contents(0, &[0, 0], &[0, 0]), AMPLE, 15, 1);
}

#[test]
fn ids_from_0_to_the_greatest_rise_without_a_sign() {
    let ids = [0, 1, i32::MAX as u32, 1 << 31, u32::MAX - 1, u32::MAX];
    let contents = contents(48, &ids, &[8; 6]);
    assert_reads(&written(&contents), &contents);
}

#[test]
fn a_block_length_that_is_no_multiple_of_8_is_refused_17_with_its_entry() {
    for place in 0..64 {
        for odd in 1..8 {
            let mut lengths = vec![8; 64];
            lengths[place] += odd;
            expect_refusal(&numbered(&lengths), AMPLE, 17, place as u32);
        }
    }
    for odd in 1..8 {
        expect_refusal(&numbered(&[odd]), AMPLE, 17, 0);
        expect_refusal(&contents(0, &[1], &[NEARLY_ALL + odd]), AMPLE, 17, 0);
    }
    expect_refusal(&numbered(&[4, 4]), AMPLE, 17, 0);
}

#[test]
fn block_bytes_that_differ_from_the_sum_of_the_lengths_are_refused_22() {
    for lengths in [vec![0], vec![8], vec![0, 0], vec![8, 0, 16], vec![8; 64], vec![65_512]] {
        let sound = numbered(&lengths);
        let right = sound.blocks.len();
        for wrong in
            [0, 1, 8, right.wrapping_sub(8), right.wrapping_sub(1), right + 1, right + 8, right + 65_536]
        {
            if wrong != right && wrong <= 2 * LONGEST {
                expect_refusal(&contents(wrong, &sound.ids, &lengths), AMPLE, 22, 0);
            }
        }
    }
}

#[test]
fn sums_that_would_wrap_in_32_bits_are_refused_22() {
    for copies in 1..=63 {
        for small in [0, 8, 64, 65_000] {
            let mut lengths = vec![NEARLY_ALL; copies];
            lengths.push(8 * copies as u32 + small);
            let ids: Vec<u32> = (0..=copies as u32).collect();
            expect_refusal(&contents(small as usize, &ids, &lengths), AMPLE, 22, 0);
            lengths.rotate_right(1);
            expect_refusal(&contents(small as usize, &ids, &lengths), AMPLE, 22, 0);
        }
    }
    for count in 1..=64 {
        let ids: Vec<u32> = (0..count as u32).collect();
        for length in [1 << 26, 1 << 27, 1 << 31, NEARLY_ALL] {
            expect_refusal(&contents(0, &ids, &vec![length; count]), AMPLE, 22, 0);
        }
    }
}

#[test]
fn sums_that_would_wrap_in_16_bits_are_refused_22() {
    for (block_bytes, length) in
        [(0, 1 << 16), (8, (1 << 16) + 8), (65_512, 65_512 + (1 << 16)), (1 << 16, 0)]
    {
        expect_refusal(&contents(block_bytes, &[1], &[length]), AMPLE, 22, 0);
    }
}

#[test]
fn refusal_31_comes_before_13() {
    for (ids, lengths) in [(0, 1), (1, 0), (65, 64), (64, 65), (65, 66), (100, 0), (0, 100)] {
        let rising: Vec<u32> = (0..ids).collect();
        expect_refusal(&contents(0, &rising, &vec![0; lengths]), AMPLE, 31, 0);
    }
}

#[test]
fn refusal_13_comes_before_15_and_17() {
    for (id, length) in [(7, 0), (7, 1), (8, 1)] {
        let mut spoiled = numbered(&[0; 65]);
        spoiled.ids[1] = id;
        spoiled.ids[0] = 7;
        spoiled.lengths[0] = length;
        expect_refusal(&spoiled, AMPLE, 13, 0);
    }
}

#[test]
fn entries_are_tested_one_after_another_each_for_15_then_17() {
    let cases: [(&[u32], &[u32], u32, u32); 8] = [
        (&[5, 5], &[9, 8], 17, 0),
        (&[5, 4], &[1, 1], 17, 0),
        (&[5, 5], &[8, 9], 15, 1),
        (&[5, 4], &[8, 1], 15, 1),
        (&[5, 6, 6], &[8, 9, 8], 17, 1),
        (&[5, 6, 6], &[8, 8, 9], 15, 2),
        (&[5, 5, 6], &[8, 8, 9], 15, 1),
        (&[5, 5, 5], &[8, 8, 8], 15, 1),
    ];
    for (ids, lengths, number, entry) in cases {
        let block_bytes = lengths.iter().sum::<u32>() as usize;
        for block_bytes in [block_bytes, 0, LONGEST + 8] {
            for room in [0, AMPLE] {
                expect_refusal(&contents(block_bytes, ids, lengths), room, number, entry);
            }
        }
    }
}

#[test]
fn refusals_15_and_17_of_any_two_entries_come_in_the_order_of_the_entries() {
    for earlier in 1..63 {
        for later in [earlier + 1, 63] {
            let mut spoiled = numbered(&[8; 64]);
            spoiled.ids[earlier] = 0;
            spoiled.lengths[later] = 9;
            expect_refusal(&spoiled, AMPLE, 15, earlier as u32);
            let mut spoiled = numbered(&[8; 64]);
            spoiled.lengths[earlier] = 9;
            spoiled.ids[later] = 0;
            expect_refusal(&spoiled, AMPLE, 17, earlier as u32);
        }
    }
}

#[test]
fn refusals_15_and_17_of_the_last_entry_come_before_22() {
    let (mut falling, mut odd) = (numbered(&[8; 64]), numbered(&[8; 64]));
    falling.ids[63] = 63;
    odd.lengths[63] = 12;
    for block_bytes in [0, 8, 512, 516, LONGEST + 8] {
        expect_refusal(&contents(block_bytes, &falling.ids, &falling.lengths), AMPLE, 15, 63);
        expect_refusal(&contents(block_bytes, &odd.ids, &odd.lengths), AMPLE, 17, 63);
    }
}

#[test]
fn refusal_22_comes_before_11_and_23() {
    for block_bytes in [65_520, 65_536, 65_544, 100_000] {
        for length in [0, 8, 65_512, 1 << 20, NEARLY_ALL] {
            for room in [0, 24, AMPLE, 200_000] {
                expect_refusal(&contents(block_bytes, &[1], &[length]), room, 22, 0);
            }
        }
    }
    expect_refusal(&contents(8, &[1], &[65_520]), AMPLE, 22, 0);
    expect_refusal(&contents(8, &[1], &[0]), 0, 22, 0);
}

#[test]
fn refusal_11_comes_before_23() {
    for length in [65_520, 65_536, 1 << 17] {
        for room in [0, 1, 24, 65_535, 65_536, length as usize, length as usize + 23] {
            expect_refusal(&numbered(&[length]), room, 11, 0);
        }
    }
}

#[test]
fn all_causes_at_once_and_one_after_another_mended() {
    let mut spoiled = contents(LONGEST + 8, &[5; 65], &[12; 66]);
    expect_refusal(&spoiled, 0, 31, 0);
    spoiled.lengths.pop();
    expect_refusal(&spoiled, 0, 13, 0);
    spoiled.ids.truncate(2);
    spoiled.lengths.truncate(2);
    expect_refusal(&spoiled, 0, 17, 0);
    spoiled.lengths[0] = 65_528;
    expect_refusal(&spoiled, 0, 15, 1);
    spoiled.ids[1] = 6;
    expect_refusal(&spoiled, 0, 17, 1);
    spoiled.lengths[1] = 8;
    expect_refusal(&spoiled, 0, 22, 0);
    spoiled.lengths[1] = 16;
    expect_refusal(&spoiled, 0, 11, 0);
    spoiled.lengths[0] -= 48;
    spoiled.blocks.truncate(LONGEST - 40);
    expect_refusal(&spoiled, 0, 23, 0);
    expect_refusal(&spoiled, LONGEST - 5, 23, 0);
    assert_eq!(compare(&spoiled, LONGEST - 4), Written { refusal: 0, entry: 0, length: 65_532 });
}

#[test]
fn empty_slices_everywhere() {
    let nothing = contents(0, &[], &[]);
    assert_eq!(nahuitepol::log_write(&[], &[], &[], &mut []).refusal, 13);
    expect_refusal(&nothing, 0, 13, 0);
    expect_refusal(&contents(8, &[], &[]), 0, 13, 0);
    expect_refusal(&contents(0, &[1], &[]), 0, 31, 0);
    expect_refusal(&contents(0, &[], &[0]), 0, 31, 0);
    expect_refusal(&contents(0, &[1], &[0]), 0, 23, 0);
    assert_eq!(compare(&contents(0, &[1], &[0]), 24).length, 24);
}

#[test]
fn two_entries_with_every_choice_of_telling_numbers() {
    let lengths = [0, 4, 8, 16, 1 << 31, NEARLY_ALL];
    for ids in [[0, 0], [0, 1], [1, 0], [7, u32::MAX], [u32::MAX, u32::MAX], [i32::MAX as u32, 1 << 31]] {
        for first in lengths {
            for second in lengths {
                for block_bytes in [0, 4, 8, 16, 24, 32] {
                    for room in [0, block_bytes + 35, block_bytes + 36, block_bytes + 37] {
                        compare(&contents(block_bytes, &ids, &[first, second]), room);
                    }
                }
            }
        }
    }
}

#[test]
fn contents_with_one_to_three_parts_wrong() {
    let mut generator = Generator::new(43);
    let mut met = BTreeSet::new();
    for _ in 0..40_000 {
        let mut spoiled = random_contents(&mut generator, 5, 3);
        for _ in 0..generator.between(1, 3) {
            spoil(&mut generator, &mut spoiled);
        }
        let length = length_of(&spoiled);
        for room in [0, length - 1, length, length + generator.between(1, 100)] {
            met.insert(compare(&spoiled, room).refusal);
        }
    }
    assert!(met.iter().eq(&[0, 11, 13, 15, 17, 22, 23, 31]), "only {met:?}");
}
