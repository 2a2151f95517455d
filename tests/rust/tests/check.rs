//! The overlap check, compared with a search at every draw of every block: its answer, every entry of its
//! three rooms, and what it refuses.

use nahuitepol::Checked;
use nahuitepol_tests::check::{check, numbers_needed, pairs_by, probe_length, MOST_DRAWS};
use nahuitepol_tests::log::{self, document_log, draws, Parts};
use nahuitepol_tests::rooms::Room;
use nahuitepol_tests::samples::{self, numbered, refused_logs};
use nahuitepol_tests::scans::{positions, Work};
use nahuitepol_tests::words::{fibonacci, Generator};

/// The rooms that the check takes.
struct Rooms {
    tables: Room<u16>,
    memory: Room,
    result: Room,
}

const NO_ROOMS: Work = Work { tables: 0, memory: 0 };

const NO_LINES: [[u32; 4]; 0] = [];

impl Rooms {
    fn new(work: Work, result: usize) -> Rooms {
        Rooms { tables: Room::new(work.tables), memory: Room::new(work.memory), result: Room::new(result) }
    }

    fn check(&mut self, log: &[u8], p: u32) -> Checked {
        nahuitepol::check(log, p, self.tables.lend(), self.memory.lend(), self.result.lend())
    }

    fn assert_after_success(&self, p: u32, result: &[u32], context: &str) {
        assert!(self.tables.holds_just(&vec![0; 16 * p as usize]), "tables room: {context}");
        assert!(self.memory.holds_just(&vec![0; 8 * p as usize]), "memory room: {context}");
        assert!(self.result.holds_just(result), "result room: {context}, not {result:?}");
    }

    fn assert_untouched(&self, context: &str) {
        assert!(self.tables.is_untouched(), "tables room: {context}");
        assert!(self.memory.is_untouched(), "memory room: {context}");
        assert!(self.result.is_untouched(), "result room: {context}");
    }
}

/// One check with rooms of these lengths, compared in its answer and in every entry.
fn compare_with(log: &[u8], p: u32, work: Work, result: usize) -> Checked {
    let mut rooms = Rooms::new(work, result);
    let answer = rooms.check(log, p);
    let context = format!("log of {} bytes, p {p}, rooms {work:?} and {result}", log.len());
    match check(log, p, work, result) {
        Ok(found) => {
            let pairs = (found.result.len() / 4) as u32;
            let expected = Checked { refusal: 0, entry: 0, pairs, unprobed: found.unprobed };
            assert_eq!(answer, expected, "{context}");
            rooms.assert_after_success(p, &found.result, &context);
        }
        Err(refusal) => {
            assert_eq!(answer, refused(refusal.number, refusal.entry), "{context}");
            rooms.assert_untouched(&context);
        }
    }
    answer
}

/// The work rooms that probes of p draws need.
fn exact(p: u32) -> Work {
    Work::exact(probe_length(p))
}

/// One check with rooms as long as needed, and one with longer ones.
fn compare(parts: &Parts, p: u32) -> Checked {
    let log = parts.bytes();
    let result = numbers_needed(parts.entries.len());
    compare_with(&log, p, exact(p), result);
    compare_with(&log, p, exact(p).longer(3, 2), result + 3)
}

/// The lines of a check of these blocks, whose ids are 1, 2, ..
fn lines(blocks: &[&[u8]], p: u32) -> Vec<[u32; 4]> {
    checked_lines(&numbered(blocks), p)
}

/// The lines of a check of this log.
fn checked_lines(parts: &Parts, p: u32) -> Vec<[u32; 4]> {
    let mut rooms = Rooms::new(exact(p), numbers_needed(parts.entries.len()));
    let answer = rooms.check(&parts.bytes(), p);
    assert_eq!(answer.refusal, 0);
    let numbers = &rooms.result.lend()[..4 * answer.pairs as usize];
    numbers.chunks(4).map(|line| line.try_into().expect("four numbers")).collect()
}

/// The places that both searches find, which look at every byte offset.
fn found(probe: &[u8], stream: &[u8]) -> Vec<u32> {
    let work = Work::exact(probe.len());
    let mut rooms = Rooms::new(work, stream.len());
    let plainly = nahuitepol::plain(probe, stream, rooms.tables.lend(), rooms.result.lend());
    let places = rooms.result.lend()[..plainly.written as usize].to_vec();
    let mut again = Rooms::new(work, stream.len());
    let remembered =
        nahuitepol::remember(probe, stream, again.tables.lend(), again.memory.lend(), again.result.lend());
    assert_eq!(again.result.lend()[..remembered.written as usize], places);
    places
}

fn refused(number: u32, entry: u32) -> Checked {
    Checked { refusal: number, entry, pairs: 0, unprobed: 0 }
}

fn expect_refusal(log: &[u8], p: u32, work: Work, result: usize, number: u32, entry: u32) {
    let answer = compare_with(log, p, work, result);
    assert_eq!(answer, refused(number, entry), "p {p}, rooms {work:?} and {result}");
}

/// A log whose blocks share many draws, at draw boundaries and elsewhere.
fn random_parts(generator: &mut Generator, most_replicates: usize, most_draws: usize) -> Parts {
    let values = [0, 1, 1 << 8, 1 << 32, 0x0101_0101_0101_0101, u64::MAX];
    let kinds = generator.between(1, values.len());
    samples::random_parts(generator, most_replicates, most_draws, |generator, length| {
        draws((0..length).map(|_| values[generator.below(kinds)]))
    })
}

#[test]
fn the_log_of_document_01_has_the_pair_3_7_64_1_and_9_unprobed() {
    let mut rooms = Rooms::new(Work { tables: 512, memory: 256 }, 24);
    let answer = rooms.check(&document_log(), 32);
    assert_eq!(answer, Checked { refusal: 0, entry: 0, pairs: 1, unprobed: 1 });
    rooms.assert_after_success(32, &[3, 7, 64, 1], "document 01");
    compare_with(&document_log(), 32, exact(32), 24);
}

#[test]
fn equal_blocks_overlap_both_ways_in_ascending_order() {
    let block = draws([4, 5, 6]);
    let expected = [[1, 2, 0, 1], [1, 3, 0, 1], [2, 1, 0, 1], [2, 3, 0, 1], [3, 1, 0, 1], [3, 2, 0, 1]];
    assert_eq!(lines(&[&block, &block, &block], 2), expected);
}

#[test]
fn an_owner_is_not_searched_for_its_own_probe() {
    let alone = draws([1, 2, 1, 2, 1, 2]);
    assert_eq!(lines(&[&alone], 2), NO_LINES);
    assert_eq!(lines(&[&alone, &draws([3, 4])], 2), NO_LINES);
}

#[test]
fn occurrences_may_overlap_each_other() {
    let owner = draws([7, 7, 1]);
    let searched = draws([9, 7, 7, 7, 7]);
    assert_eq!(lines(&[&owner, &searched], 2), [[1, 2, 8, 3]]);
}

#[test]
fn a_hit_inside_a_draw_is_no_overlap() {
    let owner = draws([0x0102_0304_0506_0708]);
    for offset in 1..=16 {
        let mut searched = vec![0; 24];
        searched[offset..offset + 8].copy_from_slice(&owner);
        assert_eq!(found(&owner, &searched), [offset as u32]);
        let expected = if offset % 8 == 0 { vec![[1, 2, offset as u32, 1]] } else { vec![] };
        assert_eq!(lines(&[&owner, &searched], 1), expected, "at byte {offset}");
    }
}

#[test]
fn counters_that_stand_three_bytes_higher_in_the_draw_are_no_overlap() {
    let owner = draws(1..33);
    let searched = draws((1..41).map(|counter| counter << 24));
    assert_eq!(found(&owner, &searched), [3]);
    assert_eq!(archived_lines(&numbered(&[&owner, &searched]), 32), [[1, 2, 3, 1]]);
    assert_eq!(lines(&[&owner, &searched], 32), NO_LINES);
}

#[test]
fn a_hit_inside_a_draw_before_one_that_begins_with_a_draw() {
    let owner = draws(1..33);
    let searched = [draws((1..33).map(|counter| counter << 24)), draws([0]), owner.clone()].concat();
    assert_eq!(found(&owner, &searched), [3, 264]);
    assert_eq!(archived_lines(&numbered(&[&owner, &searched]), 32), [[1, 2, 3, 2]]);
    assert_eq!(lines(&[&owner, &searched], 32), [[1, 2, 264, 1]]);
}

#[test]
fn equal_bytes_occur_at_every_offset_and_overlap_at_every_draw() {
    let owner = [7; 16];
    let searched = [&[1; 3][..], &[7; 45]].concat();
    assert_eq!(found(&owner, &searched), (3..=32).collect::<Vec<u32>>());
    assert_eq!(lines(&[&owner, &searched], 2), [[1, 2, 8, 4]]);
}

/// The lines that a check gave before hits inside a draw were told apart: over every byte offset.
fn archived_lines(parts: &Parts, p: u32) -> Vec<[u32; 4]> {
    let log = parts.bytes();
    let of_owner = |owner| pairs_by(positions, &log, &parts.entries, owner, probe_length(p));
    parts.entries.iter().filter_map(of_owner).flatten().collect()
}

/// What an archived line tells of today's, without the log: it stays, its occurrences may be fewer, it is gone, or
/// it may be gone or have both numbers changed.
fn assert_follows(archived: [u32; 4], today: Option<[u32; 4]>, seen: &mut [u32; 5]) {
    let [owner, searched, first, number] = archived;
    let kind = match (first % 8, number, today) {
        (0, 1, Some(line)) if line == archived => 0,
        (0, 2.., Some([_, _, f, n])) if f == first && (1..=number).contains(&n) => 1,
        (1.., 1, None) => 2,
        (1.., 2.., Some([_, _, f, n])) if f > first && (1..number).contains(&n) => 3,
        (1.., 2.., None) => 4,
        _ => panic!("{owner} {searched} {first} {number} became {today:?}"),
    };
    seen[kind] += 1;
}

#[test]
fn what_becomes_of_the_lines_of_an_archived_night() {
    let mut generator = Generator::new(43);
    let mut seen = [0; 5];
    for _ in 0..6_000 {
        let parts = random_parts(&mut generator, 6, 8);
        let p = generator.between(1, 3) as u32;
        let mut today = checked_lines(&parts, p);
        for archived in archived_lines(&parts, p) {
            let same_pair = |line: &&[u32; 4]| line[..2] == archived[..2];
            assert_follows(archived, today.iter().find(same_pair).copied(), &mut seen);
            today.retain(|line| line[..2] != archived[..2]);
        }
        assert_eq!(today, NO_LINES, "lines that no archived one stands for");
    }
    assert!(seen.iter().all(|&times| times > 100), "{seen:?}: some kind is hardly seen");
}

#[test]
fn the_first_offset_counts_from_the_start_of_the_searched_block() {
    let owner = draws([41, 42]);
    let searched = draws([1, 41, 42, 41, 42]);
    assert_eq!(lines(&[&draws([0; 9]), &owner, &searched], 2), [[2, 3, 8, 2]]);
    assert_eq!(lines(&[&searched, &draws([0; 9]), &owner], 2), [[3, 1, 8, 2]]);
}

#[test]
fn a_probe_across_two_blocks_or_in_the_directory_is_not_found() {
    let owner = draws([41, 42]);
    assert_eq!(lines(&[&owner, &draws([1, 41]), &draws([42, 2])], 2), NO_LINES);
    let directory_like = draws([1]);
    let log = numbered(&[&directory_like, &draws([2])]).bytes();
    assert!(log[16..].windows(8).any(|bytes| bytes == directory_like), "the directory has these bytes");
    assert_eq!(lines(&[&directory_like, &draws([2])], 1), NO_LINES);
}

#[test]
fn an_owner_with_exactly_p_draws_is_probed_and_one_with_fewer_is_not() {
    let long = draws([1, 2, 3, 4]);
    let parts = numbered(&[&draws([1, 2, 3]), &long, &draws([2, 3]), &[]]);
    assert_eq!(compare(&parts, 3), Checked { refusal: 0, entry: 0, pairs: 2, unprobed: 2 });
    assert_eq!(compare(&parts, 4), Checked { refusal: 0, entry: 0, pairs: 0, unprobed: 3 });
    assert_eq!(compare(&parts, 5), Checked { refusal: 0, entry: 0, pairs: 0, unprobed: 4 });
    assert_eq!(compare(&parts, 2), Checked { refusal: 0, entry: 0, pairs: 4, unprobed: 1 });
}

#[test]
fn one_replicate_needs_no_result_room_and_has_no_pair() {
    for length in [0, 1, 5] {
        let log = numbered(&[&draws((0..length).map(|_| 0))]).bytes();
        let answer = compare_with(&log, 2, exact(2), 0);
        let unprobed = u32::from(length < 2);
        assert_eq!(answer, Checked { refusal: 0, entry: 0, pairs: 0, unprobed });
    }
}

#[test]
fn sixty_four_equal_replicates_give_4032_pairs() {
    let block = draws([3; 10]);
    let parts = numbered(&[&block[..]; 64]);
    assert_eq!(compare(&parts, 10), Checked { refusal: 0, entry: 0, pairs: 4_032, unprobed: 0 });
    assert_eq!(compare(&parts, 1).pairs, 4_032);
    let log = parts.bytes();
    compare_with(&log, 10, exact(10), 16_128);
    expect_refusal(&log, 10, exact(10), 16_127, 5, 0);
}

#[test]
fn the_greatest_probe_in_a_log_of_the_greatest_length() {
    let mut generator = Generator::new(40);
    let owner = generator.word(256, 4_096);
    let noise = generator.word(2, 65_512 - 24 - 3 * 4_096);
    let searched = [&noise[..], &owner, &owner].concat();
    let parts = numbered(&[&owner, &searched, &[]]);
    assert_eq!(parts.bytes().len(), log::LONGEST);
    assert_eq!(compare(&parts, MOST_DRAWS), Checked { refusal: 0, entry: 0, pairs: 1, unprobed: 1 });
    assert_eq!(lines(&[&owner, &searched], MOST_DRAWS), [[1, 2, noise.len() as u32, 2]]);
}

#[test]
fn equal_bytes_in_all_blocks() {
    for p in [1, 2, 7, 8, 64, 512] {
        let parts = numbered(&[&[0; 8_192][..], &[0; 4_096], &[0; 56], &[], &[0; 16_384]]);
        compare(&parts, p);
    }
}

#[test]
fn fibonacci_words_in_all_blocks() {
    let word = fibonacci(12_000);
    let parts = numbered(&[&word[..8_000], &word[13..4_013], &word[34..1_034], &word[89..6_089]]);
    for p in [1, 2, 3, 5, 30, 125, 200, 500] {
        compare(&parts, p);
    }
}

#[test]
fn logs_made_at_random() {
    let mut generator = Generator::new(41);
    let mut pairs = 0;
    for _ in 0..12_000 {
        let parts = random_parts(&mut generator, 6, 8);
        let p = generator.between(1, 4) as u32;
        pairs += compare(&parts, p).pairs;
    }
    assert!(pairs > 10_000, "only {pairs} pairs: the logs say little");
}

#[test]
fn larger_logs_made_at_random() {
    let mut generator = Generator::new(42);
    for _ in 0..150 {
        let parts = random_parts(&mut generator, 64, 100);
        let p = generator.between(1, 40) as u32;
        compare(&parts, p);
    }
}

#[test]
fn p_outside_1_to_512_is_refused_20() {
    let log = document_log();
    for p in [0, 513, 514, 1_024, 1 << 16, 1 << 29, (1 << 29) + 1, (1 << 29) + 32, 1 << 31, u32::MAX] {
        expect_refusal(&log, p, Work { tables: 10_000, memory: 5_000 }, 24, 20, 0);
        expect_refusal(&log, p, NO_ROOMS, 0, 20, 0);
    }
    assert_eq!(compare_with(&log, 512, Work { tables: 8_192, memory: 4_096 }, 24).unprobed, 3);
    assert_eq!(compare_with(&log, 1, Work { tables: 16, memory: 8 }, 24).unprobed, 0);
}

#[test]
fn each_work_room_short_by_one_is_refused_4_and_all_rooms_left_alone() {
    for p in [1, 2, 32, 512] {
        let need = probe_length(p);
        for (tables, memory) in [(1, 0), (need, 0), (2 * need, 0), (0, 1), (0, need), (1, 1)] {
            expect_refusal(&document_log(), p, exact(p).shorter(tables, memory), 24, 4, 0);
        }
        expect_refusal(&document_log(), p, NO_ROOMS, 24, 4, 0);
    }
}

#[test]
fn a_short_work_room_is_refused_4_even_if_no_owner_is_probed() {
    let unprobed = numbered(&[&draws([1]), &[], &draws([2])]).bytes();
    expect_refusal(&unprobed, 32, Work { tables: 511, memory: 256 }, 24, 4, 0);
    expect_refusal(&unprobed, 32, Work { tables: 512, memory: 8 }, 24, 4, 0);
    let alone = numbered(&[&[]]).bytes();
    expect_refusal(&alone, 512, Work { tables: 8_191, memory: 4_096 }, 0, 4, 0);
    expect_refusal(&alone, 512, Work { tables: 8_192, memory: 4_095 }, 0, 4, 0);
    assert_eq!(compare_with(&alone, 512, exact(512), 0).unprobed, 1);
}

#[test]
fn work_rooms_end_at_0_even_if_no_search_was_made() {
    let nothing_to_search =
        [numbered(&[&draws([1, 2, 3])]), numbered(&[&[], &[], &[]]), numbered(&[&draws([1]), &draws([2])])];
    for parts in &nothing_to_search {
        assert_eq!(compare(parts, 3).pairs, 0);
        assert_eq!(compare(parts, 512).pairs, 0);
    }
}

#[test]
fn a_result_room_below_4_c_times_c_minus_1_is_refused_5() {
    for count in 2..=64usize {
        let log = numbered(&vec![&[][..]; count]).bytes();
        let need = 4 * count * (count - 1);
        expect_refusal(&log, 1, exact(1), need - 1, 5, 0);
        expect_refusal(&log, 1, exact(1), 0, 5, 0);
        assert_eq!(compare_with(&log, 1, exact(1), need).refusal, 0);
        assert_eq!(compare_with(&log, 1, exact(1), need + 1).refusal, 0);
    }
}

#[test]
fn refusals_come_in_the_order_log_20_4_5() {
    let sound = document_log();
    let wrong_mark = Parts { mark: *b"WARD", ..numbered(&[&[], &[]]) }.bytes();
    expect_refusal(&wrong_mark, 0, NO_ROOMS, 0, 12, 0);
    expect_refusal(&wrong_mark, 32, exact(32), 24, 12, 0);
    expect_refusal(&sound, 0, NO_ROOMS, 0, 20, 0);
    expect_refusal(&sound, 513, exact(32), 23, 20, 0);
    expect_refusal(&sound, 32, Work { tables: 511, memory: 255 }, 23, 4, 0);
    expect_refusal(&sound, 32, Work { tables: 511, memory: 256 }, 23, 4, 0);
    expect_refusal(&sound, 32, Work { tables: 512, memory: 255 }, 23, 4, 0);
    expect_refusal(&sound, 32, exact(32), 23, 5, 0);
}

#[test]
fn every_choice_of_short_exact_and_longer_rooms() {
    let log = document_log();
    for p in [0, 2, 513] {
        for tables in [0, 15, 16, 31, 32, 33, 35] {
            for memory in [0, 15, 16, 17] {
                for result in [0, 23, 24, 25] {
                    compare_with(&log, p, Work { tables, memory }, result);
                }
            }
        }
    }
}

#[test]
fn refused_logs_carry_their_number_and_entry() {
    for (log, refusal) in refused_logs() {
        expect_refusal(&log, 1, exact(1), 24, refusal.number, refusal.entry);
        expect_refusal(&log, 0, NO_ROOMS, 0, refusal.number, refusal.entry);
    }
}

#[test]
fn what_the_rooms_held_before_does_not_matter() {
    let mut generator = Generator::new(43);
    for _ in 0..3_000 {
        let parts = random_parts(&mut generator, 4, 6);
        let need = numbers_needed(parts.entries.len());
        let mut left_over =
            |length: usize| -> Vec<u16> { (0..length).map(|_| generator.below(17) as u16).collect() };
        let wide = |numbers: Vec<u16>| -> Vec<u32> { numbers.into_iter().map(u32::from).collect() };
        let mut rooms = Rooms {
            tables: Room::holding(&left_over(33)),
            memory: Room::holding(&wide(left_over(18))),
            result: Room::holding(&wide(left_over(need))),
        };
        let answer = rooms.check(&parts.bytes(), 2);
        let found = check(&parts.bytes(), 2, Work { tables: 33, memory: 18 }, need).expect("a sound log");
        assert_eq!((answer.refusal, answer.unprobed), (0, found.unprobed));
        rooms.assert_after_success(2, &found.result, "rooms in use before");
    }
}

#[test]
fn the_log_stays_as_it_was() {
    let mut generator = Generator::new(44);
    for _ in 0..500 {
        let log = random_parts(&mut generator, 5, 6).bytes();
        let before = log.clone();
        let answer = Rooms::new(exact(2), numbers_needed(5)).check(&log, 2);
        assert_eq!(answer.refusal, 0);
        assert!(log == before, "the log was written to");
    }
}
