//! The program `overlap`, run as a program: what it writes to standard output for what it reads from standard
//! input, and its exit status, which is always 0.

use std::fs::{self, File};
use std::io::{ErrorKind, Write};
use std::path::{Path, PathBuf};
use std::process::{ChildStdin, Command, Output, Stdio};
use std::thread;
use std::time::Duration;

use nahuitepol_tests::listing::listing;
use nahuitepol_tests::log::{document_log, draws, Entry, Parts, LONGEST};
use nahuitepol_tests::samples::{damage, numbered, random_parts, refused_logs, with_entries};
use nahuitepol_tests::words::{fibonacci, Generator};

const PROGRAM: &str = concat!(env!("CARGO_MANIFEST_DIR"), "/../../crates/overlap/out/overlap");

/// Document 01's log as the repository has it, for the gate and the examples.
const STORED_LOG: &str = concat!(env!("CARGO_MANIFEST_DIR"), "/../../crates/overlap/stdin");

/// The bytes that the program reads before it stops: one more than a log may have.
const READ_AT_MOST: usize = LONGEST + 1;

/// Runs the program on a pipe into which these pieces are written one by one, with a pause after each.
fn run_on_pieces<'a>(pieces: impl Iterator<Item = &'a [u8]>, pause: Duration) -> Output {
    let mut child = Command::new(PROGRAM)
        .stdin(Stdio::piped())
        .stdout(Stdio::piped())
        .stderr(Stdio::piped())
        .spawn()
        .expect("the program starts");
    let mut input = child.stdin.take().expect("a pipe");
    let mut sent = 0;
    for piece in pieces {
        if !send(&mut input, piece) {
            assert!(sent + piece.len() > READ_AT_MOST, "the program closed its input before the end");
            break;
        }
        sent += piece.len();
        thread::sleep(pause);
    }
    drop(input);
    child.wait_with_output().expect("the program ends")
}

/// Writes a piece. False where the program no longer reads.
fn send(input: &mut ChildStdin, piece: &[u8]) -> bool {
    match input.write_all(piece) {
        Ok(()) => true,
        Err(error) => {
            assert_eq!(error.kind(), ErrorKind::BrokenPipe, "{error}");
            false
        }
    }
}

/// Runs the program with its input and output as this shell redirection says.
fn run_redirected(redirection: &str) -> Output {
    let command = format!("exec \"$0\" {redirection}");
    Command::new("sh").args(["-c", &command, PROGRAM]).output().expect("the shell starts")
}

fn assert_wrote(ran: &Output, text: &str, context: &str) {
    assert_eq!(String::from_utf8_lossy(&ran.stdout), text, "{context}");
    assert_eq!(ran.status.code(), Some(0), "exit status: {context}");
    assert!(ran.stderr.is_empty(), "standard error: {context}");
}

/// One run, compared with the text that the log's bytes call for, which is handed back.
fn compare(log: &[u8]) -> String {
    let text = listing(log);
    let ran = run_on_pieces([log].into_iter(), Duration::ZERO);
    assert_wrote(&ran, &text, &format!("log of {} bytes", log.len()));
    text
}

/// One run on an input that comes in pieces of this length.
fn compare_slowly(log: &[u8], length: usize, milliseconds: u64) {
    let ran = run_on_pieces(log.chunks(length), Duration::from_millis(milliseconds));
    assert_wrote(&ran, &listing(log), &format!("log of {} bytes in pieces of {length}", log.len()));
}

fn expect(log: &[u8], text: &str) {
    assert_eq!(compare(log), text);
}

fn temporary_file(name: &str, bytes: &[u8]) -> PathBuf {
    let path = Path::new(env!("CARGO_TARGET_TMPDIR")).join(name);
    fs::write(&path, bytes).expect("a file is written");
    path
}

/// A sound log of this many replicates, all draws made of one byte, as long as a log may be.
fn stuck_log(replicates: usize, byte: u8) -> Vec<u8> {
    let room = (LONGEST - 12 * replicates - 12) / 8 * 8;
    let each = room / replicates / 8 * 8;
    let last = vec![byte; room - each * (replicates - 1)];
    let mut blocks = vec![&last[..each]; replicates];
    blocks[replicates - 1] = &last;
    numbered(&blocks).bytes()
}

/// A small log whose blocks are stretches of few streams, so that many begin with draws that stand elsewhere too.
fn random_log(generator: &mut Generator) -> Parts {
    let values = generator.between(1, 300);
    let sound = draws((0..120).map(|_| generator.number() % values as u64));
    let poor = generator.word(2, 960);
    random_parts(generator, 7, 100, |generator, length| match generator.below(8) {
        0 => vec![7; 8 * length],
        1 | 2 => generator.stretch(&poor, 8 * length),
        3 => generator.stretch(&sound, 8 * length),
        _ => {
            let start = 8 * generator.below(120 - length + 1);
            sound[start..start + 8 * length].to_vec()
        }
    })
}

#[test]
fn the_log_of_document_01() {
    let stored = fs::read(STORED_LOG).expect("the stored log is there");
    assert!(stored == document_log(), "the stored log is not document 01's");
    expect(&stored, "replicates 3 probe 32\n3 7 64 1\nunprobed 9\ntotal 1 1\n");
}

#[test]
fn no_input_at_all() {
    expect(&[], "refused 10 0\n");
    assert_wrote(&run_redirected("</dev/null"), "refused 10 0\n", "an empty device");
}

#[test]
fn an_input_that_is_closed_or_cannot_be_read_counts_as_empty() {
    assert_wrote(&run_redirected("<&-"), "refused 10 0\n", "a closed input");
    assert_wrote(&run_redirected("</"), "refused 10 0\n", "a directory");
}

#[test]
fn the_least_logs() {
    expect(&numbered(&[&[]]).bytes(), "replicates 1 probe 32\nunprobed 1\ntotal 0 1\n");
    expect(&numbered(&[&draws(0..32)]).bytes(), "replicates 1 probe 32\ntotal 0 0\n");
    let both = "replicates 2 probe 32\nunprobed 1\nunprobed 2\ntotal 0 2\n";
    expect(&numbered(&[&draws(0..31), &draws(0..31)]).bytes(), both);
}

#[test]
fn unprobed_lines_stand_at_their_owners_turn() {
    let (long, short) = (draws(0..33), draws(0..31));
    let text = "replicates 4 probe 32\nunprobed 1\n2 4 0 1\nunprobed 3\n4 2 0 1\ntotal 2 2\n";
    expect(&numbered(&[&short, &long, &[], &long]).bytes(), text);
}

#[test]
fn a_pair_in_both_directions() {
    let front = draws([0x0102_0304_0506_0708; 32]);
    expect(&numbered(&[&front, &front]).bytes(), "replicates 2 probe 32\n1 2 0 1\n2 1 0 1\ntotal 2 0\n");
}

#[test]
fn a_hit_inside_a_draw_is_no_line() {
    let front = draws([0x0102_0304_0506_0708; 32]);
    let later = [&[9; 3][..], &front, &front, &[9; 5]].concat();
    expect(&numbered(&[&front, &later]).bytes(), "replicates 2 probe 32\ntotal 0 0\n");
    let counters = draws(1..33);
    let higher = draws((1..41).map(|counter| counter << 24));
    expect(&numbered(&[&counters, &higher]).bytes(), "replicates 2 probe 32\ntotal 0 0\n");
}

#[test]
fn a_line_tells_the_first_hit_that_begins_with_a_draw_and_how_many_do() {
    let front = draws([0x0102_0304_0506_0708; 32]);
    let later = [&[9; 3][..], &front, &[9; 5], &front, &front].concat();
    expect(&numbered(&[&front, &later]).bytes(), "replicates 2 probe 32\n1 2 264 33\ntotal 1 0\n");
}

#[test]
fn ids_up_to_the_greatest() {
    let block = draws(5..40);
    let log = Parts::of(&[(0, &block), (1 << 31, &block), (u32::MAX, &[])]).bytes();
    let text = "replicates 3 probe 32\n0 2147483648 0 1\n2147483648 0 0 1\nunprobed 4294967295\ntotal 2 1\n";
    expect(&log, text);
}

#[test]
fn every_refusal_with_its_entry() {
    for (log, refusal) in refused_logs() {
        expect(&log, &format!("refused {} {}\n", refusal.number, refusal.entry));
    }
}

#[test]
fn refusals_15_to_17_at_every_entry() {
    let sound: Vec<Entry> = (0..64).map(|k| Entry { id: 10 + k, start: 8 * k, length: 8 }).collect();
    compare(&with_entries(512, &sound).bytes());
    for place in 0..64 {
        let refused = |number, change: fn(&mut Entry)| {
            let mut entries = sound.clone();
            change(&mut entries[place]);
            expect(&with_entries(512, &entries).bytes(), &format!("refused {number} {place}\n"));
        };
        if place > 0 {
            refused(15, |entry| entry.id = 10);
        }
        refused(16, |entry| entry.start ^= 4);
        refused(17, |entry| entry.length += 4);
        let fewer = &sound[..place + 1];
        expect(&with_entries(520, fewer).bytes(), &format!("refused 16 {}\n", fewer.len()));
    }
}

#[test]
fn sums_that_would_wrap_in_32_bits() {
    let entry = |id, start, length| Entry { id, start, length };
    let half = 1 << 31;
    let ends = with_entries(0, &[entry(1, 0, half), entry(2, half, half)]);
    expect(&ends.bytes(), "refused 16 2\n");
    let directory = Parts { directory_start: u32::MAX - 23, count: 3, ..with_entries(0, &[entry(0, 0, 0)]) };
    expect(&directory.bytes(), "refused 14 0\n");
}

#[test]
fn inputs_of_the_greatest_length() {
    let alone = numbered(&[&vec![1; LONGEST - 24]]).bytes();
    assert_eq!(alone.len(), LONGEST);
    expect(&alone, "replicates 1 probe 32\ntotal 0 0\n");
    let noise = Generator::new(50).word(256, LONGEST);
    expect(&noise, "refused 12 0\n");
    let word = fibonacci(30_000);
    let two = numbered(&[&word[..20_000], &word[1_000..], &draws(0..2_055), &[]]).bytes();
    assert_eq!(two.len(), 65_500);
    compare(&two);
}

#[test]
fn longer_inputs_are_refused_11() {
    let too_long = numbered(&[&vec![1; LONGEST - 16]]).bytes();
    assert_eq!(too_long.len(), LONGEST + 8);
    expect(&too_long, "refused 11 0\n");
    let greatest = numbered(&[&vec![1; LONGEST - 24]]).bytes();
    expect(&[&greatest[..], &[0]].concat(), "refused 11 0\n");
    expect(&[&[0][..], &greatest].concat(), "refused 11 0\n");
    for length in [READ_AT_MOST, 200_000] {
        expect(&vec![0; length], "refused 11 0\n");
        expect(&Generator::new(51).word(256, length), "refused 11 0\n");
    }
    assert_wrote(&run_redirected("</dev/zero"), "refused 11 0\n", "an input without end");
}

#[test]
fn sixty_four_equal_replicates_give_4032_lines() {
    let block = draws(100..132);
    let text = compare(&numbered(&[&block[..]; 64]).bytes());
    assert_eq!(text.lines().count(), 4_034);
    assert!(text.ends_with("64 63 0 1\ntotal 4032 0\n"));
}

#[test]
fn a_stuck_generator() {
    let text = "replicates 3 probe 32
1 2 0 2697\n1 3 0 2699\n2 1 0 2697\n2 3 0 2699\n3 1 0 2697\n3 2 0 2697\ntotal 6 0\n";
    for byte in [0, 0x44, 0xFF] {
        expect(&stuck_log(3, byte), text);
        assert!(compare(&stuck_log(64, byte)).ends_with("total 4032 0\n"));
    }
}

#[test]
fn the_longest_lines() {
    let block = [0; 1_008];
    let replicates: Vec<(u32, &[u8])> = (0..64).map(|k| (u32::MAX - 63 + k, &block[..])).collect();
    let text = compare(&Parts::of(&replicates).bytes());
    assert!(text.len() > 108_000, "{} bytes", text.len());
}

#[test]
fn input_that_comes_in_small_pieces() {
    compare_slowly(&document_log(), 1, 1);
    for length in [7, 12, 100, 331, 663] {
        compare_slowly(&document_log(), length, 5);
    }
    for (log, _) in refused_logs() {
        compare_slowly(&log, log.len() / 3 + 1, 5);
    }
}

#[test]
fn long_input_that_comes_in_pieces() {
    for log in [stuck_log(5, 0), vec![0; READ_AT_MOST], vec![0; 200_000]] {
        for length in [4_095, 4_096, 4_097, 30_000, LONGEST - 1] {
            compare_slowly(&log, length, 2);
        }
    }
}

#[test]
fn a_file_is_read_like_a_pipe() {
    let logs = [document_log(), stuck_log(9, 1), vec![0; 200_000], vec![]];
    for log in &logs {
        let path = temporary_file("input.log", log);
        let file = File::open(path).expect("the file opens");
        let ran = Command::new(PROGRAM).stdin(file).output().expect("the program runs");
        assert_wrote(&ran, &listing(log), &format!("file of {} bytes", log.len()));
    }
}

#[test]
fn output_that_cannot_be_written_is_lost() {
    let path = temporary_file("output.log", &document_log());
    let input = path.to_str().expect("a path in UTF-8");
    for output in [">/dev/full", ">&-"] {
        let ran = run_redirected(&format!("<'{input}' {output}"));
        assert_wrote(&ran, "", output);
    }
}

#[test]
fn logs_made_at_random() {
    let mut generator = Generator::new(52);
    let mut pairs = 0;
    for _ in 0..3_000 {
        let text = compare(&random_log(&mut generator).bytes());
        pairs += text.lines().filter(|line| line.starts_with(|c: char| c.is_ascii_digit())).count();
    }
    assert!(pairs > 2_000, "only {pairs} pairs: the logs say little");
}

#[test]
fn logs_damaged_at_random() {
    let mut generator = Generator::new(53);
    let mut refused = 0;
    for _ in 0..2_000 {
        let mut parts = random_log(&mut generator);
        for _ in 0..generator.between(1, 2) {
            damage(&mut generator, &mut parts);
        }
        refused += usize::from(compare(&parts.bytes()).starts_with("refused"));
    }
    assert!((1_000..2_000).contains(&refused), "{refused} of 2,000 refused: the damage says little");
}

#[test]
fn logs_with_a_changed_byte_or_cut_short() {
    let mut generator = Generator::new(54);
    for _ in 0..1_000 {
        let mut log = random_log(&mut generator).bytes();
        let place = generator.below(log.len());
        log[place] ^= 1 << generator.below(8);
        compare(&log);
        compare(&log[..place]);
        compare(&log[place..]);
    }
}
