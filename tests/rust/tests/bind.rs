//! The program `bind`, run as a program: the line that it prints, the log that it leaves, and what it leaves alone.

use std::ffi::{OsStr, OsString};
use std::fs::{self, File};
use std::io::Write;
use std::os::unix::ffi::OsStrExt;
use std::os::unix::fs::{symlink, PermissionsExt};
use std::path::{Path, PathBuf};
use std::process::{Command, Output, Stdio};
use std::thread;
use std::time::Duration;

use nahuitepol_tests::log::{document_log, draws, LONGEST, MOST_REPLICATES};
use nahuitepol_tests::words::Generator;
use nahuitepol_tests::writer::Contents;

const PROGRAM: &str = concat!(env!("CARGO_MANIFEST_DIR"), "/../../crates/bind/out/bind");
const OVERLAP: &str = concat!(env!("CARGO_MANIFEST_DIR"), "/../../crates/overlap/out/overlap");
const SCRATCH: &str = concat!(env!("CARGO_MANIFEST_DIR"), "/../../target/tests/bind-runs");

const USAGE: &str = "usage: bind LOG ID FILE ID FILE ..\n";
const LOG: &str = "night.log";

/// A folder of a test's own, empty at first, in which the program is run.
struct Folder(PathBuf);

impl Folder {
    fn new(name: &str) -> Folder {
        let path = Path::new(SCRATCH).join(name);
        let _ = fs::remove_dir_all(&path);
        fs::create_dir_all(&path).expect("a folder is made");
        Folder(path)
    }

    fn path(&self, name: impl AsRef<Path>) -> PathBuf {
        self.0.join(name)
    }

    fn put(&self, name: impl AsRef<Path>, bytes: &[u8]) {
        fs::write(self.path(name), bytes).expect("a file is written");
    }

    fn get(&self, name: impl AsRef<Path>) -> Vec<u8> {
        fs::read(self.path(name)).expect("the file is there")
    }

    fn names(&self) -> Vec<OsString> {
        let mut names: Vec<_> =
            fs::read_dir(&self.0).unwrap().map(|entry| entry.unwrap().file_name()).collect();
        names.sort();
        names
    }

    fn command<S: AsRef<OsStr>>(&self, words: &[S]) -> Command {
        let mut command = Command::new(PROGRAM);
        command.args(words).current_dir(&self.0);
        command
    }

    /// Runs the program on these words, and hands back its line.
    fn run<S: AsRef<OsStr>>(&self, words: &[S]) -> String {
        said(self.command(words).output().expect("the program runs"))
    }

    /// Runs the program on words that end in this line, and sees to it that no file came, went or changed.
    fn run_in_vain<S: AsRef<OsStr>>(&self, words: &[S], line: &str) {
        let state = || {
            let names = self.names();
            names.iter().map(|name| (name.clone(), fs::read(self.path(name)).ok())).collect::<Vec<_>>()
        };
        let before = state();
        assert_eq!(self.run(words), line);
        assert!(state() == before, "something changed in the folder: {line}");
    }

    /// Binds these files, and compares the line and the log with those of the independent writer.
    fn compare(&self, replicates: &[(u32, &str)]) -> String {
        let files: Vec<Vec<u8>> = replicates.iter().map(|(_, file)| self.get(file)).collect();
        let contents = Contents {
            blocks: files.concat(),
            ids: replicates.iter().map(|(id, _)| *id).collect(),
            lengths: files.iter().map(|file| file.len() as u32).collect(),
        };
        let words = words(LOG, replicates);
        match contents.write(LONGEST) {
            Ok(log) => {
                let line = self.run(&words);
                assert_eq!(line, format!("bound {} {}\n", replicates.len(), log.len()));
                assert!(self.get(LOG) == log, "another log than the independent writer's");
                line
            }
            Err(refusal) => {
                let line = format!("refused {} {}\n", refusal.number, refusal.entry);
                self.run_in_vain(&words, &line);
                line
            }
        }
    }
}

/// The line of a run. Its exit status is always 0, and it writes nothing else.
fn said(ran: Output) -> String {
    assert_eq!(ran.status.code(), Some(0), "exit status");
    assert!(ran.stderr.is_empty(), "standard error");
    String::from_utf8(ran.stdout).expect("a line in ASCII")
}

fn words(log: &str, replicates: &[(u32, &str)]) -> Vec<String> {
    let pairs = replicates.iter().flat_map(|(id, file)| [id.to_string(), file.to_string()]);
    [log.to_string()].into_iter().chain(pairs).collect()
}

/// A folder with an old log, and files `one` and `two` of some draws.
fn with_old_log(name: &str) -> Folder {
    let folder = Folder::new(name);
    folder.put(LOG, b"the log of last night");
    folder.put("one", &draws(0..40));
    folder.put("two", &draws(100..133));
    folder
}

/// Whether this process may do anything, as the superuser may, so that permissions keep it from nothing.
fn may_all(folder: &Folder) -> bool {
    folder.put("locked", b"");
    fs::set_permissions(folder.path("locked"), fs::Permissions::from_mode(0o000)).unwrap();
    let opened = File::open(folder.path("locked")).is_ok();
    fs::remove_file(folder.path("locked")).unwrap();
    opened
}

#[test]
fn the_log_of_document_01_and_its_listing() {
    let folder = Folder::new("document");
    folder.put("three", &draws(0..32));
    folder.put("seven", &draws((100..108).chain(0..32)));
    folder.put("nine", &draws([0; 5]));
    assert_eq!(folder.compare(&[(3, "three"), (7, "seven"), (9, "nine")]), "bound 3 664\n");
    assert!(folder.get(LOG) == document_log());
    let log = File::open(folder.path(LOG)).unwrap();
    let listing = said(Command::new(OVERLAP).stdin(log).output().unwrap());
    assert_eq!(listing, "replicates 3 probe 32\n3 7 64 1\nunprobed 9\ntotal 1 1\n");
}

#[test]
fn replicates_at_random() {
    let folder = Folder::new("random");
    let mut generator = Generator::new(80);
    let names: Vec<String> = (0..7).map(|k| format!("draws-{k}")).collect();
    let mut bound = 0;
    for _ in 0..300 {
        let mut id = generator.pick(&[0, 3, 0xFFFF_FF00]);
        let mut replicates = Vec::new();
        for name in &names[..generator.between(1, 7)] {
            let length = 8 * generator.below(200) + generator.pick(&[0, 0, 0, 0, 0, 0, 0, 4]);
            folder.put(name, &generator.word(256, length));
            replicates.push((id, name.as_str()));
            id += generator.pick(&[1, 1, 1, 1, 1, 1, 9, 0]);
        }
        bound += usize::from(folder.compare(&replicates).starts_with("bound"));
    }
    assert!((75..225).contains(&bound), "{bound} of 300 bound: the cases say little");
}

#[test]
fn how_it_is_called() {
    let folder = with_old_log("usage");
    folder.run_in_vain::<&str>(&[], USAGE);
    folder.run_in_vain(&[LOG, "1"], USAGE);
    folder.run_in_vain(&[LOG, "1", "one", "2"], USAGE);
    folder.run_in_vain(&[LOG, "no id"], USAGE);
}

#[test]
fn no_replicate_and_too_many() {
    let folder = with_old_log("number");
    folder.run_in_vain(&[LOG], "refused 13 0\n");
    let ids = |count| (0..count).map(|id| (id, "two")).collect::<Vec<_>>();
    let most = MOST_REPLICATES;
    assert_eq!(folder.compare(&ids(most)), "bound 64 17676\n");
    assert_eq!(folder.compare(&ids(most + 1)), "refused 13 0\n");
    let missing: Vec<(u32, &str)> = (0..100).map(|id| (id, "no such file")).collect();
    folder.run_in_vain(&words(LOG, &missing), "refused 13 0\n");
}

#[test]
fn ids_out_of_order_and_draws_cut_short() {
    let folder = with_old_log("entries");
    folder.put("cut", &[1; 12]);
    folder.put("empty", b"");
    assert_eq!(folder.compare(&[(5, "one"), (5, "two")]), "refused 15 1\n");
    assert_eq!(folder.compare(&[(5, "one"), (6, "two"), (0, "one")]), "refused 15 2\n");
    assert_eq!(folder.compare(&[(1, "cut"), (0, "two")]), "refused 17 0\n");
    assert_eq!(folder.compare(&[(1, "one"), (2, "cut"), (2, "cut")]), "refused 17 1\n");
    assert_eq!(folder.compare(&[(1, "one"), (0, "cut")]), "refused 15 1\n");
    assert_eq!(folder.compare(&[(1, "empty"), (2, "one"), (3, "empty")]), "bound 3 368\n");
    assert_eq!(folder.compare(&[(0, "empty")]), "bound 1 24\n");
}

#[test]
fn ids_as_they_may_be_written() {
    let folder = with_old_log("ids");
    for (text, id) in [("0", 0), ("0007", 7), ("4294967295", u32::MAX), ("00004294967295", u32::MAX)] {
        assert_eq!(folder.run(&[LOG, text, "one"]), "bound 1 344\n");
        let bound = folder.get(LOG);
        folder.compare(&[(id, "one")]);
        assert!(folder.get(LOG) == bound, "{text} is not read as {id}");
    }
    let long = format!("{}7", "0".repeat(100_000));
    assert_eq!(folder.run(&[LOG, &long, "one"]), "bound 1 344\n");
}

#[test]
fn texts_that_are_no_ids() {
    let folder = with_old_log("bad-ids");
    let wraps =
        ["4294967296", "4294967303", "18446744073709551615", "18446744073709551616", "36893488147419103232"];
    let others = ["", "-1", "+1", " 1", "1 ", "0x1", "1e3", "1.0", "seven", "1/", "1:", "7\n"];
    let long = ["9".repeat(5_000), "1".repeat(100_000), format!("{}x", "0".repeat(131_000))];
    for text in wraps.into_iter().chain(others).chain(long.iter().map(String::as_str)) {
        folder.run_in_vain(&[LOG, text, "one"], &format!("bad id {text}\n"));
        folder.run_in_vain(&[LOG, "1", "no such file", text, "one"], &format!("bad id {text}\n"));
    }
    let raw = OsStr::from_bytes(&[0x31, 0xFF, 0x80]);
    let ran = folder.command(&[OsStr::new(LOG), raw, OsStr::new("one")]).output().unwrap();
    assert_eq!(ran.stdout, b"bad id 1\xFF\x80\n");
}

#[test]
fn files_that_cannot_be_read() {
    let folder = with_old_log("unread");
    fs::create_dir(folder.path("folder")).unwrap();
    let long = "f".repeat(256);
    let far = format!("./{}one", "x/../".repeat(900));
    for file in ["no such file", "folder", "", "one/", &long, &far] {
        folder.run_in_vain(&[LOG, "1", file], &format!("cannot read {file}\n"));
        folder.run_in_vain(&[LOG, "1", "one", "2", file, "0", "two"], &format!("cannot read {file}\n"));
    }
    fs::set_permissions(folder.path("one"), fs::Permissions::from_mode(0o000)).unwrap();
    if !may_all(&folder) {
        assert_eq!(folder.run(&[LOG, "1", "one"]), "cannot read one\n");
        assert_eq!(folder.get(LOG), b"the log of last night");
    }
}

#[test]
fn logs_that_cannot_be_written() {
    let folder = with_old_log("unwritten");
    fs::create_dir(folder.path("folder")).unwrap();
    let long = "l".repeat(256);
    let far = format!("./{}log", "folder/../".repeat(450));
    for log in ["folder", "folder/", "no folder/log", "one/log", "", ".", &long, &far] {
        folder.run_in_vain(&[log, "1", "one"], &format!("cannot write {log}\n"));
        assert_eq!(fs::read_dir(folder.path("folder")).unwrap().count(), 0, "a file is left in the folder");
    }
    let may_all = may_all(&folder);
    fs::set_permissions(&folder.0, fs::Permissions::from_mode(0o555)).unwrap();
    if !may_all {
        folder.run_in_vain(&[LOG, "1", "one"], &format!("cannot write {LOG}\n"));
    }
    fs::set_permissions(&folder.0, fs::Permissions::from_mode(0o755)).unwrap();
}

#[test]
fn a_full_device_leaves_the_old_log() {
    let folder = with_old_log("limit");
    let script = "trap '' XFSZ; ulimit -f 0; exec \"$0\" night.log 1 one";
    let ran = Command::new("sh").args(["-c", script, PROGRAM]).current_dir(&folder.0).output().unwrap();
    assert_eq!(said(ran), "cannot write night.log\n");
    assert_eq!(folder.get(LOG), b"the log of last night");
    assert_eq!(folder.names(), ["night.log", "one", "two"]);
}

#[test]
fn the_greatest_logs() {
    let folder = with_old_log("greatest");
    let draw_bytes = LONGEST - 24;
    folder.put("whole", &Generator::new(81).word(256, draw_bytes));
    folder.put("more", &vec![7; draw_bytes + 8]);
    folder.put("half", &vec![7; 32_744]);
    folder.put("rest", &vec![8; 32_756]);
    assert_eq!(folder.compare(&[(1, "whole")]), "bound 1 65536\n");
    assert_eq!(folder.compare(&[(1, "more")]), "refused 11 0\n");
    assert_eq!(folder.compare(&[(1, "half"), (2, "half")]), "bound 2 65524\n");
    assert_eq!(folder.compare(&[(1, "whole"), (2, "two")]), "refused 11 0\n");
    assert_eq!(folder.compare(&[(1, "rest"), (2, "rest")]), "refused 17 0\n");
}

#[test]
fn files_that_are_far_too_long() {
    let folder = with_old_log("long");
    folder.put("long", &vec![1; 200_000]);
    folder.put("odd", &vec![1; 200_001]);
    folder.put("cut", &[1; 12]);
    assert_eq!(folder.compare(&[(1, "long")]), "refused 11 0\n");
    assert_eq!(folder.compare(&[(1, "one"), (2, "long"), (3, "two")]), "refused 11 0\n");
    assert_eq!(folder.compare(&[(1, "cut"), (2, "long")]), "refused 17 0\n");
    assert_eq!(folder.compare(&[(1, "long"), (1, "two")]), "refused 15 1\n");
    // Reading ends where no log could hold more: the rest is neither measured nor opened.
    folder.run_in_vain(&[LOG, "1", "odd"], "refused 11 0\n");
    folder.run_in_vain(&[LOG, "1", "/dev/zero"], "refused 11 0\n");
    folder.run_in_vain(&[LOG, "1", "long", "2", "no such file"], "refused 11 0\n");
}

#[test]
fn a_file_may_be_the_log_itself_or_stand_twice() {
    let folder = with_old_log("same");
    folder.put(LOG, &draws(7..50));
    assert_eq!(folder.compare(&[(1, "one"), (2, LOG)]), "bound 2 700\n");
    let folder = with_old_log("twice");
    assert_eq!(folder.compare(&[(1, "one"), (2, "one"), (3, "./one")]), "bound 3 1008\n");
}

#[test]
fn names_near_the_systems_limits() {
    let folder = with_old_log("names");
    let name = "n".repeat(255);
    folder.put(&name, b"old");
    assert_eq!(folder.run(&[name.as_str(), "1", "one"]), "bound 1 344\n");
    assert_eq!(folder.get(&name).len(), 344);
    // 4,095 bytes are the most of a path.
    let deep = |last: &str| {
        format!("{}{}{last}", "./".repeat((4_095 - last.len()) / 2), "/".repeat((4_095 - last.len()) % 2))
    };
    let (log, file) = (deep("a-log-with-a-name-that-is-long-enough"), deep("one"));
    assert_eq!((log.len(), file.len()), (4_095, 4_095));
    assert_eq!(folder.run(&[&log, "1", &file]), "bound 1 344\n");
    assert_eq!(folder.get("a-log-with-a-name-that-is-long-enough").len(), 344);
    // The file beside the log would have a longer path than the system takes.
    let short = deep("x");
    folder.run_in_vain(&[short.as_str(), "1", "one"], &format!("cannot write {short}\n"));
}

#[test]
fn a_log_elsewhere() {
    let folder = with_old_log("elsewhere");
    fs::create_dir(folder.path("logs")).unwrap();
    assert_eq!(folder.run(&["logs/new", "1", "one"]), "bound 1 344\n");
    let whole = folder.path("logs/other").into_os_string().into_string().unwrap();
    assert_eq!(folder.run(&[whole.as_str(), "1", "one"]), "bound 1 344\n");
    assert!(folder.get("logs/new") == folder.get("logs/other"));
    assert_eq!(fs::read_dir(folder.path("logs")).unwrap().count(), 2);
    assert_eq!(folder.names(), ["logs", "night.log", "one", "two"]);
}

#[test]
fn the_log_takes_the_modes_of_the_process_and_the_place_of_a_link() {
    let folder = with_old_log("modes");
    symlink("one", folder.path("link")).unwrap();
    let script = "umask 027; \"$0\" new 1 one && exec \"$0\" link 1 one";
    let ran = Command::new("sh").args(["-c", script, PROGRAM]).current_dir(&folder.0).output().unwrap();
    assert_eq!(said(ran), "bound 1 344\nbound 1 344\n");
    assert_eq!(fs::metadata(folder.path("new")).unwrap().permissions().mode() & 0o777, 0o640);
    assert!(fs::symlink_metadata(folder.path("link")).unwrap().is_file());
    assert_eq!(folder.get("one"), draws(0..40));
}

#[test]
fn files_that_are_pipes() {
    let folder = with_old_log("pipes");
    let bytes = Generator::new(82).word(256, 30_000);
    folder.put("bytes", &bytes);
    let expected = || {
        folder.compare(&[(1, "one"), (2, "bytes"), (3, "two")]);
        let log = folder.get(LOG);
        fs::remove_file(folder.path(LOG)).unwrap();
        log
    };
    for length in [1_000, 4_096, 29_999] {
        let log = expected();
        let mut command = folder.command(&[LOG, "1", "one", "2", "/dev/stdin", "3", "two"]);
        let mut child =
            command.stdin(Stdio::piped()).stdout(Stdio::piped()).stderr(Stdio::piped()).spawn().unwrap();
        let mut input = child.stdin.take().unwrap();
        for piece in bytes.chunks(length) {
            input.write_all(piece).unwrap();
            thread::sleep(Duration::from_millis(2));
        }
        drop(input);
        assert_eq!(said(child.wait_with_output().unwrap()), "bound 3 30632\n");
        assert!(folder.get(LOG) == log, "another log out of a pipe");
    }
    let log = expected();
    let script = "mkfifo pipe && { cat bytes >pipe & } && exec \"$0\" night.log 1 one 2 pipe 3 two";
    let ran = Command::new("sh").args(["-c", script, PROGRAM]).current_dir(&folder.0).output().unwrap();
    assert_eq!(said(ran), "bound 3 30632\n");
    assert!(folder.get(LOG) == log, "another log out of a named pipe");
}

#[test]
fn an_output_that_is_lost_loses_no_log() {
    for redirection in [">/dev/full", ">&-"] {
        let folder = with_old_log("lost");
        let script = format!("exec \"$0\" night.log 1 one {redirection}");
        let ran = Command::new("sh").args(["-c", &script, PROGRAM]).current_dir(&folder.0).output().unwrap();
        assert_eq!(said(ran), "");
        assert_eq!(folder.get(LOG).len(), 344);
        assert_eq!(folder.names(), ["night.log", "one", "two"]);
    }
}

#[test]
fn many_at_once_in_one_folder() {
    let folder = with_old_log("at-once");
    let logs: Vec<String> = (0..8).map(|k| format!("log-{k}")).collect();
    let children: Vec<_> = (0..64)
        .map(|k| {
            folder
                .command(&[logs[k % 8].as_str(), "1", "one", "2", "two"])
                .stdout(Stdio::piped())
                .spawn()
                .unwrap()
        })
        .collect();
    for child in children {
        assert_eq!(said(child.wait_with_output().unwrap()), "bound 2 620\n");
    }
    assert_eq!(folder.names().len(), 3 + 8);
    assert!(logs.iter().all(|log| folder.get(log).len() == 620));
}
