//! An independent implementation of document 01, and of what document 02 adds, for the tests to compare the
//! library with.
//!
//! It is written from the documents' words alone and takes the slow and plain way everywhere: tables by their
//! definitions, search at every position, scans by their steps with a memory over the whole stream. It knows
//! nothing of the library; only the files in tests/ do.
//!
//! | Module | Documents 01 and 02 |
//! |---|---|
//! | [`tables`] | Tables of a probe; request Nine: both in one room |
//! | [`scans`] | The two scans; request Four: how close they came |
//! | [`log`] | Draw log |
//! | [`check`] | Overlap check |
//! | [`listing`] | Overlap check: what `overlap` prints |
//! | [`writer`] | Request One: the writer of logs |
//!
//! [`figure9`] fills the suffix table as source document 001 prints it (request Six).
//! [`words`] makes probes and streams, [`samples`] sound and damaged logs, [`rooms`] rooms that show every write.

pub mod check;
pub mod figure9;
pub mod listing;
pub mod log;
pub mod rooms;
pub mod samples;
pub mod scans;
pub mod tables;
pub mod words;
pub mod writer;
