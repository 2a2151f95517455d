//! search LOG A B: each byte of replicate B's draws at which the first 32 draws of replicate A stand, or how close
//! the search came.
use nahuitepol::{log_find, remember, Found};
use std::{env, error::Error, fs};

fn block<'a>(log: &'a [u8], id: &str) -> Result<&'a [u8], Box<dyn Error>> {
    match log_find(log, id.parse()?) {
        Found { refusal: 0, start, length, .. } => Ok(&log[start as usize..][..length as usize]),
        Found { refusal, entry, .. } => Err(format!("refused: number {refusal}, entry {entry}").into()),
    }
}

fn main() -> Result<(), Box<dyn Error>> {
    let word = |k| env::args().nth(k).ok_or("usage: search LOG A B");
    let log = fs::read(word(1)?)?;
    let (owner, searched) = (block(&log, &word(2)?)?, block(&log, &word(3)?)?);
    let probe = owner.get(..256).ok_or("A has fewer than 32 draws")?;
    let (mut tables, mut memory, mut positions) = ([0; 512], [0; 256], [0; 65_536]);
    let found = remember(probe, searched, &mut tables, &mut memory, &mut positions);
    assert_eq!(found.refusal, 0, "the rooms are large enough");
    println!("{:?}, found with {} comparisons", &positions[..found.written as usize], found.comparisons);
    if found.occurrences == 0 && found.windows > 0 {
        println!("trailing bytes equal: up to {} of 256, first at byte {}", found.closest, found.closest_at);
    }
    Ok(())
}
