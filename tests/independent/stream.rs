//! A stream of stored files back to back and its report, written from request T-01: slow and direct.
use crate::file::{coin_numbers, read_within, FILE_LIMIT};
use std::collections::HashMap;

/// The most files of a stream that are read.
pub const FILES: usize = 200;

/// A file of a stream: dimension, coins, rejecting coins and the most reads, and where it ends.
#[derive(Clone, Copy)]
pub struct Entry {
    pub numbers: [u64; 4],
    pub end: usize,
}

/// The numbers of files that were met before, by their bytes.
pub type Known = HashMap<Vec<u8>, [u64; 4]>;

/// The file at the front of the bytes, or the number of its refusal.
pub fn front(bytes: &[u8], known: &mut Known) -> Result<Entry, u32> {
    let f = read_within(bytes, FILE_LIMIT)?;
    let end = f.places[2];
    let numbers = *known.entry(bytes[..end].to_vec()).or_insert_with(|| coin_numbers(&f));
    Ok(Entry { numbers, end })
}

/// The files of a stream, to the limit or to the first that is refused.
pub fn entries(stream: &[u8], known: &mut Known) -> Vec<Result<Entry, u32>> {
    let (mut rest, mut found) = (stream, vec![]);
    while !rest.is_empty() && found.len() < FILES {
        let entry = front(rest, known);
        found.push(entry);
        match entry {
            Ok(e) => rest = &rest[e.end..],
            Err(_) => break,
        }
    }
    found
}

/// The text of the report.
pub fn report(entries: &[Result<Entry, u32>]) -> String {
    let (mut text, mut total) = (String::new(), [0; 3]);
    for (entry, place) in entries.iter().zip(1..) {
        match entry {
            Err(n) => text += &format!("refused {place} {n}\n"),
            Ok(Entry { numbers: [k, coins, rejects, most], .. }) => {
                text += &format!("{place} {k} {coins} {rejects} {most}\n");
                total = [total[0] + 1, total[1] + coins, total[2] + rejects];
            }
        }
    }
    let [files, coins, rejects] = total;
    text + &format!("total {files} {coins} {rejects}\n")
}
