//! The route log of R-1 (02): the reader and the writer, from R-1's sentences, with R-6's records.

use crate::floor::{Refusal, MARK};
use crate::program::{number, record_of, RECORD};
use crate::search::Answer;

/// What one entry of a log says.
#[derive(Clone, Debug, PartialEq)]
pub struct Entry {
    pub question: Vec<u8>,
    pub answer: Vec<u8>,
    pub route: Vec<u8>,
}

impl Entry {
    /// "An entry is the question record, the answer record and, if found, as many [..] records as hold the directions, the last filled up with
    /// 255." R-6: "A route record holds 32 directions."
    pub fn bytes(&self) -> Vec<u8> {
        let mut bytes = [&self.question[..], &self.answer].concat();
        for directions in self.route.chunks(RECORD) {
            let mut record = vec![255; RECORD];
            record[..directions.len()].copy_from_slice(directions);
            bytes.extend(record);
        }
        bytes
    }
}

/// A refusal of the log, with the place 0.
fn refused<T>(number: u32) -> Result<T, Refusal> {
    Err(Refusal { number, place: 0 })
}

/// The answer that a record tells of, if R-1 takes it into a log: "kind 0, a refusal number from 1 to 15, [..] kind 1 with a cost that isn't MARK and
/// a length up to 4,095, kind 2 [..] or kind 3 with a floor that isn't MARK". R-6: "P and Q aren't tested against the cost." All else that both ask for
/// is what a record of such an answer has.
fn logged(record: &[u8]) -> Option<Answer> {
    let settled = number(&record[4..]);
    let returned = number(&record[8..]);
    let length = number(&record[12..]);
    let is_mark = returned == MARK as u64;
    let answer = match record[0] {
        0 if (1..=15).contains(&record[1]) => Answer::Refused(Refusal {
            number: record[1] as u32,
            place: 0,
        }),
        1 if !is_mark && length <= 4095 => Answer::Found {
            settled,
            cost: returned,
            length,
            p: number(&record[16..]),
            q: number(&record[20..]),
        },
        2 => Answer::None { settled },
        3 if !is_mark => Answer::Stopped {
            settled,
            floor: returned,
        },
        _ => return None,
    };
    Some(answer).filter(|answer| record_of(answer) == record)
}

pub fn can_be_logged(record: &[u8]) -> bool {
    logged(record).is_some()
}

/// How many directions an entry with this answer record has. "62 the answer isn't as above."
fn route_length(record: &[u8]) -> Result<usize, Refusal> {
    match logged(record) {
        None => refused(62),
        Some(Answer::Found { length, .. }) => Ok(length as usize),
        Some(_) => Ok(0),
    }
}

/// The next record of a file; "61 the file ends inside" it.
fn next_record<'a>(records: &mut impl Iterator<Item = &'a [u8]>) -> Result<&'a [u8], Refusal> {
    match records.next() {
        Some(record) if record.len() == RECORD => Ok(record),
        _ => refused(61),
    }
}

/// "One entry per call, from the rest of the file; if that is empty the reader says so": then there is none.
pub fn read_entry(rest: &[u8], room: usize) -> Result<Option<Entry>, Refusal> {
    if rest.is_empty() {
        return Ok(None);
    }
    let mut records = rest.chunks(RECORD);
    let question = next_record(&mut records)?.to_vec();
    let answer = next_record(&mut records)?.to_vec();
    let length = route_length(&answer)?;
    let mut route = Vec::new();
    while route.len() < length {
        route.extend(next_record(&mut records)?);
    }
    let filler = route.split_off(length);
    if route.iter().any(|direction| *direction > 7) || filler.iter().any(|byte| *byte != 255) {
        return refused(63);
    }
    if room < length {
        return refused(64);
    }
    Ok(Some(Entry {
        question,
        answer,
        route,
    }))
}

/// "The writer gives 62, 63 for a direction or a wrong count of them (any, if not found), and 64 for a room shorter than the entry."
pub fn write_entry(entry: &Entry, room: usize) -> Result<Vec<u8>, Refusal> {
    let length = route_length(&entry.answer)?;
    if entry.route.len() != length || entry.route.iter().any(|direction| *direction > 7) {
        return refused(63);
    }
    let bytes = entry.bytes();
    if room < bytes.len() {
        return refused(64);
    }
    Ok(bytes)
}
