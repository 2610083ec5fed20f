//! The program of 01: what it writes for a map file and for the bytes on standard input, with R-6's records.

use crate::floor::{Floor, Refusal, MARK};
use crate::maptext::{read_map, Map};
use crate::search::{search, Answer, Rooms};

/// "All records grow to 32 bytes."
pub const RECORD: usize = 32;

/// Where the zeros of a question begin: after start, goal, limit and ways.
pub const ZEROS_FROM: usize = 13;

/// The whole output. `text` is nothing if `floor.map` can't be opened.
pub fn output(text: Option<&[u8]>, input: &[u8]) -> Vec<u8> {
    let text = match text {
        None => return b"map missing\n".to_vec(),
        Some(text) => text,
    };
    match map_of(text) {
        Err(refused) => {
            format!("map refused {} at {}\n", refused.number, refused.place).into_bytes()
        }
        Ok(map) => answers(&map, input),
    }
}

/// "Text above 4,195 bytes is 14 at 0; then the reader's refusals, with a cell room of 4,096; then 14 at 0 for a side above 64."
fn map_of(text: &[u8]) -> Result<Map, Refusal> {
    let too_big = Refusal {
        number: 14,
        place: 0,
    };
    if text.len() > 4195 {
        return Err(too_big);
    }
    let map = read_map(text, 4096)?;
    if map.width > 64 || map.height > 64 {
        return Err(too_big);
    }
    Ok(map)
}

/// "A broken last record gets no answer."
fn answers(map: &Map, input: &[u8]) -> Vec<u8> {
    let mut output = Vec::new();
    for question in input.chunks_exact(RECORD) {
        output.extend(record_of(&answer(map, question)));
    }
    output
}

pub fn number(bytes: &[u8]) -> u64 {
    u32::from_le_bytes([bytes[0], bytes[1], bytes[2], bytes[3]]) as u64
}

/// "Question: start, goal, limit (4 bytes each), ways (1)", and R-6: "A question ends in 19 zeros in place of three (13 reads them all)."
fn answer(map: &Map, question: &[u8]) -> Answer {
    if question[ZEROS_FROM..].iter().any(|byte| *byte != 0) {
        return Answer::Refused(Refusal {
            number: 13,
            place: 0,
        });
    }
    let floor = Floor {
        width: map.width,
        height: map.height,
        ways: question[12] as u64,
    };
    let cells = map.cells.len();
    let mut rooms = Rooms {
        costs: vec![0; cells],
        work: vec![0; 2 * cells],
        route: vec![0; cells],
    };
    let (start, goal, limit) = (
        number(question),
        number(&question[4..]),
        number(&question[8..]),
    );
    search(floor, &map.cells, start, goal, limit, &mut rooms)
}

/// "Answer: kind (1 byte), refusal number (1), two zeros, settled, number returned, route length (4 each; all three 0 if refused)", and R-6: "An answer adds
/// P and Q after the route length and eight zeros"; "they are 0 for every other answer" than found.
pub fn record_of(answer: &Answer) -> Vec<u8> {
    let (kind, refusal, five) = match answer {
        Answer::Refused(refused) => (0, refused.number as u8, [0; 5]),
        Answer::Found {
            settled,
            cost,
            length,
            p,
            q,
        } => (1, 0, [*settled, *cost, *length, *p, *q]),
        Answer::None { settled } => (2, 0, [*settled, MARK as u64, 0, 0, 0]),
        Answer::Stopped { settled, floor } => (3, 0, [*settled, *floor, 0, 0, 0]),
    };
    let mut record = vec![kind, refusal, 0, 0];
    for value in five {
        record.extend((value as u32).to_le_bytes());
    }
    record.extend([0; 8]);
    record
}
