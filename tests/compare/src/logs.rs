//! Random entries of the route log, files of them, and files that are torn.

use crate::calls::{numbers, Call, What};
use crate::floor::MARK;
use crate::log::Entry;
use crate::program::RECORD;
use crate::random::Random;

/// A route room that holds every route of a log.
pub const EVERY_ROUTE: usize = 4095;

/// A search and its answer as an entry, from the numbers of a reply and the route room that came with them.
pub fn searched(call: &Call, front: &[u32], route: &[u8]) -> Entry {
    let mut question = numbers(&[call.start, call.goal, call.limit]);
    question.push(call.ways as u8);
    question.resize(RECORD, 0);
    let (kind, refusal, length) = (front[0] as u8, front[1] as u8, front[5]);
    let mut answer = vec![kind, refusal, 0, 0];
    answer.extend(numbers(&front[3..]));
    answer.resize(RECORD, 0);
    Entry {
        question,
        answer,
        route: route[..length as usize].to_vec(),
    }
}

/// The entry to be written, into a room of so many bytes.
pub fn writing(entry: &Entry, room: usize) -> Call {
    let mut call = Call::of(What::WriteEntry);
    call.map = [&entry.question[..], &entry.answer].concat();
    call.route = entry.route.clone();
    call.byte_room = room;
    call
}

/// One entry to be read from the rest of a file.
pub fn reading(rest: &[u8], room: usize) -> Call {
    let mut call = Call::of(What::ReadEntry);
    call.text = rest.to_vec();
    call.byte_room = room;
    call
}

fn any_bytes(random: &mut Random, count: usize) -> Vec<u8> {
    (0..count).map(|_| random.below(256) as u8).collect()
}

/// A number of four bytes, mostly one that R-1 has a word about.
fn any_number(random: &mut Random) -> u32 {
    match random.below(4) {
        0 => random.below(1 << 32) as u32,
        _ => random.one_of(&[0, 1, 560, MARK - 1, MARK, MARK >> 8, MARK << 8]),
    }
}

fn any_length(random: &mut Random) -> u32 {
    match random.below(40) {
        0 => random.one_of(&[4063, 4064, 4065, 4094, 4095, 4096, 4097]),
        1 => random.one_of(&[65536, 65537, 1 << 24, MARK]),
        2..=11 => random.below(100) as u32,
        _ => random.one_of(&[0, 1, 2, 16, 31, 32, 33, 63, 64, 65]),
    }
}

/// Any entry: mostly one that can be logged, or nearly.
pub fn any_entry(random: &mut Random) -> Entry {
    let kind = random.one_of(&[0, 1, 1, 1, 2, 3]);
    let length = if kind == 1 { any_length(random) } else { 0 };
    let mut answer = vec![kind, 0, 0, 0];
    answer.extend(match kind {
        0 => numbers(&[0, 0, 0]),
        2 => numbers(&[any_number(random), MARK, 0]),
        _ => numbers(&[any_number(random), any_number(random), length]),
    });
    answer.extend(any_sums(random, kind));
    answer.extend(any_zeros(random));
    if kind == 0 {
        answer[1] = random.one_of(&[1, 2, 7, 13, 14, 15, 15, 16]);
    }
    if random.once_in(12) {
        let place = random.below(RECORD as u64) as usize;
        answer[place] = any_byte(random);
    }
    // a length far beyond what an answer may have is not made into a route
    let count = if length <= 5000 { length } else { 3 };
    Entry {
        question: any_question(random),
        answer,
        route: (0..count).map(|_| random.below(8) as u8).collect(),
    }
}

/// P and Q: of found any numbers, of another answer mostly 0.
fn any_sums(random: &mut Random, kind: u8) -> Vec<u8> {
    let mut sums = [0, 0];
    if kind == 1 {
        sums = [any_number(random), any_number(random)];
    } else if random.once_in(6) {
        sums[random.below(2) as usize] = random.one_of(&[1, 8, 256, 1 << 24, MARK]);
    }
    numbers(&sums)
}

/// The last eight bytes, of which one may be no zero.
fn any_zeros(random: &mut Random) -> [u8; 8] {
    let mut zeros = [0; 8];
    if random.once_in(8) {
        zeros[random.below(8) as usize] = random.one_of(&[1, 128, 255]);
    }
    zeros
}

/// "A question may be any [..] bytes."
fn any_question(random: &mut Random) -> Vec<u8> {
    match random.below(4) {
        0 => vec![255; RECORD],
        _ => any_bytes(random, RECORD),
    }
}

/// A byte on either side of an edge.
fn any_byte(random: &mut Random) -> u8 {
    random.one_of(&[0, 0, 1, 2, 3, 4, 7, 8, 15, 16, 128, 254, 255, 255])
}

/// An entry to be written, of which something may be wrong, into a room of about the length that is needed.
pub fn wild_writing(random: &mut Random) -> Call {
    let mut entry = any_entry(random);
    if random.once_in(2) {
        let place = random.below(entry.route.len() as u64 + 1) as usize;
        let direction = random.one_of(&[7, 8, 8, 255]);
        match random.below(4) {
            0 => entry.route.insert(place, direction),
            1 => drop(entry.route.pop()),
            _ if place < entry.route.len() => entry.route[place] = direction,
            _ => entry.route.push(direction),
        }
    }
    let needed = entry.bytes().len();
    let room = random.one_of(&[needed, needed, needed + 7, needed - 1, needed - RECORD, 0]);
    writing(&entry, room)
}

/// A file of some entries, mostly with something wrong in it.
pub fn any_file(random: &mut Random) -> Vec<u8> {
    if random.once_in(12) {
        let length = random.below(5 * RECORD as u64) as usize;
        return any_bytes(random, length);
    }
    let mut file = Vec::new();
    for _ in 0..random.between(1, 3) {
        file.extend(any_entry(random).bytes());
    }
    for _ in 0..random.one_of(&[0, 1, 1, 2]) {
        tear(random, &mut file);
    }
    file
}

/// Cuts the file, or changes, adds or takes away a byte: anywhere, near its end, where fillers are, or where the first entry's directions are.
fn tear(random: &mut Random, file: &mut Vec<u8>) {
    let length = file.len() as u64;
    let anywhere = random.below(length + 1);
    let record = RECORD as u64;
    let near_the_end = length.saturating_sub(random.below(record + 4) + 1);
    let in_a_route = (2 * record + random.below(2 * record + 2)).min(length);
    let place = random.one_of(&[anywhere, near_the_end, in_a_route]) as usize;
    match random.below(8) {
        0 => file.truncate(random.one_of(&[place, place / RECORD * RECORD])),
        1 => file.insert(place, any_byte(random)),
        2 if place < file.len() => drop(file.remove(place)),
        3 => {
            let count = random.between(1, 40) as usize;
            file.extend(any_bytes(random, count));
        }
        _ if place < file.len() => file[place] = any_byte(random),
        _ => (),
    }
}

/// A route room of about the length that the next entry of the rest needs, or one that holds every route.
pub fn any_room(random: &mut Random, rest: &[u8]) -> usize {
    let needed = match rest.get(RECORD + 12..RECORD + 14) {
        Some(length) => u16::from_le_bytes([length[0], length[1]]) as usize,
        None => 0,
    };
    let needed = needed.min(EVERY_ROUTE);
    random.one_of(&[
        needed,
        needed,
        needed + 3,
        needed.saturating_sub(1),
        0,
        EVERY_ROUTE,
    ])
}
