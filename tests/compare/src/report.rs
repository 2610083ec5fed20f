//! What a difference looks like, and how its input is made smaller before it is printed.

use std::iter::successors;
use std::ops::Range;
use std::time::{Duration, Instant};

use crate::calls::{Call, What};
use crate::floor::{GREATEST_SIDE, MARK};
use crate::log::can_be_logged;
use crate::program::{number, RECORD};

/// Smaller inputs are tried no longer than this.
const PATIENCE: Duration = Duration::from_secs(20);

/// A smaller call that still shows a difference. `differs` asks both sides.
pub fn shrunk(call: &Call, differs: &mut dyn FnMut(&Call) -> bool) -> Call {
    let mut best = call.clone();
    let begun = Instant::now();
    loop {
        let found = smaller_calls(&best)
            .take_while(|_| begun.elapsed() <= PATIENCE)
            .find(|smaller| differs(smaller));
        match found {
            Some(smaller) => best = smaller,
            None => return best,
        }
    }
}

/// They are made one after the other: all of them together would be far too many bytes for a hall.
type Calls<'a> = Box<dyn Iterator<Item = Call> + 'a>;

fn smaller_calls(call: &Call) -> Calls<'_> {
    match call.what {
        What::ReadMap | What::ReadEntry => return shorter_texts(call),
        What::WriteEntry => return plainer_entries(call),
        _ => (),
    }
    let mut others = Vec::new();
    if call.what == What::Search || call.what == What::Astar {
        others.extend(just_enough(call));
    }
    if call.what == What::Search {
        for limit in [call.limit / 2, call.limit.saturating_sub(1)] {
            if limit < call.limit {
                let mut earlier = call.clone();
                earlier.limit = limit;
                others.push(earlier);
            }
        }
    }
    if call.map.len() <= 36 {
        others.extend(plainer_maps(call));
    }
    let others = shorter_routes(call).chain(others);
    if call.map.len() as u64 == call.floor().cells() {
        return Box::new(smaller_floors(call).chain(others));
    }
    Box::new(others)
}

/// Stretches of so many places: all of them, their halves, and so on to single ones.
fn stretches(places: usize) -> impl Iterator<Item = Range<usize>> {
    let sizes = successors(Some(places), |size| Some(size / 2)).take_while(|size| *size > 0);
    sizes.flat_map(move |size| {
        let ends = move |from: usize| from..(from + size).min(places);
        (0..places).step_by(size).map(ends)
    })
}

/// The call without some rows or columns beside each other.
fn smaller_floors(call: &Call) -> impl Iterator<Item = Call> + '_ {
    let rows = stretches(call.height as usize).filter_map(move |gone| {
        let count = gone.len() as u32;
        without(call, |_, row| gone.contains(&(row as usize)), 0, count)
    });
    let columns = stretches(call.width as usize).filter_map(move |gone| {
        let count = gone.len() as u32;
        without(
            call,
            |column, _| gone.contains(&(column as usize)),
            count,
            0,
        )
    });
    rows.chain(columns)
}

/// The call without some rows or columns, so many, unless the start or the goal lies in one.
fn without(call: &Call, gone: impl Fn(u32, u32) -> bool, columns: u32, rows: u32) -> Option<Call> {
    let is_gone = |cell: u32| gone(cell % call.width, cell / call.width);
    let cells = call.map.len() as u32;
    let mut smaller = call.clone();
    smaller.width -= columns;
    smaller.height -= rows;
    if smaller.width == 0 || smaller.height == 0 {
        return None;
    }
    for end in [&mut smaller.start, &mut smaller.goal] {
        if *end < cells {
            if is_gone(*end) {
                return None;
            }
            *end -= (0..*end).filter(|cell| is_gone(*cell)).count() as u32;
        }
    }
    let kept = |cell: &usize| *cell as u32 >= cells || !is_gone(*cell as u32);
    smaller.map = (0..call.map.len())
        .filter(kept)
        .map(|cell| call.map[cell])
        .collect();
    smaller.table = (0..call.table.len())
        .filter(kept)
        .map(|cell| call.table[cell])
        .collect();
    let fewer = call.map.len() - smaller.map.len();
    smaller.costs_room = call.costs_room.saturating_sub(fewer);
    smaller.work_room = call.work_room.saturating_sub(2 * fewer);
    smaller.byte_room = call.byte_room.saturating_sub(fewer);
    Some(smaller)
}

/// The call with rooms that are just long enough, if one is longer.
fn just_enough(call: &Call) -> Option<Call> {
    let cells = call.map.len();
    let mut smaller = call.clone();
    smaller.costs_room = call.costs_room.min(cells);
    smaller.work_room = call.work_room.min(2 * cells);
    smaller.byte_room = call.byte_room.min(cells);
    let length = |call: &Call| call.costs_room + call.work_room + call.byte_room;
    if length(&smaller) < length(call) {
        return Some(smaller);
    }
    None
}

/// The call with one cell made open, of weight 1.
fn plainer_maps(call: &Call) -> Vec<Call> {
    let mut calls = Vec::new();
    for cell in 0..call.map.len() {
        if call.map[cell] != 1 {
            let mut plainer = call.clone();
            plainer.map[cell] = 1;
            calls.push(plainer);
        }
    }
    calls
}

/// Routes with a stretch cut out.
fn shorter_routes(call: &Call) -> impl Iterator<Item = Call> + '_ {
    stretches(call.route.len()).map(move |gone| {
        let mut shorter = call.clone();
        shorter.route.drain(gone);
        shorter
    })
}

/// Entries for the log with fewer directions, or with one byte of question or answer made 0; then those with a shorter room.
fn plainer_entries(call: &Call) -> Calls<'_> {
    let not_zero = (0..call.map.len()).filter(move |place| call.map[*place] != 0);
    let plainer = not_zero.map(move |place| {
        let mut plainer = call.clone();
        plainer.map[place] = 0;
        plainer
    });
    Box::new(
        shorter_routes(call)
            .chain(plainer)
            .chain(shorter_rooms(call)),
    )
}

/// Texts with a stretch cut out; then those with a shorter room.
fn shorter_texts(call: &Call) -> Calls<'_> {
    let shorter = stretches(call.text.len()).map(move |gone| {
        let mut shorter = call.clone();
        shorter.text.drain(gone);
        shorter
    });
    Box::new(shorter.chain(shorter_rooms(call)))
}

fn shorter_rooms(call: &Call) -> Vec<Call> {
    let mut calls = Vec::new();
    for room in [call.byte_room / 2, call.byte_room.saturating_sub(1)] {
        if room < call.byte_room {
            let mut shorter = call.clone();
            shorter.byte_room = room;
            calls.push(shorter);
        }
    }
    calls
}

/// The input and both answers, to paste.
pub fn print_difference(call: &Call, expected: &[u8], got: &[u8]) {
    print_call(call);
    println!("independent: {}", reply_words(call, expected));
    println!("the program: {}", reply_words(call, got));
}

/// The input, which shows that two engines differ, and what the program answers for each.
pub fn print_engines(call: &Call, searched: &[u8], aimed: &[u8]) {
    print_call(call);
    println!(
        "the program's search with the limit at the cell count: {}",
        reply_words(call, searched)
    );
    println!("the program's A*: {}", reply_words(call, aimed));
}

fn print_call(call: &Call) {
    println!("what: {:?}", call.what);
    print_input(call);
    if call.what == What::RouteClaim {
        println!("route: {:?}", call.route);
    }
    if call.what == What::TableClaim {
        println!("table: {}", runs(&call.table));
    }
}

fn print_input(call: &Call) {
    let (room, length) = (call.byte_room, call.text.len());
    match call.what {
        What::ReadMap => {
            println!("cell room {}, text of {} bytes:", room, length);
            println!("{}", quoted(&call.text));
        }
        What::ReadEntry => {
            println!("route room {}, rest of {} bytes:", room, length);
            println!("    {}", hex(&call.text));
        }
        What::WriteEntry => {
            println!("text room {}, {} directions", room, call.route.len());
            println!("    question and answer {}", hex(&call.map));
            println!("    directions {}", hex(&call.route));
        }
        _ => print_floor(call),
    }
}

fn print_floor(call: &Call) {
    println!(
        "width {}, height {}, ways {}, start {}, goal {}, limit or cost {}",
        call.width, call.height, call.ways, call.start, call.goal, call.limit
    );
    println!(
        "costs room {}, work room {}, route or text room {}",
        call.costs_room, call.work_room, call.byte_room
    );
    print_map(call.width, &call.map);
}

pub fn print_map(width: u32, map: &[u8]) {
    println!("map of {} bytes:", map.len());
    for row in map.chunks(width.clamp(1, GREATEST_SIDE as u32) as usize) {
        let mut line = String::new();
        for weight in row {
            match weight {
                0 => line.push('@'),
                1 => line.push('.'),
                2..=9 => line.push((b'0' + weight) as char),
                _ => line.push_str(&format!("<{}>", weight)),
            }
        }
        println!("    {}", line);
    }
}

/// Text with its line ends and odd bytes to be seen; of a long one the two ends.
pub fn quoted(text: &[u8]) -> String {
    let escaped = |bytes: &[u8]| bytes.escape_ascii().to_string();
    if text.len() <= 1000 {
        return format!("    \"{}\"", escaped(text));
    }
    let (front, back) = (&text[..400], &text[text.len() - 400..]);
    format!("    \"{}\" ... \"{}\"", escaped(front), escaped(back))
}

/// The bytes, of many only the first.
pub fn hex(bytes: &[u8]) -> String {
    let words: Vec<String> = bytes
        .iter()
        .take(1024)
        .map(|byte| format!("{:02x}", byte))
        .collect();
    words.join(" ")
}

/// The kind of answer that a reply has, in a word and its number, and which of R-6's rules it shows.
pub fn outcome(call: &Call, reply: &[u8]) -> String {
    let (front, _) = call.parts(reply);
    let (part, words): (&str, &[&str]) = match call.what {
        What::Search => ("search", &["refused", "found", "none", "stopped"]),
        What::RouteClaim => ("route", &["refused", "holds", "fault"]),
        What::TableClaim => ("table", &["refused", "right", "breaks"]),
        What::ReadMap => ("reader", &["refused", "read"]),
        What::WriteMap => ("writer", &["refused", "written"]),
        What::ReadEntry => ("log reader", &["refused", "entry", "empty"]),
        What::WriteEntry => ("log writer", &["refused", "written"]),
        What::Astar => ("A*", &["refused", "found", "none"]),
    };
    let shown = match (call.what, front[0], front[1]) {
        (What::Search | What::Astar, 1, _) => kinds_of_steps(front[6], front[7]),
        (What::ReadEntry, _, 62) | (What::ReadEntry, 1, _) => of_answer(&call.text),
        (What::WriteEntry, _, 62) | (What::WriteEntry, 1, _) => of_answer(&call.map),
        _ => String::new(),
    };
    match front[1] {
        0 => format!("{} {}{}", part, words[front[0] as usize], shown),
        number => format!("{} {}{}", part, number, shown),
    }
}

fn kinds_of_steps(p: u32, q: u32) -> String {
    let kinds = match (p, q) {
        (0, 0) => "",
        (_, 0) => " by straight steps",
        (0, _) => " by diagonal steps",
        _ => " by both kinds of steps",
    };
    kinds.to_string()
}

/// Of an entry's question and answer: whether its sums are not those of its cost, if it can be logged; else what alone of R-6 stands against it.
fn of_answer(entry: &[u8]) -> String {
    let answer = &entry[RECORD..2 * RECORD];
    let number = |at: usize| number(&answer[at..]);
    let but = |from: usize, to: usize| {
        let mut mended = answer.to_vec();
        mended[from..to].fill(0);
        can_be_logged(&mended)
    };
    if can_be_logged(answer) && answer[0] == 1 && 70 * number(16) + 99 * number(20) != number(8) {
        return " with other sums".to_string();
    }
    if can_be_logged(answer) {
        return String::new();
    }
    match (but(16, 24), but(24, RECORD)) {
        (true, _) => " by P or Q".to_string(),
        (_, true) => alone(answer, 24),
        _ => String::new(),
    }
}

/// The byte of a record that alone is not 0, from a place on.
pub fn alone(record: &[u8], from: usize) -> String {
    let places: Vec<usize> = (from..RECORD).filter(|place| record[*place] != 0).collect();
    match places[..] {
        [place] => format!(" by byte {}", place),
        _ => String::new(),
    }
}

fn widened(bytes: &[u8]) -> Vec<u32> {
    bytes.iter().map(|byte| *byte as u32).collect()
}

fn reply_words(call: &Call, reply: &[u8]) -> String {
    if reply.len() < call.reply_length() {
        return format!("only {} bytes of {}", reply.len(), call.reply_length());
    }
    let (front, rooms) = call.parts(reply);
    let named = match call.what {
        What::Search | What::Astar => "kind, refusal, place, settled, number, length, P, Q",
        What::RouteClaim => "kind, refusal or fault, place, cost",
        What::TableClaim => "kind, refusal, place or cell",
        What::ReadMap => "kind, refusal, place, width, height, ways",
        What::WriteMap | What::WriteEntry => "kind, refusal, place, length",
        What::ReadEntry => "kind, refusal, place, route length, bytes taken",
    };
    let mut words = format!("{} {:?}", named, front);
    for (name, room) in [
        ("map", widened(&rooms.map)),
        ("costs", rooms.costs),
        ("work", rooms.work),
        ("route", widened(&rooms.route)),
    ] {
        if !room.is_empty() {
            words += &format!("\n    {} {}", name, runs(&room));
        }
    }
    if !rooms.text.is_empty() {
        words += &format!("\n    text\n{}", quoted(&rooms.text));
    }
    words
}

/// Numbers with equal ones in a row counted: rooms are long and mostly the same number.
fn runs(values: &[u32]) -> String {
    let mut words = Vec::new();
    let mut from = 0;
    while from < values.len() {
        let value = values[from];
        let length = values[from..]
            .iter()
            .take_while(|other| **other == value)
            .count();
        let word = match value {
            MARK => "MARK".to_string(),
            _ => value.to_string(),
        };
        words.push(match length {
            1 => word,
            _ => format!("{} ({} times)", word, length),
        });
        from += length;
    }
    words.join(", ")
}
