//! The program `planner`, beside the rules of 01's "The program" and of R-6.

use std::fs;
use std::path::PathBuf;

use crate::calls::{numbers, Call, What};
use crate::floors::{any_floor, Drawn};
use crate::generate::{question, Scene};
use crate::maptext::{read_map, text_of, Map};
use crate::pipes::{run_planner, Sending};
use crate::program::{output, RECORD, ZEROS_FROM};
use crate::random::Random;
use crate::report::{alone, hex, print_map, quoted, shrunk};
use crate::texts::{edge_text, good_text, torn_text};
use crate::{Counts, Differs};

pub struct Planner {
    pub start: Vec<String>,
    pub program: String,
    pub folder: PathBuf,
}

/// What stands at the name `floor.map`.
#[derive(Clone, Debug)]
enum MapFile {
    Text(Vec<u8>),
    Nothing,
    /// it opens, and cannot be read
    Folder,
}

impl MapFile {
    fn text(&self) -> Option<&[u8]> {
        match self {
            MapFile::Text(text) => Some(text),
            MapFile::Nothing | MapFile::Folder => None,
        }
    }
}

impl Planner {
    /// One run of the program, with a map file and questions of a random kind.
    pub fn compare(&self, random: &mut Random, counts: &mut Counts) -> Result<(), Differs> {
        let side = random.one_of(&[3, 6, 10, 20, 64]);
        let drawn = any_floor(random, side);
        let file = some_file(random, &drawn);
        let input = some_input(random, &drawn);
        let sending = some_sending(random);
        let expected = output(file.text(), &input);
        let got = self.run(&file, &input, &sending);
        counts.map_texts += 1;
        if got == expected {
            meet(counts, &input, &expected);
            return Ok(());
        }
        let index = first_difference(&expected, &got) / RECORD;
        let compared = expected.len().min((index + 1) * RECORD);
        meet(counts, &input, &expected[..compared]);
        self.report(&file, &input, &sending, &expected, &got);
        Err(Differs)
    }

    fn run(&self, file: &MapFile, input: &[u8], sending: &Sending) -> Vec<u8> {
        let _ = fs::remove_dir_all(&self.folder);
        fs::create_dir_all(&self.folder).expect("the folder can be made");
        let map = self.folder.join("floor.map");
        match file {
            MapFile::Text(text) => fs::write(map, text).expect("floor.map can be written"),
            MapFile::Nothing => (),
            MapFile::Folder => fs::create_dir(map).expect("floor.map can be made a folder"),
        }
        run_planner(&self.start, &self.program, &self.folder, input, sending)
    }

    /// Prints the input that shows the difference, as small as it can be made: a text, one question, or all that was sent.
    fn report(&self, file: &MapFile, input: &[u8], sending: &Sending, expected: &[u8], got: &[u8]) {
        let index = first_difference(expected, got) / RECORD;
        let about_map = expected.starts_with(b"map ") || got.starts_with(b"map ");
        if let MapFile::Text(text) = file {
            if about_map && self.reads_differ(text) {
                return self.report_text(text);
            }
            let record = input.chunks_exact(RECORD).nth(index);
            if let (Ok(map), Some(record)) = (read_map(text, 4096), record) {
                let call = asked(&map, record);
                if self.differs(&call, record) {
                    return self.report_question(&call, record);
                }
            }
        }
        println!(
            "planner, {:?}, output differs from record {} on",
            sending, index
        );
        match file.text() {
            Some(text) => println!("floor.map: {}", quoted(text)),
            None => println!("floor.map: {:?}", file),
        }
        println!("input of {} bytes:\n    {}", input.len(), hex(input));
        println!("independent:\n    {}", hex(expected));
        println!("the program:\n    {}", hex(got));
    }

    fn report_text(&self, text: &[u8]) {
        let mut call = Call::of(What::ReadMap);
        call.text = text.to_vec();
        let text = shrunk(&call, &mut |other| self.reads_differ(&other.text)).text;
        println!(
            "planner, floor.map of {} bytes and no question:\n{}",
            text.len(),
            quoted(&text)
        );
        println!("independent: {}", quoted(&output(Some(&text), &[])));
        println!("the program: {}", quoted(&self.read(&text)));
    }

    fn reads_differ(&self, text: &[u8]) -> bool {
        self.read(text) != output(Some(text), &[])
    }

    fn read(&self, text: &[u8]) -> Vec<u8> {
        self.run(&MapFile::Text(text.to_vec()), &[], &Sending::OneByOne)
    }

    fn report_question(&self, call: &Call, record: &[u8]) {
        let call = shrunk(call, &mut |other| self.differs(other, record));
        let (independent, program) = self.both(&call, record);
        println!("planner, one question");
        print_map(call.width, &call.map);
        println!("question     {}", hex(&question_of(&call, record)));
        println!("independent: {}", hex(&independent));
        println!("the program: {}", hex(&program));
    }

    fn differs(&self, call: &Call, record: &[u8]) -> bool {
        let (independent, program) = self.both(call, record);
        independent != program
    }

    fn both(&self, call: &Call, record: &[u8]) -> (Vec<u8>, Vec<u8>) {
        let text = text_of(call.width as u64, call.height as u64, &call.map);
        let input = question_of(call, record);
        let independent = output(Some(&text), &input);
        let sending = Sending::Pieces(vec![RECORD]);
        (
            independent,
            self.run(&MapFile::Text(text), &input, &sending),
        )
    }
}

/// Counts the answers to the questions, or the line about the map.
fn meet(counts: &mut Counts, input: &[u8], output: &[u8]) {
    if output.starts_with(b"map ") {
        let line = String::from_utf8_lossy(output);
        let words: Vec<&str> = line.split_whitespace().take(3).collect();
        return counts.meet(words.join(" "));
    }
    for (question, record) in input.chunks(RECORD).zip(output.chunks_exact(RECORD)) {
        counts.records += 1;
        let good = ["", "found", "none", "stopped"][record[0] as usize];
        match record[1] {
            0 => counts.meet(format!("record {}", good)),
            13 => counts.meet(format!("record 13{}", alone(question, ZEROS_FROM))),
            number => counts.meet(format!("record {}", number)),
        }
    }
}

fn first_difference(a: &[u8], b: &[u8]) -> usize {
    a.iter().zip(b).take_while(|(x, y)| x == y).count()
}

/// A question as a search, so that it can be made smaller like one.
fn asked(map: &Map, record: &[u8]) -> Call {
    let number = |at: usize| {
        u32::from_le_bytes([record[at], record[at + 1], record[at + 2], record[at + 3]])
    };
    let mut call = Call::of(What::Search);
    call.width = map.width as u32;
    call.height = map.height as u32;
    call.map = map.cells.clone();
    call.start = number(0);
    call.goal = number(4);
    call.limit = number(8);
    call
}

/// The record of a smaller question; its ways and spare bytes are those of the first one.
fn question_of(call: &Call, record: &[u8]) -> Vec<u8> {
    let mut smaller = numbers(&[call.start, call.goal, call.limit]);
    smaller.extend(&record[12..]);
    smaller
}

fn some_file(random: &mut Random, drawn: &Drawn) -> MapFile {
    match random.below(16) {
        0 => MapFile::Nothing,
        1 if random.once_in(4) => MapFile::Folder,
        2 | 3 => MapFile::Text(torn_text(random, drawn)),
        4 | 5 => MapFile::Text(edge_text(random)),
        _ => MapFile::Text(good_text(random, drawn)),
    }
}

/// Question records, and now and then a broken last one.
fn some_input(random: &mut Random, drawn: &Drawn) -> Vec<u8> {
    let mut scenes = random.below(if drawn.map.len() > 1000 { 3 } else { 9 });
    // now and then more than the pipes hold, both ways
    let least = if drawn.map.len() <= 40 && random.once_in(16) {
        150_000
    } else {
        0
    };
    let mut input = Vec::new();
    while scenes > 0 || input.len() < least {
        let scene = Scene::of(random, drawn);
        for _ in 0..random.between(1, 12) {
            input.extend(question(random, &scene));
        }
        scenes = scenes.saturating_sub(1);
    }
    if random.once_in(3) {
        let mut broken = numbers(&[1, 1, 1, 8]);
        broken.resize(random.between(1, RECORD as u64 - 1) as usize, 0);
        input.extend(broken);
    }
    input
}

fn some_sending(random: &mut Random) -> Sending {
    random.one_of(&[
        Sending::OneByOne,
        Sending::Pieces(vec![1]),
        Sending::Pieces(vec![7, RECORD, 80]),
        Sending::Pieces(vec![RECORD - 1, RECORD + 1]),
        Sending::Pieces(vec![RECORD]),
        Sending::Pieces(vec![RECORD / 2]),
        Sending::Pieces(vec![4096]),
        Sending::Pieces(vec![100, 3, 33]),
    ])
}
