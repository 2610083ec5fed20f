//! Compares the proved programs with an independent planner, written from 01 and 02's alone, on random inputs.
//!
//!     compare SEED COUNT FOLDER CALLS PLANNER [START..]
//!
//! COUNT rounds are run, each with its own random numbers. FOLDER is for `floor.map`; CALLS and PLANNER are the programs, and START the words
//! before them that start a program on this machine. A difference is printed with its input, and the status is 1.
//!
//! `floor`, `search`, `claims`, `maptext`, `program`, `log` and `astar` are the independent planner: to be read beside 01 and those requests, sentence
//! by sentence.

mod astar;
mod calls;
mod cases;
mod claims;
mod engines;
mod floor;
mod floors;
mod generate;
mod log;
mod logs;
mod maptext;
mod pipes;
mod planner;
mod program;
mod random;
mod report;
mod search;
mod texts;

use std::collections::BTreeMap;
use std::fmt;
use std::path::PathBuf;
use std::process::ExitCode;

use calls::{Call, What};
use floor::MARK;
use floors::Drawn;
use generate::Scene;
use log::{read_entry, write_entry, Entry};
use pipes::Calls;
use planner::Planner;
use random::Random;

/// Every so many rounds the floor is a large one.
const LARGE: u64 = 50;

/// Every so many rounds there is a hall beside the floor.
const HALL: u64 = 500;

/// Every so many rounds the planner is run.
const PLANNER: u64 = 3;

/// Every so many rounds there is a floor with two ways that cost the same and differ in P and Q.
const TIE: u64 = 5;

/// What has been compared.
#[derive(Default)]
pub struct Counts {
    searches: u64,
    route_claims: u64,
    table_claims: u64,
    map_texts: u64,
    records: u64,
    /// files read entry by entry, and entries given to the writer
    log_files: u64,
    log_entries: u64,
    /// questions to A*
    astars: u64,
    /// how often each word or number was the answer
    met: BTreeMap<String, u64>,
}

impl Counts {
    pub fn meet(&mut self, answer: String) {
        *self.met.entry(answer).or_insert(0) += 1;
    }
}

impl fmt::Display for Counts {
    fn fmt(&self, out: &mut fmt::Formatter) -> fmt::Result {
        write!(
            out,
            "{} searches, {} route claims, {} table claims, {} map texts, {} question records, ",
            self.searches, self.route_claims, self.table_claims, self.map_texts, self.records
        )?;
        write!(
            out,
            "{} log files, {} log entries, {} questions to A*",
            self.log_files, self.log_entries, self.astars
        )
    }
}

/// A difference has been found and printed.
pub struct Differs;

struct Comparison {
    calls: Calls,
    planner: Planner,
    counts: Counts,
    /// the searches of the round, as entries of the route log
    searched: Vec<Entry>,
    /// random numbers of the round for A* alone: so R-4 left a seed's other calls as they were
    aims: Random,
}

impl Comparison {
    fn compare(&mut self, call: &Call) -> Result<(), Differs> {
        match call.what {
            What::Search => self.counts.searches += 1,
            What::RouteClaim => self.counts.route_claims += 1,
            What::TableClaim => self.counts.table_claims += 1,
            What::ReadMap | What::WriteMap => self.counts.map_texts += 1,
            // a file is counted, however many entries are read from it
            What::ReadEntry => (),
            What::WriteEntry => self.counts.log_entries += 1,
            What::Astar => self.counts.astars += 1,
        }
        let expected = call.expected();
        self.counts.meet(report::outcome(call, &expected));
        if call.what == What::Search {
            let (front, rooms) = call.parts(&expected);
            let entry = logs::searched(call, &front, &rooms.route);
            self.searched.push(entry);
        }
        if self.calls.ask(call) == expected {
            return Ok(());
        }
        let calls = &mut self.calls;
        let small = report::shrunk(call, &mut |other| calls.ask(other) != other.expected());
        let got = calls.ask(&small);
        report::print_difference(&small, &small.expected(), &got);
        Err(Differs)
    }

    /// A question to A*; then that the program answers it as it does the same question to the search.
    fn compare_astar(&mut self, call: &Call) -> Result<(), Differs> {
        self.compare(call)?;
        let calls = &mut self.calls;
        let mut differ = |other: &Call| {
            let searched = calls.ask(&engines::as_search(other));
            !engines::agree(other, &searched, &calls.ask(other))
        };
        if !differ(call) {
            return Ok(());
        }
        let small = report::shrunk(call, &mut differ);
        let searched = calls.ask(&engines::as_search(&small));
        report::print_engines(&small, &searched, &calls.ask(&small));
        Err(Differs)
    }

    /// Good questions to A* from the scene's start, so many, and as many that may be refused.
    fn compare_astars(&mut self, scene: &Scene, times: u64) -> Result<(), Differs> {
        for _ in 0..times {
            let good = generate::good_astar(&mut self.aims, scene);
            self.compare_astar(&good)?;
            let wild = generate::wild_question(&mut self.aims, scene, What::Astar);
            self.compare_astar(&wild)?;
        }
        Ok(())
    }

    fn round(&mut self, random: &mut Random, round: u64) -> Result<(), Differs> {
        self.searched.clear();
        if round % LARGE == LARGE - 1 {
            self.large_round(random)?;
        } else {
            self.small_round(random)?;
            if round % PLANNER == 0 {
                self.planner.compare(random, &mut self.counts)?;
            }
        }
        self.compare_logs(random)?;
        if round % TIE == 0 {
            self.compare_tie(random)?;
        }
        if round % HALL == HALL / 2 {
            self.hall_round(random)?;
        }
        Ok(())
    }

    /// The first route and its sums, where routes of one cost differ in P and Q: by both engines.
    fn compare_tie(&mut self, random: &mut Random) -> Result<(), Differs> {
        let drawn = floors::tied(random);
        let scene = Scene::of_corners(random, &drawn);
        for limit in scene.limits() {
            self.compare(&generate::good_search(random, &scene, limit))?;
        }
        let mut aimed = generate::good_search(random, &scene, 0);
        aimed.what = What::Astar;
        self.compare_astar(&aimed)
    }

    fn small_round(&mut self, random: &mut Random) -> Result<(), Differs> {
        let drawn = generate::small_floor(random);
        for _ in 0..3 {
            let scene = Scene::of(random, &drawn);
            for limit in scene.limits() {
                self.compare(&generate::good_search(random, &scene, limit))?;
            }
            for _ in 0..3 {
                self.compare(&generate::wild_question(random, &scene, What::Search))?;
            }
            self.compare_astars(&scene, 2)?;
            for _ in 0..4 {
                self.compare(&generate::route_claim(random, &scene))?;
                self.compare_table(random, &scene)?;
            }
        }
        self.compare_texts(random, &drawn)
    }

    /// A full hall takes seconds: few questions of each kind.
    fn hall_round(&mut self, random: &mut Random) -> Result<(), Differs> {
        let drawn = floors::hall(random);
        let scene = Scene::of(random, &drawn);
        let limit = random.one_of(&scene.limits());
        self.compare(&generate::good_search(random, &scene, MARK))?;
        self.compare(&generate::good_search(random, &scene, limit))?;
        self.compare(&generate::wild_question(random, &scene, What::Search))?;
        let aimed = generate::good_astar(&mut self.aims, &scene);
        self.compare_astar(&aimed)?;
        self.compare(&generate::route_claim(random, &scene))?;
        self.compare_table(random, &scene)?;
        let text = texts::good_text(random, &drawn);
        for mut text in [texts::torn_text(random, &drawn), text] {
            text.truncate(pipes::LONGEST_TEXT);
            self.compare(&generate::reading(text, drawn.map.len()))?;
        }
        self.compare(&generate::writing(random, &drawn))
    }

    /// On a floor of 65,536 cells the plain planner takes its time: fewer questions.
    fn large_round(&mut self, random: &mut Random) -> Result<(), Differs> {
        let drawn = floors::large_floor(random);
        let scene = Scene::of(random, &drawn);
        for limit in [
            random.one_of(&scene.limits()),
            random.one_of(&scene.limits()),
        ] {
            self.compare(&generate::good_search(random, &scene, limit))?;
        }
        let limit = random.below(scene.n + 1) as u32;
        self.compare(&generate::good_search(random, &scene, limit))?;
        self.compare(&generate::wild_question(random, &scene, What::Search))?;
        self.compare(&generate::any_too_large(random))?;
        self.compare_astars(&scene, 1)?;
        let too_large = generate::too_large(&mut self.aims, What::Astar);
        self.compare_astar(&too_large)?;
        for _ in 0..2 {
            self.compare(&generate::route_claim(random, &scene))?;
            self.compare_table(random, &scene)?;
        }
        self.compare_texts(random, &drawn)
    }

    fn compare_table(&mut self, random: &mut Random, scene: &Scene) -> Result<(), Differs> {
        let claim = generate::table_claim(random, scene);
        self.compare(&claim)?;
        if random.once_in(3) {
            let times = random.between(1, 6) as usize;
            return self.compare(&generate::mended(claim, times));
        }
        Ok(())
    }

    fn compare_texts(&mut self, random: &mut Random, drawn: &Drawn) -> Result<(), Differs> {
        let mut texts = vec![texts::good_text(random, drawn)];
        for _ in 0..4 {
            texts.push(texts::torn_text(random, drawn));
        }
        if random.once_in(4) {
            texts.push(texts::edge_text(random));
        }
        for text in texts {
            let cells = drawn.map.len();
            let room = random.one_of(&[cells, cells, cells + 2, cells - 1, 4096, 65536]);
            self.compare(&generate::reading(text, room))?;
        }
        self.compare(&generate::writing(random, drawn))
    }

    /// Some of the round's searches, logged and read back; then entries and files of any kind. What is read is written back.
    fn compare_logs(&mut self, random: &mut Random) -> Result<(), Differs> {
        let mut logged = Vec::new();
        for _ in 0..random.between(1, 3) {
            let entry = random.one_of(&self.searched);
            self.compare(&logs::writing(&entry, entry.bytes().len()))?;
            // a route of more than 4,095 steps is refused
            if write_entry(&entry, entry.bytes().len()).is_ok() {
                logged.push(entry);
            }
        }
        let file: Vec<u8> = logged.iter().flat_map(Entry::bytes).collect();
        let read = self.compare_file(random, &file)?;
        assert_eq!(read, logged, "what is logged reads back");
        for _ in 0..3 {
            self.compare(&logs::wild_writing(random))?;
            let file = logs::any_file(random);
            for entry in self.compare_file(random, &file)? {
                self.compare(&logs::writing(&entry, entry.bytes().len()))?;
            }
        }
        Ok(())
    }

    /// Reads a file entry by entry until its rest is empty or is refused, and gives the entries. Where a room is too short, a longer one follows.
    fn compare_file(&mut self, random: &mut Random, file: &[u8]) -> Result<Vec<Entry>, Differs> {
        self.counts.log_files += 1;
        let mut entries = Vec::new();
        let mut rest = file;
        loop {
            let room = logs::any_room(random, rest);
            self.compare(&logs::reading(rest, room))?;
            let whole = read_entry(rest, logs::EVERY_ROUTE);
            if read_entry(rest, room) != whole {
                self.compare(&logs::reading(rest, logs::EVERY_ROUTE))?;
            }
            match whole {
                Ok(Some(entry)) => {
                    rest = &rest[entry.bytes().len()..];
                    entries.push(entry);
                }
                _ => return Ok(entries),
            }
        }
    }

    fn all(&mut self, seed: u64, count: u64) -> Result<(), Differs> {
        for call in cases::tried() {
            self.compare(&call)?;
        }
        for round in 0..count {
            let mut random = Random::of_round(seed, round);
            self.aims = Random::of_round(!seed, round);
            self.round(&mut random, round).map_err(|differs| {
                println!("seed {}, round {}", seed, round);
                differs
            })?;
        }
        let rest = self.calls.finish();
        if !rest.is_empty() {
            println!("{} bytes were written beyond the replies", rest.len());
            return Err(Differs);
        }
        Ok(())
    }
}

fn main() -> ExitCode {
    let words: Vec<String> = std::env::args().skip(1).collect();
    if words.len() < 5 {
        eprintln!("compare SEED COUNT FOLDER CALLS PLANNER [START..]");
        return ExitCode::FAILURE;
    }
    let seed: u64 = words[0].parse().expect("SEED is a number");
    let count = words[1].parse().expect("COUNT is a number");
    let start = &words[5..];
    let mut comparison = Comparison {
        calls: Calls::new(start, &words[3]),
        planner: Planner {
            start: start.to_vec(),
            program: words[4].clone(),
            folder: PathBuf::from(&words[2]),
        },
        counts: Counts::default(),
        searched: Vec::new(),
        aims: Random::of_round(!seed, 0),
    };
    let compared = comparison.all(seed, count);
    let met: Vec<String> = comparison
        .counts
        .met
        .iter()
        .map(|(answer, times)| format!("{} {}", times, answer))
        .collect();
    println!("answers: {}", met.join(", "));
    match compared {
        Ok(()) => {
            println!("compared: {}; no difference", comparison.counts);
            ExitCode::SUCCESS
        }
        Err(Differs) => {
            println!("compared: {}; the last one differs", comparison.counts);
            ExitCode::FAILURE
        }
    }
}
