//! Writes a question of the bench as bytes: side, start and goal in 32 bits each, lowest byte first, then the map.
//!
//!     floor NAME SIDE

#[allow(dead_code)]
mod floors;
#[allow(dead_code)]
mod question;

use floors::Kind;
use std::io::Write;

fn main() {
    let words: Vec<String> = std::env::args().skip(1).collect();
    let (name, side) = match words.as_slice() {
        [name, side] => (name, side),
        _ => panic!("usage: floor NAME SIDE"),
    };
    let kind = match name.as_str() {
        "empty" => Kind::Empty,
        "third-blocked" => Kind::ThirdBlocked,
        "maze" => Kind::Maze,
        "maze-to-corner" => Kind::MazeToCorner,
        "weights" => Kind::Weights,
        _ => panic!("no floor has the name {name}"),
    };
    let question = kind.question(side.parse().expect("a side is a number"));
    let numbers = [question.width, question.start, question.goal].map(u32::to_le_bytes).concat();
    std::io::stdout().write_all(&[numbers, question.map].concat()).expect("standard output takes the question");
}
