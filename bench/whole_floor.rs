//! What a whole floor takes, whatever is settled on it: the times of questions that settle no cell, or one.

use crate::compare::{Pair, ASTAR, SEARCH};
use crate::question::{Question, Rooms};
use crate::{time_call, RUNS, SIDES, WARM_UPS};
use std::time::Duration;

pub fn print() {
    println!("\nwhat a whole floor takes: the map looked at, for a question that is refused as 8; and rooms filled and cleared too, for one whose start is its goal\n");
    println!("| question | side | search: ours ms | ordinary ms | ratio | A*: ours ms | ordinary ms | ratio |");
    println!("|---|---|---|---|---|---|---|---|");
    for (name, ask) in [("refused as 8", refused as fn(usize) -> Question), ("start is goal", at_the_goal)] {
        for side in SIDES {
            let question = ask(side);
            println!("| {name} | {side} | {} | {} |", columns(&SEARCH, &question), columns(&ASTAR, &question));
        }
    }
}

/// An empty floor, in whose middle the question starts and ends.
fn at_the_goal(side: usize) -> Question {
    let cells = side * side;
    let middle = (cells + side) as u32 / 2;
    let side = side as u32;
    Question { width: side, height: side, ways: 8, map: vec![1; cells], start: middle, goal: middle, limit: cells as u32 }
}

/// The same, but that the goal is the last cell and blocked. The map is looked at before that.
fn refused(side: usize) -> Question {
    let mut question = at_the_goal(side);
    question.goal = question.map.len() as u32 - 1;
    question.map[question.goal as usize] = 0;
    question
}

/// The least times of both, in turn, and their ratio.
fn columns(pair: &Pair, question: &Question) -> String {
    let cells = question.map.len();
    let mut our_rooms = Rooms::for_cells(cells);
    let mut their_rooms = our_rooms.clone();
    let mut least = [Duration::MAX; 2];
    for run in 0..WARM_UPS + RUNS {
        let (our_time, our_answer) = time_call(pair.ours, question, &mut our_rooms);
        let (their_time, their_answer) = time_call(pair.ordinary, question, &mut their_rooms);
        assert_eq!(our_answer, their_answer);
        assert_eq!(our_rooms, their_rooms);
        if run >= WARM_UPS {
            least = [least[0].min(our_time), least[1].min(their_time)];
        }
    }
    let [ours, ordinary] = least.map(|time| time.as_secs_f64());
    format!("{:.3} | {:.3} | {:.2}", ours * 1e3, ordinary * 1e3, ours / ordinary)
}
