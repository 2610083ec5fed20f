//! The times of A*: ours, the ordinary one, and our plain search for the same goal with the limit at the cell count.

use crate::floors::{Goal, Kind, ASTAR_KINDS, GOALS};
use crate::question::{Answer, Planner, Rooms};
use crate::{ordinary_astar, ours, print_growth, print_growth_head, reached, time_call, GREATEST_SIDE, RUNS, SIDES, WARM_UPS};
use std::time::Duration;

/// What is timed, in this order.
const PLANNERS: [Planner; 3] = [ours::astar, ordinary_astar::astar, ours::search];

/// The greatest ratio aimed at in a full hall, on every floor: R-8.
const AIM: f64 = 0.8;

/// One question's times, and what the planners answered.
struct Timed {
    kind: Kind,
    goal: Goal,
    side: usize,
    times: [Duration; 3],
    answers: [Answer; 3],
}

impl Timed {
    /// The time in ns of one of the planners for each cell that it settled.
    fn per_cell(&self, planner: usize) -> f64 {
        self.times[planner].as_secs_f64() * 1e9 / self.answers[planner].settled as f64
    }
}

pub fn print() {
    println!("\nA*: ours, the ordinary one, and our plain search for the same goal with the limit at the cell count\n");
    println!(
        "| floor | goal | side | settled | by the search | ours ms | ordinary ms | ratio | aim | search ms | ours over search | \
         ours ns/cell | ordinary ns/cell | search ns/cell |"
    );
    println!("|---|---|---|---|---|---|---|---|---|---|---|---|---|---|");
    let mut far = Vec::new();
    for kind in ASTAR_KINDS {
        for goal in GOALS {
            for side in SIDES {
                let timed = time_question(kind, goal, side);
                print_row(&timed);
                if goal == Goal::Far {
                    far.push(timed);
                }
            }
        }
    }
    println!("\nns per settled cell, by side, to the far goal\n");
    print_growth_head(&["ours", "ordinary", "search"]);
    for of_kind in far.chunks(SIDES.len()) {
        let of = |planner| of_kind.iter().map(|t| t.per_cell(planner)).collect();
        print_growth(of_kind[0].kind.name(), &[of(0), of(1), of(2)]);
    }
}

fn time_question(kind: Kind, goal: Goal, side: usize) -> Timed {
    let question = kind.question_to(side, goal);
    let mut rooms = [Rooms::for_cells(side * side), Rooms::for_cells(side * side), Rooms::for_cells(side * side)];
    let mut timed = Timed { kind, goal, side, times: [Duration::MAX; 3], answers: [Answer::default(); 3] };
    for run in 0..WARM_UPS + RUNS {
        for (i, planner) in PLANNERS.into_iter().enumerate() {
            let (time, answer) = time_call(planner, &question, &mut rooms[i]);
            timed.answers[i] = answer;
            if run >= WARM_UPS {
                timed.times[i] = timed.times[i].min(time);
            }
        }
        assert_eq!(rooms[0], rooms[1], "both A* settle the same cells");
    }
    timed
}

fn print_row(t: &Timed) {
    let [ours, ordinary, search] = t.times.map(|time| time.as_secs_f64());
    let [settled, _, searched] = t.answers.map(|answer| answer.settled);
    let aim = if t.side == GREATEST_SIDE { Some(AIM) } else { None };
    println!(
        "| {} | {} | {} | {} | {} | {:.3} | {:.3} | {:.2} | {} | {:.3} | {:.2} | {:.1} | {:.1} | {:.1} |",
        t.kind.name(),
        t.goal.name(),
        t.side,
        settled,
        searched,
        ours * 1e3,
        ordinary * 1e3,
        ours / ordinary,
        reached(ours / ordinary, aim),
        search * 1e3,
        ours / search,
        t.per_cell(0),
        t.per_cell(1),
        t.per_cell(2)
    );
}
