//! Compares the proved search with an ordinary planner, and the proved A* with an ordinary one, then times all: bench/README.md.
//!
//!     bench            compares, then prints the tables of times
//!     bench --check    compares

mod astar_times;
mod clock;
mod compare;
mod floors;
mod memory;
mod ordinary;
mod ordinary_astar;
mod ours;
mod question;
mod whole_floor;

use floors::{Kind, KINDS};
use question::{Answer, Planner, Question, Rooms};
use std::process::ExitCode;
use std::time::Duration;

/// The sides of the floors that are timed.
pub const SIDES: [usize; 3] = [64, 256, GREATEST_SIDE];

/// No floor has a greater one.
pub const GREATEST_SIDE: usize = 1024;

/// How often each planner is run on each floor; the least time counts.
const RUNS: usize = 51;

/// Runs of each planner before the timed ones, so that neither is the first to touch its rooms and its code.
const WARM_UPS: usize = 3;

fn main() -> ExitCode {
    let check_only = std::env::args().skip(1).any(|word| word == "--check");
    let comparisons: [(&str, fn() -> Result<usize, String>); 2] = [("", compare::compare_all), ("A*: ", compare::compare_astar)];
    for (which, compare) in comparisons {
        match compare() {
            Err(difference) => {
                eprintln!("bench: {which}{difference}");
                return ExitCode::FAILURE;
            }
            Ok(count) => println!("{which}answers, costs, work rooms and routes are the same on {count} questions"),
        }
    }
    if !check_only {
        print_times();
        astar_times::print();
        whole_floor::print();
        memory::print();
    }
    ExitCode::SUCCESS
}

/// One floor's times.
struct Timed {
    kind: Kind,
    side: usize,
    settled: u64,
    ours: Duration,
    ordinary: Duration,
}

impl Timed {
    fn ratio(&self) -> f64 {
        self.ours.as_secs_f64() / self.ordinary.as_secs_f64()
    }

    fn per_cell(&self, time: Duration) -> f64 {
        time.as_secs_f64() * 1e9 / self.settled as f64
    }
}

fn print_times() {
    let mut times = Vec::new();
    for kind in KINDS {
        for side in SIDES {
            times.push(time_floor(kind, side));
        }
    }
    println!("processor time, the least of {RUNS} runs of each, in turn; all rooms cleared before each run, outside the time\n");
    print_floors(&times);
    println!("\nns per settled cell, by side\n");
    print_growth_head(&["ours", "ordinary"]);
    for of_kind in times.chunks(SIDES.len()) {
        let of = |time: fn(&Timed) -> Duration| of_kind.iter().map(|t| t.per_cell(time(t))).collect();
        print_growth(of_kind[0].kind.name(), &[of(|t| t.ours), of(|t| t.ordinary)]);
    }
}

fn time_floor(kind: Kind, side: usize) -> Timed {
    let question = kind.question(side);
    let mut our_rooms = Rooms::for_cells(side * side);
    let mut their_rooms = our_rooms.clone();
    let mut timed = Timed { kind, side, settled: 0, ours: Duration::MAX, ordinary: Duration::MAX };
    for run in 0..WARM_UPS + RUNS {
        let (our_time, our_answer) = time_call(ours::search, &question, &mut our_rooms);
        let (their_time, their_answer) = time_call(ordinary::search, &question, &mut their_rooms);
        assert_eq!(our_answer, their_answer);
        timed.settled = our_answer.settled;
        if run >= WARM_UPS {
            timed.ours = timed.ours.min(our_time);
            timed.ordinary = timed.ordinary.min(their_time);
        }
    }
    timed
}

/// Not inlined: both planners are called through a pointer, in the same way.
#[inline(never)]
fn time_call(planner: Planner, question: &Question, rooms: &mut Rooms) -> (Duration, Answer) {
    rooms.fill(0, 0);
    let begun = clock::now();
    let answer = planner(question, rooms);
    (clock::now() - begun, answer)
}

/// The greatest ratio aimed at, for each kind of machine: R-5's for the side that was the greatest then, R-8's for a full hall.
fn aim(kind: Kind, side: usize) -> Option<f64> {
    let is_x86 = cfg!(target_arch = "x86_64");
    let (empty, blocked, maze, weights) = match side {
        256 if is_x86 => (0.55, 0.70, 0.75, None),
        256 => (0.35, 0.45, 0.60, None),
        GREATEST_SIDE if is_x86 => (0.45, 0.50, 0.55, Some(0.50)),
        GREATEST_SIDE => (0.35, 0.40, 0.50, Some(0.40)),
        _ => return None,
    };
    match kind {
        Kind::Empty => Some(empty),
        Kind::ThirdBlocked => Some(blocked),
        Kind::Maze | Kind::MazeToCorner => Some(maze),
        Kind::Weights => weights,
        Kind::Rooms => None,
    }
}

/// An aim, and whether a ratio reaches it.
fn reached(ratio: f64, aim: Option<f64>) -> String {
    match aim {
        None => String::new(),
        Some(most) if ratio <= most => format!("{most:.2}, reached"),
        Some(most) => format!("{most:.2}, missed"),
    }
}

fn print_floors(times: &[Timed]) {
    println!("| floor | side | settled | ours ms | ordinary ms | ratio | aim | ours ns/cell | ordinary ns/cell |");
    println!("|---|---|---|---|---|---|---|---|---|");
    for t in times {
        let aim = reached(t.ratio(), aim(t.kind, t.side));
        println!(
            "| {} | {} | {} | {:.3} | {:.3} | {:.2} | {} | {:.1} | {:.1} |",
            t.kind.name(),
            t.side,
            t.settled,
            t.ours.as_secs_f64() * 1e3,
            t.ordinary.as_secs_f64() * 1e3,
            t.ratio(),
            aim,
            t.per_cell(t.ours),
            t.per_cell(t.ordinary)
        );
    }
}

/// The head of a table of growth: each planner's time by side, and that of the greatest side over the one before.
fn print_growth_head(planners: &[&str]) {
    let sides: Vec<String> = SIDES.iter().map(usize::to_string).collect();
    let [.., before, greatest] = SIDES;
    let columns: Vec<String> = planners.iter().map(|planner| format!("{planner} {} | {greatest} over {before}", sides.join(" | "))).collect();
    println!("| floor | {} |", columns.join(" | "));
    println!("|---{}|", "|---".repeat(planners.len() * (SIDES.len() + 1)));
}

/// A row of it.
fn print_growth(floor: &str, planners: &[Vec<f64>]) {
    let columns: Vec<String> = planners.iter().map(|per_cell| growth(per_cell)).collect();
    println!("| {floor} | {} |", columns.join(" | "));
}

fn growth(per_cell: &[f64]) -> String {
    let times: Vec<String> = per_cell.iter().map(|ns| format!("{ns:.1}")).collect();
    format!("{} | {:.2}", times.join(" | "), per_cell[per_cell.len() - 1] / per_cell[per_cell.len() - 2])
}
