//! An ordinary A*: the octile estimate, the standard library's binary heap and lazy deletion. It gives the same refusals and
//! answers as the proved A* and leaves the same in the rooms. Floor, refusals and the walk back are the ordinary planner's.

use crate::ordinary::{cost_and_cell, key, refused_before_15, write_route, Floor, Open, DIRECTIONS};
use crate::question::{Answer, Question, Rooms, MARK};

/// A straight and a diagonal step between cells of weight 1.
const STRAIGHT: u32 = 140;
const DIAGONAL: u32 = 198;

/// Where the goal lies, and how the way to it is estimated.
struct Aim {
    x: i32,
    y: i32,
    has_diagonals: bool,
}

impl Aim {
    fn estimate(&self, x: i32, y: i32) -> u32 {
        let (columns, rows) = (x.abs_diff(self.x), y.abs_diff(self.y));
        if !self.has_diagonals {
            return STRAIGHT * (columns + rows);
        }
        let (small, large) = (columns.min(rows), columns.max(rows));
        DIAGONAL * small + STRAIGHT * (large - small)
    }
}

pub fn astar(question: &Question, rooms: &mut Rooms) -> Answer {
    if let Some(refused) = refused_before_15(question, rooms) {
        return refused;
    }
    let cells = question.map.len();
    let floor = Floor::of(question);
    let (x, y) = floor.place_of(question.goal as usize);
    let aim = Aim { x, y, has_diagonals: question.ways == 8 };
    let answer = settle(&floor, &aim, question, &mut rooms.costs[..cells], &mut rooms.route);
    rooms.work[..2 * cells].fill(0);
    answer
}

/// Settles by cost plus estimate, and goes on past the goal while the least sum is the goal's cost: a cell that the first route
/// needs may come after the goal.
fn settle(floor: &Floor, aim: &Aim, question: &Question, costs: &mut [u32], route: &mut [u8]) -> Answer {
    let (start, goal) = (question.start as usize, question.goal as usize);
    let (x, y) = floor.place_of(start);
    costs.fill(MARK);
    costs[start] = 0;
    let mut open = Open::new();
    open.push(key(aim.estimate(x, y), start));
    let mut settled = 0;
    while let Some(least) = open.pop() {
        let (sum, cell) = cost_and_cell(least);
        if costs[goal] < sum {
            open.push(least);
            break;
        }
        let (x, y) = floor.place_of(cell);
        let cost = costs[cell];
        if cost + aim.estimate(x, y) < sum {
            continue; // it got cheaper and is settled
        }
        settled += 1;
        expand(floor, aim, cell, costs, &mut open);
    }
    forget_seen(floor, aim, open, costs);
    if costs[goal] == MARK {
        return Answer::none(settled);
    }
    Answer::found(settled, costs[goal], write_route(floor, costs, start, goal, route))
}

fn expand(floor: &Floor, aim: &Aim, cell: usize, costs: &mut [u32], open: &mut Open) {
    let (x, y) = floor.place_of(cell);
    let (cost, left) = (costs[cell], floor.weight(cell));
    for direction in floor.directions() {
        if let Some((to, step)) = floor.step(x, y, left, direction) {
            if cost + step < costs[to] {
                let (dx, dy, _) = DIRECTIONS[direction];
                costs[to] = cost + step;
                open.push(key(cost + step + aim.estimate(x + dx, y + dy), to));
            }
        }
    }
}

/// Cells that still wait were only seen and lose their costs. An entry that is above its cell's sum is an old one.
fn forget_seen(floor: &Floor, aim: &Aim, open: Open, costs: &mut [u32]) {
    for waiting in open {
        let (sum, cell) = cost_and_cell(waiting);
        let (x, y) = floor.place_of(cell);
        if costs[cell] != MARK && costs[cell] + aim.estimate(x, y) == sum {
            costs[cell] = MARK;
        }
    }
}
