//! An ordinary planner: Dijkstra's search with the standard library's binary heap and lazy deletion. It gives the same
//! refusals and answers as the proved search and leaves the same in the rooms, and shares no code with it.

use crate::question::{Answer, Question, Rooms, Walked, MARK};
use std::cmp::Reverse;
use std::collections::BinaryHeap;

/// dx, dy and unit of the directions N, NE, E, SE, S, SW, W, NW.
pub const DIRECTIONS: [(i32, i32, u32); 8] =
    [(0, -1, 70), (1, -1, 99), (1, 0, 70), (1, 1, 99), (0, 1, 70), (-1, 1, 99), (-1, 0, 70), (-1, -1, 99)];

/// Open cells, the least first. A cell that got cheaper is in it more than once.
pub type Open = BinaryHeap<Reverse<u64>>;

/// A cost and a cell as one number, which sorts by cost and then by cell: quicker to compare than a pair.
pub fn key(cost: u32, cell: usize) -> Reverse<u64> {
    Reverse(u64::from(cost) << 32 | cell as u64)
}

pub fn cost_and_cell(Reverse(key): Reverse<u64>) -> (u32, usize) {
    ((key >> 32) as u32, key as u32 as usize)
}

pub struct Floor<'a> {
    width: i32,
    height: i32,
    /// 1 with eight ways; 2 with four, which leaves out the odd directions.
    stride: usize,
    map: &'a [u8],
}

impl Floor<'_> {
    pub fn of(question: &Question) -> Floor<'_> {
        let stride = if question.ways == 8 { 1 } else { 2 };
        Floor { width: question.width as i32, height: question.height as i32, stride, map: &question.map }
    }

    pub fn directions(&self) -> impl Iterator<Item = usize> {
        (0..8).step_by(self.stride)
    }

    pub fn place_of(&self, cell: usize) -> (i32, i32) {
        (cell as i32 % self.width, cell as i32 / self.width)
    }

    fn cell_at(&self, x: i32, y: i32) -> usize {
        (y * self.width + x) as usize
    }

    fn has(&self, x: i32, y: i32) -> bool {
        0 <= x && x < self.width && 0 <= y && y < self.height
    }

    fn is_open(&self, x: i32, y: i32) -> bool {
        self.map[self.cell_at(x, y)] != 0
    }

    pub fn weight(&self, cell: usize) -> u32 {
        u32::from(self.map[cell])
    }

    /// The cell that a step from an open cell enters and what it costs, where the step is allowed. `left` is the weight of
    /// the cell that it leaves. Always inlined, as it was before A* called it too: the search is not to be slower for that.
    #[inline(always)]
    pub fn step(&self, x: i32, y: i32, left: u32, direction: usize) -> Option<(usize, u32)> {
        let (dx, dy, unit) = DIRECTIONS[direction];
        let (u, v) = (x + dx, y + dy);
        if !self.has(u, v) || !self.is_open(u, v) {
            return None;
        }
        if direction % 2 == 1 && !(self.is_open(u, y) && self.is_open(x, v)) {
            return None;
        }
        let to = self.cell_at(u, v);
        Some((to, unit * (left + self.weight(to))))
    }
}

pub fn search(question: &Question, rooms: &mut Rooms) -> Answer {
    if let Some(refused) = refusal(question, rooms) {
        return refused;
    }
    let cells = question.map.len();
    let costs = &mut rooms.costs[..cells];
    let answer = settle(&Floor::of(question), question, costs, &mut rooms.route);
    rooms.work[..2 * cells].fill(0);
    answer
}

/// The refusals 1 to 11 and 15: the lowest that applies.
fn refusal(question: &Question, rooms: &Rooms) -> Option<Answer> {
    let no_limit = || if question.limit == 0 { Some(Answer::refused(15, 0)) } else { None };
    refused_before_15(question, rooms).or_else(no_limit)
}

/// The refusals 1 to 11: the lowest that applies.
pub fn refused_before_15(question: &Question, rooms: &Rooms) -> Option<Answer> {
    let is_side = |n: u32| (1..=1024).contains(&n);
    if !is_side(question.width) || !is_side(question.height) {
        return Some(Answer::refused(1, 0));
    }
    let cells = question.width as usize * question.height as usize;
    if question.map.len() != cells {
        return Some(Answer::refused(2, 0));
    }
    if let Some(place) = question.map.iter().position(|&weight| weight > 9) {
        return Some(Answer::refused(3, place));
    }
    let (start, goal) = (question.start as usize, question.goal as usize);
    let number = if question.ways != 4 && question.ways != 8 {
        4
    } else if start >= cells {
        5
    } else if goal >= cells {
        6
    } else if question.map[start] == 0 {
        7
    } else if question.map[goal] == 0 {
        8
    } else if rooms.costs.len() < cells {
        9
    } else if rooms.work.len() < 2 * cells {
        10
    } else if rooms.route.len() < cells {
        11
    } else {
        return None;
    };
    Some(Answer::refused(number, 0))
}

fn settle(floor: &Floor, question: &Question, costs: &mut [u32], route: &mut [u8]) -> Answer {
    let (start, goal) = (question.start as usize, question.goal as usize);
    costs.fill(MARK);
    costs[start] = 0;
    let mut open = Open::new();
    open.push(key(0, start));
    let mut settled = 0;
    while let Some(least) = open.pop() {
        let (cost, cell) = cost_and_cell(least);
        if costs[cell] < cost {
            continue; // it got cheaper and is settled
        }
        if settled == question.limit {
            costs[cell] = MARK;
            forget_seen(open, costs);
            return Answer::stopped(settled, cost);
        }
        settled += 1;
        if cell == goal {
            forget_seen(open, costs);
            return Answer::found(settled, cost, write_route(floor, costs, start, goal, route));
        }
        let (x, y) = floor.place_of(cell);
        let left = floor.weight(cell);
        for direction in floor.directions() {
            if let Some((to, step)) = floor.step(x, y, left, direction) {
                if cost + step < costs[to] {
                    costs[to] = cost + step;
                    open.push(key(cost + step, to));
                }
            }
        }
    }
    Answer::none(settled)
}

/// Cells that still wait were only seen and lose their costs. An entry that costs more than its cell is an old one.
fn forget_seen(open: Open, costs: &mut [u32]) {
    for waiting in open {
        let (cost, cell) = cost_and_cell(waiting);
        if costs[cell] == cost {
            costs[cell] = MARK;
        }
    }
}

/// Writes the first least-cost route: back from the goal, at each cell by the lowest direction. Its sums are taken on the way.
pub fn write_route(floor: &Floor, costs: &[u32], start: usize, goal: usize, route: &mut [u8]) -> Walked {
    let mut walked = Walked::default();
    let mut cell = goal;
    while cell != start {
        let (direction, from) = last_step(floor, costs, cell);
        let weight = floor.weight(from) + floor.weight(cell);
        if direction % 2 == 0 {
            walked.p += weight;
        } else {
            walked.q += weight;
        }
        route[walked.length as usize] = direction as u8;
        walked.length += 1;
        cell = from;
    }
    route[..walked.length as usize].reverse();
    walked
}

/// The lowest direction of a step that gives a settled cell its cost, and the cell that it leaves.
fn last_step(floor: &Floor, costs: &[u32], cell: usize) -> (usize, usize) {
    let (x, y) = floor.place_of(cell);
    for direction in floor.directions() {
        let (dx, dy, _) = DIRECTIONS[direction];
        let (u, v) = (x - dx, y - dy);
        if !floor.has(u, v) || costs[floor.cell_at(u, v)] == MARK {
            continue;
        }
        let from = floor.cell_at(u, v);
        if let Some((_, step)) = floor.step(u, v, floor.weight(from), direction) {
            if costs[from] + step == costs[cell] {
                return (direction, from);
            }
        }
    }
    unreachable!("a settled cell other than the start has a step that gives its cost")
}
