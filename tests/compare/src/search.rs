//! The search of 01 and 02's, from their definitions: least costs, the list L, the first route with its two sums, and the table of answers.

use std::cell::RefCell;

use crate::floor::{both_weights, is_diagonal, refusal, Floor, Refusal, MARK};

/// The three lent rooms.
#[derive(Clone, Debug, PartialEq)]
pub struct Rooms {
    pub costs: Vec<u32>,
    pub work: Vec<u32>,
    pub route: Vec<u8>,
}

#[derive(Clone, Debug, PartialEq)]
pub enum Answer {
    Refused(Refusal),
    Found {
        settled: u64,
        cost: u64,
        length: u64,
        p: u64,
        q: u64,
    },
    None {
        settled: u64,
    },
    Stopped {
        settled: u64,
        floor: u64,
    },
}

/// The least cost of each cell from the start, or nothing for a cell that no route reaches: every step out of a cell whose cost became less is tried,
/// again and again, until no cost becomes less.
fn tried_costs(floor: Floor, map: &[u8], start: u64) -> Vec<Option<u64>> {
    let mut costs = vec![None; map.len()];
    costs[start as usize] = Some(0);
    let mut lowered = vec![start];
    while !lowered.is_empty() {
        let mut next = Vec::new();
        for cell in lowered {
            take_steps(floor, map, cell, &mut costs, &mut next);
        }
        lowered = next;
    }
    costs
}

/// Takes every step out of one cell, and lists the cells whose cost became less.
fn take_steps(
    floor: Floor,
    map: &[u8],
    cell: u64,
    costs: &mut [Option<u64>],
    lowered: &mut Vec<u64>,
) {
    if let Some(cost) = costs[cell as usize] {
        for direction in 0..8 {
            if let Some((entered, step)) = floor.allowed_step(map, cell, direction) {
                let sum = cost + step;
                let known = costs[entered as usize];
                if known.is_none() || known > Some(sum) {
                    costs[entered as usize] = Some(sum);
                    lowered.push(entered);
                }
            }
        }
    }
}

/// A floor, its map, a start, and the least costs from there.
type Known = (Floor, Vec<u8>, u64, Vec<Option<u64>>);

thread_local! {
    static LAST: RefCell<Option<Known>> = RefCell::new(None);
}

/// The least costs, which are kept for the next question: most are about the floor and the start of the one before, and a full hall takes its time.
pub fn least_costs(floor: Floor, map: &[u8], start: u64) -> Vec<Option<u64>> {
    LAST.with(|last| {
        if let Some((known_floor, known_map, known_start, costs)) = &*last.borrow() {
            if (*known_floor, &known_map[..], *known_start) == (floor, map, start) {
                return costs.clone();
            }
        }
        let costs = tried_costs(floor, map, start);
        *last.borrow_mut() = Some((floor, map.to_vec(), start, costs.clone()));
        costs
    })
}

/// L: "the list of cells reachable from the start, the start included, sorted by least cost from the start and, at equal cost, by cell number".
pub fn list_l(costs: &[Option<u64>]) -> Vec<(u64, u64)> {
    let mut list = Vec::new();
    for (cell, cost) in costs.iter().enumerate() {
        if let Some(cost) = cost {
            list.push((*cost, cell as u64));
        }
    }
    list.sort();
    list
}

/// The first least-cost route. "Line two different least-cost routes up at their last steps and go backwards. At the first difference met,
/// the lower direction number comes first": so the last step has the lowest direction that a least-cost route can end with, then the one
/// before it, and so on.
pub fn first_route(
    floor: Floor,
    map: &[u8],
    costs: &[Option<u64>],
    start: u64,
    goal: u64,
) -> Vec<u8> {
    let mut backwards = Vec::new();
    let mut cell = goal;
    while cell != start {
        let (direction, left) = lowest_last_step(floor, map, costs, cell);
        backwards.push(direction as u8);
        cell = left;
    }
    backwards.reverse();
    backwards
}

/// The lowest direction of a step that gives the cell its least cost, and the cell that this step leaves.
fn lowest_last_step(floor: Floor, map: &[u8], costs: &[Option<u64>], cell: u64) -> (u64, u64) {
    for direction in 0..8 {
        if let Some(left) = floor.left(cell, direction) {
            if let (Some(cost), Some((_, step))) = (
                costs[left as usize],
                floor.allowed_step(map, left, direction),
            ) {
                if Some(cost + step) == costs[cell as usize] {
                    return (direction, left);
                }
            }
        }
    }
    panic!("a cell with a least cost has a last step");
}

/// P and Q of a route: R-3's pairs of weights, summed "over straight steps" and "over diagonal ones".
fn two_sums(floor: Floor, map: &[u8], start: u64, route: &[u8]) -> (u64, u64) {
    let (mut cell, mut p, mut q) = (start, 0, 0);
    for direction in route {
        let direction = *direction as u64;
        let entered = floor
            .entered(cell, direction)
            .expect("a route stays on the map");
        let pair = both_weights(map, cell, entered);
        if is_diagonal(direction) {
            q += pair;
        } else {
            p += pair;
        }
        cell = entered;
    }
    (p, q)
}

/// The found answer of either engine, whose route is put into its room. "The search's found answer carries both [sums], as does A*'s."
pub fn found(
    floor: Floor,
    map: &[u8],
    (start, goal): (u64, u64),
    costs: &[Option<u64>],
    settled: u64,
    room: &mut [u8],
) -> Answer {
    let cost = costs[goal as usize].expect("a goal that is found has a cost");
    let route = first_route(floor, map, costs, start, goal);
    let (p, q) = two_sums(floor, map, start, &route);
    assert_eq!(cost, 70 * p + 99 * q, "the cost of a route and its sums");
    room[..route.len()].copy_from_slice(&route);
    let length = route.len() as u64;
    Answer::Found {
        settled,
        cost,
        length,
        p,
        q,
    }
}

/// Refusals 1 to 11 of a question and the rooms lent to it.
pub fn refused_question(
    floor: Floor,
    map: &[u8],
    start: u64,
    goal: u64,
    rooms: &Rooms,
) -> Option<Refusal> {
    if let Some(refused) = floor.refused_question(map, start, goal) {
        return Some(refused);
    }
    if (rooms.costs.len() as u64) < floor.cells() {
        return refusal(9, 0);
    }
    if (rooms.work.len() as u64) < 2 * floor.cells() {
        return refusal(10, 0);
    }
    if (rooms.route.len() as u64) < floor.cells() {
        return refusal(11, 0);
    }
    None
}

/// Refusals 1 to 11; then, of limit 0, R-2: "Refuse it as 15, checked after 11."
fn refused_search(
    floor: Floor,
    map: &[u8],
    start: u64,
    goal: u64,
    limit: u64,
    rooms: &Rooms,
) -> Option<Refusal> {
    if let Some(refused) = refused_question(floor, map, start, goal, rooms) {
        return Some(refused);
    }
    if limit == 0 {
        return refusal(15, 0);
    }
    None
}

/// The answer, and the rooms afterwards. "A refusal alters no room."
pub fn search(
    floor: Floor,
    map: &[u8],
    start: u64,
    goal: u64,
    limit: u64,
    rooms: &mut Rooms,
) -> Answer {
    if let Some(refused) = refused_search(floor, map, start, goal, limit, rooms) {
        return Answer::Refused(refused);
    }
    let costs = least_costs(floor, map, start);
    let list = list_l(&costs);
    let answer = answer_of(&list, goal, limit);
    leave_costs(&list, &answer, map.len(), &mut rooms.costs);
    for entry in &mut rooms.work[..2 * map.len()] {
        *entry = 0;
    }
    match answer {
        Answer::Found { settled, .. } => {
            let ends = (start, goal);
            found(floor, map, ends, &costs, settled, &mut rooms.route)
        }
        other => other,
    }
}

/// 01's table of answers, what is said of the route apart.
fn answer_of(list: &[(u64, u64)], goal: u64, limit: u64) -> Answer {
    let n = list.len() as u64;
    let place = list.iter().position(|(_, cell)| *cell == goal);
    match place {
        Some(i) if (i as u64) < limit => Answer::Found {
            settled: i as u64 + 1,
            cost: list[i].0,
            length: 0,
            p: 0,
            q: 0,
        },
        None if n <= limit => Answer::None { settled: n },
        _ => Answer::Stopped {
            settled: limit,
            floor: list[limit as usize].0,
        },
    }
}

/// "Afterwards the first width × height costs hold the least cost for settled cells and MARK for all others."
fn leave_costs(list: &[(u64, u64)], answer: &Answer, cells: usize, costs: &mut [u32]) {
    let settled = match answer {
        Answer::Refused(_) => return,
        Answer::Found { settled, .. } => *settled,
        Answer::None { settled } => *settled,
        Answer::Stopped { settled, .. } => *settled,
    };
    for cost in &mut costs[..cells] {
        *cost = MARK;
    }
    for (cost, cell) in &list[..settled as usize] {
        costs[*cell as usize] = *cost as u32;
    }
}
