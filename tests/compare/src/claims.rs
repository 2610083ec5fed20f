//! The claims of 01: the check of a claimed route and the check of a claimed cost table.

use crate::floor::{is_open, refusal, step_cost, Floor, Refusal, MARK};

#[derive(Clone, Debug, PartialEq)]
pub enum RouteVerdict {
    /// a refusal or a fault
    Fails(Refusal),
    Holds(u64),
}

#[derive(Clone, Debug, PartialEq)]
pub enum TableVerdict {
    Refused(Refusal),
    Right,
    Breaks(u64),
}

/// "The first fault is answered with its step's place. A step with several faults gives the lowest number."
fn fault_of_step(floor: Floor, map: &[u8], cell: u64, direction: u64) -> Option<u32> {
    if !floor.has_direction(direction) {
        return Some(41);
    }
    let entered = floor.entered(cell, direction);
    if entered.is_none() {
        return Some(42);
    }
    if !is_open(map, entered) {
        return Some(43);
    }
    if floor.cuts_corner(map, cell, direction) {
        return Some(44);
    }
    None
}

pub fn check_route(
    floor: Floor,
    map: &[u8],
    start: u64,
    goal: u64,
    cost: u64,
    route: &[u8],
) -> RouteVerdict {
    if let Some(refused) = floor.refused_question(map, start, goal) {
        return RouteVerdict::Fails(refused);
    }
    if route.len() as u64 > floor.cells() - 1 {
        return fails(12, 0);
    }
    let mut cell = start;
    let mut sum = 0;
    for (place, direction) in route.iter().enumerate() {
        let direction = *direction as u64;
        if let Some(number) = fault_of_step(floor, map, cell, direction) {
            return fails(number, place as u64);
        }
        let entered = floor
            .entered(cell, direction)
            .expect("42 was not the fault");
        sum += step_cost(map, cell, entered, direction);
        cell = entered;
    }
    // "45 not at the goal, 46 cost differs, both with the route's length as place, 45 before 46"
    if cell != goal {
        return fails(45, route.len() as u64);
    }
    if sum != cost {
        return fails(46, route.len() as u64);
    }
    RouteVerdict::Holds(sum)
}

fn fails(number: u32, place: u64) -> RouteVerdict {
    RouteVerdict::Fails(Refusal { number, place })
}

fn refused_table(floor: Floor, map: &[u8], start: u64, table: &[u32]) -> Option<Refusal> {
    if let Some(refused) = floor.refused_floor(map) {
        return Some(refused);
    }
    if start >= floor.cells() {
        return refusal(5, 0);
    }
    if !is_open(map, Some(start)) {
        return refusal(7, 0);
    }
    if (table.len() as u64) < floor.cells() {
        return refusal(9, 0);
    }
    None
}

/// "The answer is "right", or the lowest cell number that breaks this rule."
pub fn check_table(floor: Floor, map: &[u8], start: u64, table: &[u32]) -> TableVerdict {
    if let Some(refused) = refused_table(floor, map, start, table) {
        return TableVerdict::Refused(refused);
    }
    for cell in 0..floor.cells() {
        if table[cell as usize] as u64 != due(floor, map, start, table, cell) {
            return TableVerdict::Breaks(cell);
        }
    }
    TableVerdict::Right
}

/// What the rule asks of a cell: "a blocked cell has MARK; the start has 0; any other cell has the smallest of value + step cost over cells
/// with an allowed step into it whose value isn't MARK, or MARK if there is none. Sums are taken in full."
pub fn due(floor: Floor, map: &[u8], start: u64, table: &[u32], cell: u64) -> u64 {
    if !is_open(map, Some(cell)) {
        return MARK as u64;
    }
    if cell == start {
        return 0;
    }
    let mut sums = Vec::new();
    for direction in 0..8 {
        if let Some(left) = floor.left(cell, direction) {
            let value = table[left as usize];
            if let Some((_, step)) = floor.allowed_step(map, left, direction) {
                if value != MARK {
                    sums.push(value as u64 + step);
                }
            }
        }
    }
    match sums.iter().min() {
        Some(sum) => *sum,
        None => MARK as u64,
    }
}
