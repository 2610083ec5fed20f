//! A* of 02's R-4, from its definition: no A* is run. All least costs are known first, and then each cell by itself is settled or not.

use crate::floor::{Floor, MARK};
use crate::search::{found, least_costs, refused_question, Answer, Rooms};

/// "With small and large the two coordinate distances, 198 × small + 140 × (large − small); with four ways 140 × (small + large)."
fn estimate(floor: Floor, cell: u64, goal: u64) -> u64 {
    let columns = (cell % floor.width).abs_diff(goal % floor.width);
    let rows = (cell / floor.width).abs_diff(goal / floor.width);
    let (small, large) = (columns.min(rows), columns.max(rows));
    if floor.ways == 4 {
        return 140 * (small + large);
    }
    198 * small + 140 * (large - small)
}

/// "It settles exactly the reachable cells whose least cost plus estimate is at most the goal's cost, or all reachable cells for none."
fn is_settled(floor: Floor, costs: &[Option<u64>], cell: u64, goal: u64) -> bool {
    match (costs[cell as usize], costs[goal as usize]) {
        (None, _) => false,
        (Some(_), None) => true,
        (Some(cost), Some(goal_cost)) => cost + estimate(floor, cell, goal) <= goal_cost,
    }
}

/// The answer, and the rooms afterwards. "Its count is their number and the costs left are theirs, MARK elsewhere"; "refusals 1 to 11 apply".
pub fn astar(floor: Floor, map: &[u8], start: u64, goal: u64, rooms: &mut Rooms) -> Answer {
    if let Some(refused) = refused_question(floor, map, start, goal, rooms) {
        return Answer::Refused(refused);
    }
    let costs = least_costs(floor, map, start);
    let mut settled = 0;
    for cell in 0..floor.cells() {
        let mut left = MARK;
        if is_settled(floor, &costs, cell, goal) {
            settled += 1;
            left = costs[cell as usize].map_or(MARK, |cost| cost as u32);
        }
        rooms.costs[cell as usize] = left;
    }
    // "work, the route room and what lies beyond are left as the plain search leaves them"
    for entry in &mut rooms.work[..2 * map.len()] {
        *entry = 0;
    }
    match costs[goal as usize] {
        None => Answer::None { settled },
        Some(_) => {
            let ends = (start, goal);
            found(floor, map, ends, &costs, settled, &mut rooms.route)
        }
    }
}
