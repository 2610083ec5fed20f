//! The proved search and the proved A*, `fradnumber_search` and `fradnumber_astar` of include/fradnumber.h. Nothing checks these
//! declarations against the header.

use crate::question::{Answer, Question, Rooms};

extern "C" {
    fn fradnumber_search(
        width: u32,
        height: u32,
        ways: u32,
        map: *const u8,
        map_length: usize,
        start: u32,
        goal: u32,
        limit: u32,
        costs: *mut u32,
        costs_length: usize,
        work: *mut u32,
        work_length: usize,
        route: *mut u8,
        route_length: usize,
    ) -> Answer;

    fn fradnumber_astar(
        width: u32,
        height: u32,
        ways: u32,
        map: *const u8,
        map_length: usize,
        start: u32,
        goal: u32,
        costs: *mut u32,
        costs_length: usize,
        work: *mut u32,
        work_length: usize,
        route: *mut u8,
        route_length: usize,
    ) -> Answer;
}

/// The search has no conditions: any numbers and any lengths may be passed.
pub fn search(question: &Question, rooms: &mut Rooms) -> Answer {
    // Safe: each pointer and its length are those of one slice, and the slices do not overlap.
    unsafe {
        fradnumber_search(
            question.width,
            question.height,
            question.ways,
            question.map.as_ptr(),
            question.map.len(),
            question.start,
            question.goal,
            question.limit,
            rooms.costs.as_mut_ptr(),
            rooms.costs.len(),
            rooms.work.as_mut_ptr(),
            rooms.work.len(),
            rooms.route.as_mut_ptr(),
            rooms.route.len(),
        )
    }
}

/// A* has no conditions either, and takes no limit.
pub fn astar(question: &Question, rooms: &mut Rooms) -> Answer {
    // Safe: as above.
    unsafe {
        fradnumber_astar(
            question.width,
            question.height,
            question.ways,
            question.map.as_ptr(),
            question.map.len(),
            question.start,
            question.goal,
            rooms.costs.as_mut_ptr(),
            rooms.costs.len(),
            rooms.work.as_mut_ptr(),
            rooms.work.len(),
            rooms.route.as_mut_ptr(),
            rooms.route.len(),
        )
    }
}
