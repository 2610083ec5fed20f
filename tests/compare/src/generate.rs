//! Random calls and questions: mostly good ones, and wild ones of every kind that 01, R-2 and R-6 refuse.

use crate::calls::{numbers, Call, What};
use crate::claims::{check_table, TableVerdict};
use crate::floor::{Floor, MARK};
use crate::floors::{any_floor, Drawn};
use crate::program::{RECORD, ZEROS_FROM};
use crate::random::Random;
use crate::search::{first_route, least_costs, list_l};

/// A floor with its ways, a start and a goal, mostly open cells, and what is known of them.
pub struct Scene {
    pub drawn: Drawn,
    pub ways: u32,
    pub start: u32,
    pub goal: u32,
    /// the right table of the start, and a least-cost route to the goal, if both cells are open
    pub table: Vec<u32>,
    pub route: Option<Vec<u8>>,
    /// the length of L, and the goal's place in it
    pub n: u64,
    pub i: Option<u64>,
}

impl Scene {
    pub fn floor(&self) -> Floor {
        Floor {
            width: self.drawn.width as u64,
            height: self.drawn.height as u64,
            ways: self.ways as u64,
        }
    }

    pub fn of(random: &mut Random, drawn: &Drawn) -> Scene {
        let ways = random.one_of(&[8, 8, 4]);
        let start = some_cell(random, &drawn.map);
        let goal = some_cell(random, &drawn.map);
        Scene::between(drawn, ways, start, goal)
    }

    /// Between opposite corners of the floor that are both open.
    pub fn of_corners(random: &mut Random, drawn: &Drawn) -> Scene {
        let last = drawn.map.len() as u32 - 1;
        let east = drawn.width - 1;
        let is_open = |cell: u32| drawn.map[cell as usize] != 0;
        let (a, b) = if is_open(0) && is_open(last) {
            (0, last)
        } else {
            (east, last - east)
        };
        let (start, goal) = random.one_of(&[(a, b), (b, a)]);
        Scene::between(drawn, 8, start, goal)
    }

    fn between(drawn: &Drawn, ways: u32, start: u32, goal: u32) -> Scene {
        let mut scene = Scene {
            drawn: drawn.clone(),
            ways,
            start,
            goal,
            table: vec![MARK; drawn.map.len()],
            route: None,
            n: 0,
            i: None,
        };
        if drawn.map[scene.start as usize] != 0 {
            scene.solve();
        }
        scene
    }

    fn solve(&mut self) {
        let (floor, map) = (self.floor(), &self.drawn.map);
        let costs = least_costs(floor, map, self.start as u64);
        let list = list_l(&costs);
        for (cost, cell) in &list {
            self.table[*cell as usize] = *cost as u32;
        }
        self.n = list.len() as u64;
        self.i = list
            .iter()
            .position(|(_, cell)| *cell == self.goal as u64)
            .map(|place| place as u64);
        if self.i.is_some() {
            let (start, goal) = (self.start as u64, self.goal as u64);
            self.route = Some(first_route(floor, map, &costs, start, goal));
        }
    }

    fn call(&self, what: What) -> Call {
        let mut call = Call::of(what);
        call.width = self.drawn.width;
        call.height = self.drawn.height;
        call.ways = self.ways;
        call.start = self.start;
        call.goal = self.goal;
        call.map = self.drawn.map.clone();
        call
    }

    /// Limits on both sides of every edge of 01's table of answers, and 0, which R-2 refuses.
    pub fn limits(&self) -> Vec<u32> {
        let i = self.i.unwrap_or(self.n) as u32;
        let n = self.n as u32;
        vec![0, 1, i, i + 1, n.saturating_sub(1), n, n + 1, MARK]
    }
}

/// A cell, nearly always an open one if there is one.
fn some_cell(random: &mut Random, map: &[u8]) -> u32 {
    let mut cell = random.below(map.len() as u64);
    for _ in 0..12 {
        if map[cell as usize] != 0 {
            break;
        }
        cell = random.below(map.len() as u64);
    }
    cell as u32
}

/// A search with rooms that suffice.
pub fn good_search(random: &mut Random, scene: &Scene, limit: u32) -> Call {
    let mut call = good_question(random, scene, What::Search);
    call.limit = limit;
    call
}

/// A question to A* with rooms that suffice, about the scene's goal or another one.
pub fn good_astar(random: &mut Random, scene: &Scene) -> Call {
    let mut call = good_question(random, scene, What::Astar);
    if !random.once_in(3) {
        call.goal = some_cell(random, &call.map);
    }
    call
}

fn good_question(random: &mut Random, scene: &Scene, what: What) -> Call {
    let mut call = scene.call(what);
    let cells = call.map.len();
    call.costs_room = cells + longer(random);
    call.work_room = 2 * cells + longer(random);
    call.byte_room = cells + longer(random);
    if random.once_in(300) {
        // far longer than most floors need
        call.costs_room = call.costs_room.max(66000);
        call.work_room = call.work_room.max(132000);
        call.byte_room = call.byte_room.max(66000);
    }
    call
}

fn longer(random: &mut Random) -> usize {
    random.one_of(&[0, 0, 1, 3])
}

/// A room of about the length that is needed.
fn about(random: &mut Random, needed: usize) -> usize {
    match random.below(6) {
        0 => 0,
        1 => needed.saturating_sub(1),
        2 => needed / 2,
        3 => needed + 1,
        _ => needed,
    }
}

/// A search, or a question to A*, whose rooms may be too short, and of which other things may be wrong. A* must not look at the limit.
pub fn wild_question(random: &mut Random, scene: &Scene, what: What) -> Call {
    let mut call = good_question(random, scene, what);
    call.limit = random.one_of(&scene.limits());
    let cells = call.map.len();
    call.costs_room = about(random, cells);
    call.work_room = about(random, 2 * cells);
    call.byte_room = about(random, cells);
    spoil(random, &mut call);
    call
}

/// Any call but A* on a map with a side just too large.
pub fn any_too_large(random: &mut Random) -> Call {
    let what = random.one_of(&[
        What::Search,
        What::RouteClaim,
        What::TableClaim,
        What::WriteMap,
    ]);
    too_large(random, what)
}

/// A map with a side just too large, or just not, and of the right length for its sides.
pub fn too_large(random: &mut Random, what: What) -> Call {
    let mut call = Call::of(what);
    let (long, other) = (random.one_of(&[1024, 1025]), random.between(1, 64) as u32);
    let sides = random.one_of(&[(long, other), (other, long)]);
    call.width = sides.0;
    call.height = sides.1;
    let cells = (call.width * call.height) as usize;
    call.map = vec![1; cells];
    match call.what {
        What::Search | What::Astar => {
            call.limit = random.one_of(&[0, 1, 300]);
            call.costs_room = cells;
            call.work_room = 2 * cells;
            call.byte_room = cells;
        }
        What::TableClaim => call.table = vec![0; cells],
        What::WriteMap => call.byte_room = 70000,
        _ => (),
    }
    call
}

/// Puts some things into a call that 01 refuses, or nearly refuses: none, one or several.
pub fn spoil(random: &mut Random, call: &mut Call) {
    for _ in 0..random.below(4) {
        match random.below(6) {
            0 => spoil_sides(random, call),
            1 => spoil_length(random, call),
            2 => spoil_byte(random, call),
            3 => call.ways = some_ways(random),
            4 => call.start = wild_cell(random, call.map.len()),
            _ => call.goal = wild_cell(random, call.map.len()),
        }
    }
}

fn spoil_sides(random: &mut Random, call: &mut Call) {
    let side = random.one_of(&[0, 1, 2, 256, 257, 1023, 1024, 1025, 65536, MARK]);
    match random.below(3) {
        0 => call.width = side,
        1 => call.height = side,
        _ => std::mem::swap(&mut call.width, &mut call.height),
    }
}

fn spoil_length(random: &mut Random, call: &mut Call) {
    match random.below(4) {
        0 => call.map.clear(),
        1 => call.map.push(1),
        2 => call.map.truncate(call.map.len() / 2),
        _ => drop(call.map.pop()),
    }
}

fn spoil_byte(random: &mut Random, call: &mut Call) {
    if !call.map.is_empty() {
        let cell = random.below(call.map.len() as u64) as usize;
        call.map[cell] = random.one_of(&[0, 9, 10, 11, 46, 64, 128, 255]);
    }
}

pub fn some_ways(random: &mut Random) -> u32 {
    random.one_of(&[0, 1, 4, 5, 6, 8, 9, 12, 255, 256, 260, 264, MARK])
}

/// Any cell of the map, blocked or not, or a number just or far beyond it.
pub fn wild_cell(random: &mut Random, cells: usize) -> u32 {
    let cells = cells as u64;
    match random.below(6) {
        0 => cells as u32,
        1 => cells as u32 + 1,
        2 => random.one_of(&[MARK, 65535, 65536, (1 << 20) - 1, 1 << 20, 1 << 31]),
        _ => random.below(cells + 1) as u32,
    }
}

/// A claim about a least-cost route, or about some other one, true or damaged.
pub fn route_claim(random: &mut Random, scene: &Scene) -> Call {
    let mut call = scene.call(What::RouteClaim);
    match &scene.route {
        Some(route) if !random.once_in(6) => {
            call.route = route.clone();
            call.limit = scene.table[scene.goal as usize];
        }
        _ => call.route = random_route(random, scene),
    }
    for _ in 0..random.below(3) {
        damage_route(random, &mut call);
    }
    if random.once_in(3) {
        claim_what_it_is(random, &mut call);
    }
    if random.once_in(12) {
        spoil(random, &mut call);
    }
    call
}

/// Directions at random, each an allowed step if one is found soon; it leads anywhere.
fn random_route(random: &mut Random, scene: &Scene) -> Vec<u8> {
    let (floor, map) = (scene.floor(), &scene.drawn.map);
    let mut route = Vec::new();
    let mut cell = scene.start as u64;
    for _ in 0..random.below(map.len() as u64 + 2) {
        let mut direction = random.below(8);
        for _ in 0..6 {
            if floor.allowed_step(map, cell, direction).is_some() {
                break;
            }
            direction = random.below(8);
        }
        route.push(direction as u8);
        match floor.allowed_step(map, cell, direction) {
            Some((entered, _)) => cell = entered,
            None => break,
        }
    }
    route
}

fn damage_route(random: &mut Random, call: &mut Call) {
    let length = call.route.len() as u64;
    let place = random.below(length + 1) as usize;
    let direction = random.one_of(&[0, 1, 2, 3, 4, 5, 6, 7, 8, 9, 200, 255]);
    match random.below(8) {
        0 => call.route.truncate(place),
        1 => call.route.push(direction),
        2 => call.route.insert(place, direction),
        3 => call.limit = call.limit.wrapping_add(1),
        4 => call.limit = call.limit.wrapping_sub(1),
        5 => call.goal = some_cell(random, &call.map),
        6 => {
            // as long as may be, or one step longer
            let most = call.map.len() - 1 + random.below(2) as usize;
            let back_and_forth = random.one_of(&[[2, 6], [4, 0], [3, 7], [1, 5]]);
            while call.route.len() < most {
                call.route.push(back_and_forth[call.route.len() % 2]);
            }
        }
        _ => {
            if place < call.route.len() {
                call.route[place] = direction;
            }
        }
    }
}

/// Where the route leads without a fault, claims that goal, and mostly that cost.
fn claim_what_it_is(random: &mut Random, call: &mut Call) {
    let floor = call.floor();
    if floor.refused_floor(&call.map).is_some() || call.start as u64 >= floor.cells() {
        return;
    }
    let (mut cell, mut sum) = (call.start as u64, 0);
    for direction in &call.route {
        if !floor.has_direction(*direction as u64) {
            return;
        }
        match floor.allowed_step(&call.map, cell, *direction as u64) {
            None => return,
            Some((entered, step)) => {
                cell = entered;
                sum += step;
            }
        }
    }
    call.goal = cell as u32;
    call.limit = sum as u32;
    if random.once_in(4) {
        call.limit = call.limit.wrapping_add(1);
    }
}

/// A claimed table: the right one, or one that is damaged.
pub fn table_claim(random: &mut Random, scene: &Scene) -> Call {
    let mut call = scene.call(What::TableClaim);
    call.goal = 0;
    call.table = scene.table.clone();
    for _ in 0..random.one_of(&[0, 1, 1, 1, 2, 3]) {
        damage_table(random, &mut call);
    }
    if random.once_in(12) {
        spoil(random, &mut call);
    }
    call
}

fn damage_table(random: &mut Random, call: &mut Call) {
    if call.table.is_empty() {
        return;
    }
    let cell = random.below(call.table.len() as u64) as usize;
    let value = call.table[cell];
    match random.below(9) {
        0 => call.table[cell] = value.wrapping_add(1),
        1 => call.table[cell] = value.wrapping_sub(1),
        2 => call.table[cell] = MARK,
        3 => call.table[cell] = random.below(2000) as u32,
        // sums with a step from here on go past 32 bits, or meet MARK exactly
        4 => {
            call.table[cell] =
                MARK - random.one_of(&[1, 139, 140, 141, 197, 198, 199, 280, 1260, 1782, 1783])
        }
        5 => lift_all(random, call),
        6 if random.once_in(3) => drop(call.table.pop()),
        7 if random.once_in(3) => call.table.truncate(cell),
        _ => call.table.push(random.below(1 << 32) as u32),
    }
}

/// Makes some of the cells that are not reached numbers near MARK.
fn lift_all(random: &mut Random, call: &mut Call) {
    let base = MARK - random.one_of(&[140, 198, 280, 338, 420, 1260, 2000]);
    for (value, weight) in call.table.iter_mut().zip(&call.map) {
        if *value == MARK && *weight != 0 && random.once_in(2) {
            *value = base + random.below((MARK - base) as u64 + 1) as u32;
        }
    }
}

/// Mends the lowest breaking cell again and again, so that a damaged table breaks late.
pub fn mended(mut call: Call, times: usize) -> Call {
    for _ in 0..times {
        let verdict = check_table(call.floor(), &call.map, call.start as u64, &call.table);
        match verdict {
            TableVerdict::Breaks(cell) => {
                let due = crate::claims::due(
                    call.floor(),
                    &call.map,
                    call.start as u64,
                    &call.table,
                    cell,
                );
                call.table[cell as usize] = due.min(MARK as u64) as u32;
            }
            _ => break,
        }
    }
    call
}

/// The floor of a round that is not a large one: mostly small.
pub fn small_floor(random: &mut Random) -> Drawn {
    let side = match random.below(16) {
        0 => 40,
        1 | 2 => 16,
        3..=5 => 3,
        _ => 8,
    };
    any_floor(random, side)
}

/// A question record, now and then with something wrong in it, or any bytes.
pub fn question(random: &mut Random, scene: &Scene) -> Vec<u8> {
    let cells = scene.drawn.map.len();
    let mut limit = random.one_of(&scene.limits());
    if random.once_in(4) {
        limit = random.below(cells as u64 + 2) as u32;
    }
    let mut record = numbers(&[scene.start, scene.goal, limit]);
    record.push(scene.ways as u8);
    record.resize(RECORD, 0);
    if random.once_in(4) {
        for _ in 0..random.one_of(&[1, 1, 1, 2]) {
            spoil_question(random, &mut record, cells);
        }
    }
    record
}

fn spoil_question(random: &mut Random, record: &mut [u8], cells: usize) {
    let number = |value: u32| value.to_le_bytes();
    match random.below(8) {
        0 => record[..4].copy_from_slice(&number(wild_cell(random, cells))),
        1 => record[4..8].copy_from_slice(&number(wild_cell(random, cells))),
        2 => record[8..12].copy_from_slice(&number(random.below(1 << 32) as u32)),
        3 => record[12] = (some_ways(random) % 256) as u8,
        4 | 5 => {
            // one of the bytes that 13 reads
            let zeros = (RECORD - ZEROS_FROM) as u64;
            record[ZEROS_FROM + random.below(zeros) as usize] = random.between(1, 255) as u8;
        }
        // two questions of a file as it was before R-6
        6 => record.copy_within(..RECORD / 2, RECORD / 2),
        _ => record.fill_with(|| random.below(256) as u8),
    }
}

/// A map to be written, with a text room of about the length that is needed.
pub fn writing(random: &mut Random, drawn: &Drawn) -> Call {
    let mut call = Call::of(What::WriteMap);
    call.width = drawn.width;
    call.height = drawn.height;
    call.map = drawn.map.clone();
    if random.once_in(3) {
        spoil(random, &mut call);
    }
    let text = crate::maptext::text_of(drawn.width as u64, drawn.height as u64, &drawn.map);
    call.byte_room = about(random, text.len());
    call
}

/// A text to be read, with a cell room of this length.
pub fn reading(text: Vec<u8>, room: usize) -> Call {
    let mut call = Call::of(What::ReadMap);
    call.byte_room = room;
    call.text = text;
    call
}
