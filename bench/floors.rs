//! The floors that are timed. They come from a fixed seed: every run, on every machine, has the same ones.

use crate::question::Question;

/// Steele, Lea and Flood's splitmix64: small, and good enough to scatter cells.
pub struct Random(pub u64);

impl Random {
    pub fn below(&mut self, n: u32) -> u32 {
        self.0 = self.0.wrapping_add(0x9e37_79b9_7f4a_7c15);
        let mut z = self.0;
        z = (z ^ (z >> 30)).wrapping_mul(0xbf58_476d_1ce4_e5b9);
        z = (z ^ (z >> 27)).wrapping_mul(0x94d0_49bb_1331_11eb);
        ((z ^ (z >> 31)) % u64::from(n)) as u32
    }
}

#[derive(Clone, Copy, PartialEq, Eq)]
pub enum Kind {
    Empty,
    ThirdBlocked,
    Maze,
    MazeToCorner,
    Weights,
    Rooms,
}

pub const KINDS: [Kind; 5] = [Kind::Empty, Kind::ThirdBlocked, Kind::Maze, Kind::MazeToCorner, Kind::Weights];

/// The floors of A*'s table.
pub const ASTAR_KINDS: [Kind; 5] = [Kind::Empty, Kind::ThirdBlocked, Kind::Maze, Kind::Weights, Kind::Rooms];

/// Which goal A* is asked for.
#[derive(Clone, Copy, PartialEq, Eq)]
pub enum Goal {
    Near,
    Far,
}

pub const GOALS: [Goal; 2] = [Goal::Near, Goal::Far];

/// How far the near goal is from the start, in columns and rows.
const NEAR: (usize, usize) = (30, 15);

impl Goal {
    pub fn name(self) -> &'static str {
        match self {
            Goal::Near => "near",
            Goal::Far => "far",
        }
    }
}

impl Kind {
    pub fn name(self) -> &'static str {
        match self {
            Kind::Empty => "empty",
            Kind::ThirdBlocked => "third blocked",
            Kind::Maze => "maze",
            Kind::MazeToCorner => "maze, to the corner",
            Kind::Weights => "weights 1 to 9",
            Kind::Rooms => "rooms",
        }
    }

    fn map(self, side: usize) -> Vec<u8> {
        let mut random = Random(side as u64);
        match self {
            Kind::Empty => vec![1; side * side],
            Kind::ThirdBlocked => (0..side * side).map(|_| u8::from(random.below(3) != 0)).collect(),
            Kind::Maze | Kind::MazeToCorner => maze(side, &mut random),
            Kind::Weights => (0..side * side).map(|_| 1 + random.below(9) as u8).collect(),
            Kind::Rooms => rooms(side, &mut random),
        }
    }

    /// With eight ways and the limit at the cell count, from the north-west corner (or the cell nearest to it in the floor's
    /// largest connected part) to the cell that is farthest from there by straight steps. That settles nearly every cell. In
    /// the maze the way to the opposite corner is asked too: the goal is met early, and what a whole floor costs shows.
    pub fn question(self, side: usize) -> Question {
        let map = self.map(side);
        let part = largest_part(side, &map);
        let from_corner = |cell: &usize| (cell % side + cell / side, *cell);
        let start = part.iter().copied().min_by_key(from_corner).expect("an open cell");
        let goal = match self {
            Kind::MazeToCorner => part.into_iter().max_by_key(from_corner),
            _ => flood(side, &map, start, &mut vec![false; map.len()]).pop(),
        };
        Question {
            width: side as u32,
            height: side as u32,
            ways: 8,
            start: start as u32,
            goal: goal.expect("an open cell") as u32,
            limit: map.len() as u32,
            map,
        }
    }

    /// The question to A*. The far goal is that of the search's question. The near one is 30 columns east and 15 rows south of the
    /// start, or the cell of the same part that is nearest to there by straight steps over an empty floor.
    pub fn question_to(self, side: usize, goal: Goal) -> Question {
        let question = self.question(side);
        if goal == Goal::Far {
            return question;
        }
        let start = question.start as usize;
        let (x, y) = (start % side + NEAR.0, start / side + NEAR.1);
        let off = |cell: &usize| ((cell % side).abs_diff(x) + (cell / side).abs_diff(y), *cell);
        let part = largest_part(side, &question.map);
        let near = part.into_iter().min_by_key(off).expect("an open cell");
        Question { goal: near as u32, ..question }
    }
}

/// Rooms of 31 x 31 cells with walls one cell thick between them, and in the wall between any two rooms a door one cell wide.
fn rooms(side: usize, random: &mut Random) -> Vec<u8> {
    const ROOM: usize = 31;
    const PITCH: usize = ROOM + 1;
    let is_inside = |place: usize| place % PITCH != ROOM;
    let mut map: Vec<u8> = (0..side * side).map(|cell| u8::from(is_inside(cell % side) && is_inside(cell / side))).collect();
    for wall in (ROOM..side - 1).step_by(PITCH) {
        for room in (0..side).step_by(PITCH) {
            let mut door = || room + random.below(ROOM as u32) as usize;
            map[door() * side + wall] = 1;
            map[wall * side + door()] = 1;
        }
    }
    map
}

/// A maze with one way between any two cells, carved depth first: rooms are at even columns and rows, walls between them.
fn maze(side: usize, random: &mut Random) -> Vec<u8> {
    let mut map = vec![0; side * side];
    let mut trail = vec![(0, 0)];
    map[0] = 1;
    while let Some(&(x, y)) = trail.last() {
        let uncarved: Vec<_> = beside(side, x, y, 2).into_iter().filter(|&(u, v)| map[v * side + u] == 0).collect();
        if uncarved.is_empty() {
            trail.pop();
            continue;
        }
        let (u, v) = uncarved[random.below(uncarved.len() as u32) as usize];
        map[(y + v) / 2 * side + (x + u) / 2] = 1;
        map[v * side + u] = 1;
        trail.push((u, v));
    }
    map
}

/// The places on the floor that are `far` cells from a place, straight to the four sides.
fn beside(side: usize, x: usize, y: usize, far: usize) -> Vec<(usize, usize)> {
    let mut places = Vec::with_capacity(4);
    if y >= far {
        places.push((x, y - far));
    }
    if x + far < side {
        places.push((x + far, y));
    }
    if y + far < side {
        places.push((x, y + far));
    }
    if x >= far {
        places.push((x - far, y));
    }
    places
}

/// The open cells of the largest connected part. Straight steps suffice: where corners are not cut, a diagonal step leads to
/// no cell that two straight ones would not.
fn largest_part(side: usize, map: &[u8]) -> Vec<usize> {
    let mut met = vec![false; map.len()];
    let mut largest = Vec::new();
    for cell in 0..map.len() {
        if map[cell] != 0 && !met[cell] {
            let part = flood(side, map, cell, &mut met);
            if part.len() > largest.len() {
                largest = part;
            }
        }
    }
    largest
}

/// The cells that straight steps lead to, the nearest first.
fn flood(side: usize, map: &[u8], cell: usize, met: &mut [bool]) -> Vec<usize> {
    met[cell] = true;
    let mut part = vec![cell];
    let mut i = 0;
    while i < part.len() {
        for (u, v) in beside(side, part[i] % side, part[i] / side, 1) {
            let to = v * side + u;
            if map[to] != 0 && !met[to] {
                met[to] = true;
                part.push(to);
            }
        }
        i += 1;
    }
    part
}
