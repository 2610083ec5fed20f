//! The floor of 01: directions, the step rule with R-3's cost, and the refusals 1 to 8 with R-7's greatest side. All numbers are 64 bits wide here, so that nothing wraps.

pub const MARK: u32 = 4_294_967_295;

/// "Sides go to 1,024, in the library, the text and refusals 1, 22 and 23."
pub const GREATEST_SIDE: u64 = 1024;

/// dx, dy, unit: 01's table of eight rows.
const DIRECTIONS: [(i64, i64, u64); 8] = [
    (0, -1, 70),
    (1, -1, 99),
    (1, 0, 70),
    (1, 1, 99),
    (0, 1, 70),
    (-1, 1, 99),
    (-1, 0, 70),
    (-1, -1, 99),
];

/// "A map's width, height and ways travel together as one value." Any numbers may stand in it.
#[derive(Clone, Copy, Debug, PartialEq)]
pub struct Floor {
    pub width: u64,
    pub height: u64,
    pub ways: u64,
}

/// A refusal's or a fault's number, and its place.
#[derive(Clone, Copy, Debug, PartialEq)]
pub struct Refusal {
    pub number: u32,
    pub place: u64,
}

pub fn refusal(number: u32, place: u64) -> Option<Refusal> {
    Some(Refusal { number, place })
}

impl Floor {
    pub fn cells(&self) -> u64 {
        self.width * self.height
    }

    /// The cell that lies `dx` columns east and `dy` rows south, if it is on the map. "A cell's number is y × width + x."
    fn beside(&self, cell: u64, dx: i64, dy: i64) -> Option<u64> {
        let x = (cell % self.width) as i64 + dx;
        let y = (cell / self.width) as i64 + dy;
        if x < 0 || y < 0 || x >= self.width as i64 || y >= self.height as i64 {
            return None;
        }
        Some(y as u64 * self.width + x as u64)
    }

    /// "With four ways only even directions exist."
    pub fn has_direction(&self, direction: u64) -> bool {
        direction < 8 && (self.ways == 8 || direction % 2 == 0)
    }

    /// The cell that a step in this direction enters, if it is on the map.
    pub fn entered(&self, cell: u64, direction: u64) -> Option<u64> {
        let (dx, dy, _) = DIRECTIONS[direction as usize];
        self.beside(cell, dx, dy)
    }

    /// The cell that a step in this direction into `cell` leaves, if it is on the map.
    pub fn left(&self, cell: u64, direction: u64) -> Option<u64> {
        let (dx, dy, _) = DIRECTIONS[direction as usize];
        self.beside(cell, -dx, -dy)
    }

    /// "A diagonal step also needs both cells beside it (same x as one end and same y as the other) open."
    pub fn cuts_corner(&self, map: &[u8], cell: u64, direction: u64) -> bool {
        if !is_diagonal(direction) {
            return false;
        }
        let (dx, dy, _) = DIRECTIONS[direction as usize];
        let same_row = self.beside(cell, dx, 0);
        let same_column = self.beside(cell, 0, dy);
        !(is_open(map, same_row) && is_open(map, same_column))
    }

    /// The cell entered and the cost of an allowed step, or nothing if the step is not allowed.
    pub fn allowed_step(&self, map: &[u8], cell: u64, direction: u64) -> Option<(u64, u64)> {
        let entered = self.entered(cell, direction);
        if !self.has_direction(direction) || !is_open(map, Some(cell)) || !is_open(map, entered) {
            return None;
        }
        if self.cuts_corner(map, cell, direction) {
            return None;
        }
        let entered = entered?;
        Some((entered, step_cost(map, cell, entered, direction)))
    }

    /// Refusals 1 to 3: all but the reader give them.
    pub fn refused_map(&self, map: &[u8]) -> Option<Refusal> {
        for side in [self.width, self.height] {
            if side == 0 || side > GREATEST_SIDE {
                return refusal(1, 0);
            }
        }
        if map.len() as u64 != self.cells() {
            return refusal(2, 0);
        }
        for (cell, byte) in map.iter().enumerate() {
            if *byte > 9 {
                return refusal(3, cell as u64);
            }
        }
        None
    }

    /// Refusals 1 to 4.
    pub fn refused_floor(&self, map: &[u8]) -> Option<Refusal> {
        if let Some(refused) = self.refused_map(map) {
            return Some(refused);
        }
        if self.ways != 4 && self.ways != 8 {
            return refusal(4, 0);
        }
        None
    }

    /// Refusals 1 to 8: "the lowest number that applies is given".
    pub fn refused_question(&self, map: &[u8], start: u64, goal: u64) -> Option<Refusal> {
        if let Some(refused) = self.refused_floor(map) {
            return Some(refused);
        }
        if start >= self.cells() {
            return refusal(5, 0);
        }
        if goal >= self.cells() {
            return refusal(6, 0);
        }
        if !is_open(map, Some(start)) {
            return refusal(7, 0);
        }
        if !is_open(map, Some(goal)) {
            return refusal(8, 0);
        }
        None
    }
}

/// "0 blocked, 1 to 9 the weight of an open cell"; off the map nothing is open.
pub fn is_open(map: &[u8], cell: Option<u64>) -> bool {
    match cell {
        None => false,
        Some(cell) => map[cell as usize] != 0,
    }
}

pub fn is_diagonal(direction: u64) -> bool {
    let (dx, dy, _) = DIRECTIONS[direction as usize];
    dx != 0 && dy != 0
}

/// "The sum of the weights of both its cells", of a step.
pub fn both_weights(map: &[u8], left: u64, entered: u64) -> u64 {
    map[left as usize] as u64 + map[entered as usize] as u64
}

/// "A step now costs its unit times the sum of the weights of both its cells."
pub fn step_cost(map: &[u8], left: u64, entered: u64, direction: u64) -> u64 {
    let (_, _, unit) = DIRECTIONS[direction as usize];
    unit * both_weights(map, left, entered)
}
