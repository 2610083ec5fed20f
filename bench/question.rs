//! What both planners are asked, what they answer, and the rooms that they are lent.

/// No cost.
pub const MARK: u32 = u32::MAX;

#[derive(Clone, Debug)]
pub struct Question {
    pub width: u32,
    pub height: u32,
    pub ways: u32,
    /// A byte a cell, row by row: 0 blocked, 1 to 9 the weight of an open cell.
    pub map: Vec<u8>,
    pub start: u32,
    pub goal: u32,
    /// How many cells may be settled; 0 is refused. A* does not look at it.
    pub limit: u32,
}

/// How the bench calls a search or an A*, ours or the ordinary one.
pub type Planner = fn(&Question, &mut Rooms) -> Answer;

/// The answer of include/fradnumber.h.
#[repr(C)]
#[derive(Clone, Copy, Debug, Default, PartialEq, Eq)]
pub struct Answer {
    pub kind: u64,
    pub refusal: u64,
    pub place: u64,
    pub settled: u64,
    pub number: u64,
    pub length: u64,
    pub p: u64,
    pub q: u64,
}

/// What an answer tells of the route that was found: its length, and the weights of both cells summed over its straight and
/// over its diagonal steps.
#[derive(Default)]
pub struct Walked {
    pub length: u32,
    pub p: u32,
    pub q: u32,
}

impl Answer {
    pub fn refused(refusal: u64, place: usize) -> Answer {
        Answer { kind: 0, refusal, place: place as u64, ..Answer::default() }
    }

    pub fn found(settled: u32, cost: u32, walked: Walked) -> Answer {
        let Walked { length, p, q } = walked;
        let (length, p, q) = (length.into(), p.into(), q.into());
        Answer { kind: 1, settled: settled.into(), number: cost.into(), length, p, q, ..Answer::default() }
    }

    pub fn none(settled: u32) -> Answer {
        Answer { kind: 2, settled: settled.into(), number: MARK.into(), ..Answer::default() }
    }

    pub fn stopped(settled: u32, floor: u32) -> Answer {
        Answer { kind: 3, settled: settled.into(), number: floor.into(), ..Answer::default() }
    }
}

#[derive(Clone, Debug, PartialEq, Eq)]
pub struct Rooms {
    pub costs: Vec<u32>,
    pub work: Vec<u32>,
    pub route: Vec<u8>,
}

impl Rooms {
    pub fn with_lengths(costs: usize, work: usize, route: usize) -> Rooms {
        Rooms { costs: vec![0; costs], work: vec![0; work], route: vec![0; route] }
    }

    /// As long as a floor of that many cells needs.
    pub fn for_cells(cells: usize) -> Rooms {
        Rooms::with_lengths(cells, 2 * cells, cells)
    }

    pub fn fill(&mut self, number: u32, byte: u8) {
        self.costs.fill(number);
        self.work.fill(number);
        self.route.fill(byte);
    }
}
