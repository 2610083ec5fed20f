//! Calls of the program `calls` (crates/calls/src/main.rt has the form), and the replies that 01, R-1 to ask for.

use crate::astar::astar;
use crate::claims::{check_route, check_table, RouteVerdict, TableVerdict};
use crate::floor::{Floor, Refusal, MARK};
use crate::log::{read_entry, write_entry, Entry};
use crate::maptext::{read_map, write_map};
use crate::program::RECORD;
use crate::search::{search, Answer, Rooms};

/// What a room that a call fills held before, so that what was left untouched shows.
const OLD_COST: u32 = 123_456_789;
const OLD_WORK: u32 = 987_654_321;
const OLD_BYTE: u8 = 200;

/// The reply is asked for whole.
const WHOLE: u32 = 0;

#[derive(Clone, Copy, Debug, PartialEq)]
pub enum What {
    Search,
    RouteClaim,
    TableClaim,
    ReadMap,
    WriteMap,
    ReadEntry,
    WriteEntry,
    Astar,
}

/// One call. A part that `what` has no use for is empty or 0.
#[derive(Clone, Debug)]
pub struct Call {
    pub what: What,
    pub width: u32,
    pub height: u32,
    pub ways: u32,
    pub start: u32,
    pub goal: u32,
    /// the limit of a search, the cost of a route claim; A* does not look at it
    pub limit: u32,
    /// also question and answer for the log's writer
    pub map: Vec<u8>,
    pub route: Vec<u8>,
    pub table: Vec<u32>,
    /// also the rest of a log
    pub text: Vec<u8>,
    pub costs_room: usize,
    pub work_room: usize,
    /// the route room of a search, of A* and of the log's reader, the cell room of the map's reader, the text room of the writers
    pub byte_room: usize,
}

impl Call {
    pub fn of(what: What) -> Call {
        Call {
            what,
            width: 0,
            height: 0,
            ways: 8,
            start: 0,
            goal: 0,
            limit: 0,
            map: Vec::new(),
            route: Vec::new(),
            table: Vec::new(),
            text: Vec::new(),
            costs_room: 0,
            work_room: 0,
            byte_room: 0,
        }
    }

    pub fn floor(&self) -> Floor {
        Floor {
            width: self.width as u64,
            height: self.height as u64,
            ways: self.ways as u64,
        }
    }

    /// The rooms before the call.
    fn before(&self) -> FiveRooms {
        let mut rooms = FiveRooms {
            map: self.map.clone(),
            costs: Vec::new(),
            work: Vec::new(),
            route: Vec::new(),
            text: Vec::new(),
        };
        match self.what {
            What::Search | What::Astar => {
                rooms.costs = vec![OLD_COST; self.costs_room];
                rooms.work = vec![OLD_WORK; self.work_room];
                rooms.route = vec![OLD_BYTE; self.byte_room];
            }
            What::RouteClaim => rooms.route = self.route.clone(),
            What::TableClaim => rooms.costs = self.table.clone(),
            What::ReadMap => {
                rooms.map = vec![OLD_BYTE; self.byte_room];
                rooms.text = self.text.clone();
            }
            What::WriteMap => rooms.text = vec![OLD_BYTE; self.byte_room],
            What::ReadEntry => {
                rooms.map = vec![OLD_BYTE; 2 * RECORD];
                rooms.route = vec![OLD_BYTE; self.byte_room];
                rooms.text = self.text.clone();
            }
            What::WriteEntry => {
                rooms.route = self.route.clone();
                rooms.text = vec![OLD_BYTE; self.byte_room];
            }
        }
        rooms
    }

    /// The bytes that ask for this call.
    pub fn request(&self) -> Vec<u8> {
        let what = match self.what {
            What::Search => 1,
            What::RouteClaim => 2,
            What::TableClaim => 3,
            What::ReadMap => 4,
            What::WriteMap => 5,
            What::ReadEntry => 12,
            What::WriteEntry => 13,
            What::Astar => 14,
        };
        let rooms = self.before();
        let given = FiveRooms {
            map: given(&rooms.map),
            costs: given(&rooms.costs),
            work: given(&rooms.work),
            route: given(&rooms.route),
            text: given(&rooms.text),
        };
        let mut request = numbers(&[
            what,
            WHOLE,
            self.width,
            self.height,
            self.ways,
            self.start,
            self.goal,
            self.limit,
        ]);
        for (length, count) in rooms.lengths().iter().zip(given.lengths()) {
            request.extend(numbers(&[*length as u32, count as u32]));
        }
        request.extend(given.bytes());
        request
    }

    pub fn reply_length(&self) -> usize {
        let [map, costs, work, route, text] = self.before().lengths();
        FRONT + map + 4 * costs + 4 * work + route + text
    }

    /// The numbers at the front of a whole reply, and the rooms as it has them.
    pub fn parts(&self, reply: &[u8]) -> (Vec<u32>, FiveRooms) {
        let [map, costs, work, route, _] = self.before().lengths();
        let (front, rest) = reply.split_at(FRONT);
        let (map, rest) = rest.split_at(map);
        let (costs, rest) = rest.split_at(4 * costs);
        let (work, rest) = rest.split_at(4 * work);
        let (route, text) = rest.split_at(route);
        let rooms = FiveRooms {
            map: map.to_vec(),
            costs: numbers_of(costs),
            work: numbers_of(work),
            route: route.to_vec(),
            text: text.to_vec(),
        };
        (numbers_of(front), rooms)
    }

    /// The reply that is due.
    pub fn expected(&self) -> Vec<u8> {
        let mut rooms = self.before();
        let front = match self.what {
            What::Search | What::Astar => self.expected_search(&mut rooms),
            What::RouteClaim => self.expected_route_verdict(),
            What::TableClaim => self.expected_table_verdict(),
            What::ReadMap => self.expected_reading(&mut rooms),
            What::WriteMap => self.expected_writing(&mut rooms),
            What::ReadEntry => self.expected_read_entry(&mut rooms),
            What::WriteEntry => self.expected_written_entry(&mut rooms),
        };
        let front: Vec<u32> = front.iter().map(|value| *value as u32).collect();
        let mut reply = numbers(&front);
        // what an answer does not have is 0
        reply.resize(FRONT, 0);
        reply.extend(rooms.bytes());
        reply
    }

    /// The answer of the search, or of A*.
    fn expected_search(&self, lent: &mut FiveRooms) -> Vec<u64> {
        let mut rooms = Rooms {
            costs: lent.costs.clone(),
            work: lent.work.clone(),
            route: lent.route.clone(),
        };
        let (floor, start, goal) = (self.floor(), self.start as u64, self.goal as u64);
        let answer = match self.what {
            What::Astar => astar(floor, &self.map, start, goal, &mut rooms),
            _ => search(floor, &self.map, start, goal, self.limit as u64, &mut rooms),
        };
        lent.costs = rooms.costs;
        lent.work = rooms.work;
        lent.route = rooms.route;
        match answer {
            Answer::Refused(refused) => refused_with(refused),
            Answer::Found {
                settled,
                cost,
                length,
                p,
                q,
            } => vec![1, 0, 0, settled, cost, length, p, q],
            Answer::None { settled } => vec![2, 0, 0, settled, MARK as u64],
            Answer::Stopped { settled, floor } => vec![3, 0, 0, settled, floor],
        }
    }

    fn expected_route_verdict(&self) -> Vec<u64> {
        let (start, goal, cost) = (self.start as u64, self.goal as u64, self.limit as u64);
        match check_route(self.floor(), &self.map, start, goal, cost, &self.route) {
            RouteVerdict::Fails(fault) if fault.number > 40 => {
                vec![2, fault.number as u64, fault.place]
            }
            RouteVerdict::Fails(refused) => refused_with(refused),
            RouteVerdict::Holds(cost) => vec![1, 0, 0, cost],
        }
    }

    fn expected_table_verdict(&self) -> Vec<u64> {
        match check_table(self.floor(), &self.map, self.start as u64, &self.table) {
            TableVerdict::Refused(refused) => refused_with(refused),
            TableVerdict::Right => vec![1],
            TableVerdict::Breaks(cell) => vec![2, 0, cell],
        }
    }

    fn expected_reading(&self, lent: &mut FiveRooms) -> Vec<u64> {
        match read_map(&self.text, self.byte_room) {
            Err(refused) => refused_with(refused),
            Ok(map) => {
                lent.map[..map.cells.len()].copy_from_slice(&map.cells);
                vec![1, 0, 0, map.width, map.height, 8]
            }
        }
    }

    fn expected_writing(&self, lent: &mut FiveRooms) -> Vec<u64> {
        match write_map(self.floor(), &self.map, self.byte_room) {
            Err(refused) => refused_with(refused),
            Ok(text) => {
                lent.text[..text.len()].copy_from_slice(&text);
                vec![1, 0, 0, text.len() as u64]
            }
        }
    }

    /// Question and answer are put into the map room, zeros if there is no entry.
    fn expected_read_entry(&self, lent: &mut FiveRooms) -> Vec<u64> {
        lent.map = vec![0; 2 * RECORD];
        match read_entry(&self.text, self.byte_room) {
            Err(refused) => refused_with(refused),
            Ok(None) => vec![2],
            Ok(Some(entry)) => {
                lent.map = [&entry.question[..], &entry.answer].concat();
                lent.route[..entry.route.len()].copy_from_slice(&entry.route);
                let taken = entry.bytes().len() as u64;
                vec![1, 0, 0, entry.route.len() as u64, taken]
            }
        }
    }

    fn expected_written_entry(&self, lent: &mut FiveRooms) -> Vec<u64> {
        let (question, answer) = self.map.split_at(RECORD);
        let entry = Entry {
            question: question.to_vec(),
            answer: answer.to_vec(),
            route: self.route.clone(),
        };
        match write_entry(&entry, self.byte_room) {
            Err(refused) => refused_with(refused),
            Ok(bytes) => {
                lent.text[..bytes.len()].copy_from_slice(&bytes);
                vec![1, 0, 0, bytes.len() as u64]
            }
        }
    }
}

fn refused_with(refused: Refusal) -> Vec<u64> {
    vec![0, refused.number as u64, refused.place]
}

/// How many bytes the eight numbers at the front of a reply are.
const FRONT: usize = 8 * 4;

/// The five rooms that a call lends.
pub struct FiveRooms {
    pub map: Vec<u8>,
    pub costs: Vec<u32>,
    pub work: Vec<u32>,
    pub route: Vec<u8>,
    pub text: Vec<u8>,
}

impl FiveRooms {
    fn lengths(&self) -> [usize; 5] {
        [
            self.map.len(),
            self.costs.len(),
            self.work.len(),
            self.route.len(),
            self.text.len(),
        ]
    }

    fn bytes(&self) -> Vec<u8> {
        let mut bytes = self.map.clone();
        bytes.extend(numbers(&self.costs));
        bytes.extend(numbers(&self.work));
        bytes.extend(&self.route);
        bytes.extend(&self.text);
        bytes
    }
}

/// What is given of a room: of one that is all alike a single entry, which the program repeats.
fn given<T: Clone + PartialEq>(room: &[T]) -> Vec<T> {
    match room.first() {
        Some(first) if room.iter().all(|entry| entry == first) => vec![first.clone()],
        _ => room.to_vec(),
    }
}

/// Numbers of four bytes, the lowest first.
pub fn numbers(values: &[u32]) -> Vec<u8> {
    let mut bytes = Vec::new();
    for value in values {
        bytes.extend(value.to_le_bytes());
    }
    bytes
}

pub fn numbers_of(bytes: &[u8]) -> Vec<u32> {
    bytes
        .chunks_exact(4)
        .map(|four| u32::from_le_bytes([four[0], four[1], four[2], four[3]]))
        .collect()
}
