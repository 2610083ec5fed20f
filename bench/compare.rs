//! Both planners must give the same answer and leave the same in every room; so must both A*, and then settle the same cells.

use crate::floors::{Goal, Kind, Random, ASTAR_KINDS, GOALS, KINDS};
use crate::question::{Answer, Planner, Question, Rooms};
use crate::{ordinary, ordinary_astar, ours, GREATEST_SIDE, SIDES};

/// Two that must answer alike.
pub struct Pair {
    pub ours: Planner,
    pub ordinary: Planner,
}

pub const SEARCH: Pair = Pair { ours: ours::search, ordinary: ordinary::search };
pub const ASTAR: Pair = Pair { ours: ours::astar, ordinary: ordinary_astar::astar };

/// What rooms hold before a compared call: nothing that a planner would write, so that what is left untouched shows.
const OLD_NUMBER: u32 = 123_456_789;
const OLD_BYTE: u8 = 200;

/// How much longer than needed a room is, so that a write past its part shows.
const MARGIN: usize = 5;

/// A map of more cells is not printed.
const SMALL_MAP: usize = 144;

/// Compares on all floors, on limits that stop a search, on refusals and on small random questions. Gives their number.
pub fn compare_all() -> Result<usize, String> {
    let mut count = 0;
    for kind in KINDS {
        for side in SIDES {
            count += compare_floor(kind, side)?;
        }
    }
    count += compare_refused(&SEARCH, &refused())?;
    Ok(count + compare_random(&SEARCH, 1)?)
}

/// The same for A*, which takes no limit and is not refused as 15.
pub fn compare_astar() -> Result<usize, String> {
    let mut count = 0;
    for kind in ASTAR_KINDS {
        for side in SIDES {
            for goal in GOALS {
                count += compare_aimed(kind, side, goal)?;
            }
        }
    }
    let mut cases = refused();
    cases.retain(|case| case.refusal != 15);
    count += compare_refused(&ASTAR, &cases)?;
    Ok(count + compare_random(&ASTAR, 2)?)
}

fn compare_refused(pair: &Pair, cases: &[Refused]) -> Result<usize, String> {
    for case in cases {
        let answer = compare(pair, &case.question, &case.rooms)?;
        if (answer.kind, answer.refusal, answer.place) != (0, case.refusal, case.place) {
            return Err(format!("refusal {} at {} expected, not {:?}", case.refusal, case.place, answer));
        }
    }
    Ok(cases.len())
}

fn compare_random(pair: &Pair, seed: u64) -> Result<usize, String> {
    const COUNT: usize = 20_000;
    let mut random = Random(seed);
    for _ in 0..COUNT {
        let (question, rooms) = random_question(&mut random);
        compare(pair, &question, &rooms)?;
    }
    Ok(COUNT)
}

/// The timed question to A*, the way back and four ways; and that A* finds what the search finds. On the greatest floor the timed
/// question alone, since each takes long.
fn compare_aimed(kind: Kind, side: usize, goal: Goal) -> Result<usize, String> {
    let question = kind.question_to(side, goal);
    let rooms = roomy(side * side);
    let back = Question { start: question.goal, goal: question.start, ..question.clone() };
    let four = Question { ways: 4, ..question.clone() };
    let mut variants = vec![question, back, four];
    if side == GREATEST_SIDE {
        variants.truncate(1);
    }
    for variant in &variants {
        let aimed = compare(&ASTAR, variant, &rooms)?;
        let searched = compare(&SEARCH, variant, &rooms)?;
        // the count of settled cells is A*'s own
        let as_searched = Answer { settled: aimed.settled, ..searched };
        if aimed.kind != 1 || aimed != as_searched {
            return Err(format!("{aimed:?}, but the search finds {searched:?}, of {}", in_words(variant)));
        }
    }
    Ok(variants.len())
}

/// The timed question of a floor, the way back, four ways, and limits about the goal's place and below it, down to 0. On the
/// greatest floor the timed question alone.
fn compare_floor(kind: Kind, side: usize) -> Result<usize, String> {
    let question = kind.question(side);
    let rooms = roomy(side * side);
    let answer = compare(&SEARCH, &question, &rooms)?;
    if answer.kind != 1 {
        return Err(format!("{} {side}: a route is expected, not {answer:?}", kind.name()));
    }
    if side == GREATEST_SIDE {
        return Ok(1);
    }
    let settled = answer.settled as u32;
    let back = Question { start: question.goal, goal: question.start, ..question.clone() };
    let four = Question { ways: 4, ..question.clone() };
    let mut variants = vec![back, four];
    for limit in [0, 1, settled / 2, settled - 1, settled, u32::MAX] {
        variants.push(Question { limit, ..question.clone() });
    }
    for variant in &variants {
        compare(&SEARCH, variant, &rooms)?;
    }
    Ok(1 + variants.len())
}

/// Asks both and compares; gives the answer.
fn compare(pair: &Pair, question: &Question, rooms: &Rooms) -> Result<Answer, String> {
    let mut our_rooms = rooms.clone();
    let mut their_rooms = rooms.clone();
    let our_answer = (pair.ours)(question, &mut our_rooms);
    let their_answer = (pair.ordinary)(question, &mut their_rooms);
    let what = if our_answer != their_answer {
        "answers"
    } else if our_rooms.costs != their_rooms.costs {
        "costs"
    } else if our_rooms.work != their_rooms.work {
        "work rooms"
    } else if our_rooms.route != their_rooms.route {
        "routes"
    } else {
        return Ok(our_answer);
    };
    Err(format!("{what} differ: ours {our_answer:?}, the ordinary one's {their_answer:?}, of {}", in_words(question)))
}

/// A question, with its map if that is small enough to read.
fn in_words(question: &Question) -> String {
    if question.map.len() <= SMALL_MAP {
        return format!("{question:?}");
    }
    let Question { width, height, ways, start, goal, limit, .. } = question;
    format!("the floor of {width} x {height} cells, {ways} ways, {start} to {goal}, limit {limit}")
}

fn roomy(cells: usize) -> Rooms {
    let mut rooms = Rooms::with_lengths(cells + MARGIN, 2 * cells + MARGIN, cells + MARGIN);
    rooms.fill(OLD_NUMBER, OLD_BYTE);
    rooms
}

struct Refused {
    refusal: u64,
    place: u64,
    question: Question,
    rooms: Rooms,
}

fn refused_as(refusal: u64, place: u64, question: Question, lengths: (usize, usize, usize)) -> Refused {
    let mut rooms = Rooms::with_lengths(lengths.0, lengths.1, lengths.2);
    rooms.fill(OLD_NUMBER, OLD_BYTE);
    Refused { refusal, place, question, rooms }
}

/// A question for each refusal, with a later fault in it too wherever one fits, so that the order shows; of 1 to 11 a second
/// one, with limit 0.
fn refused() -> Vec<Refused> {
    let sound = Question { width: 3, height: 2, ways: 8, map: vec![1, 0, 1, 1, 1, 1], start: 0, goal: 2, limit: 6 };
    let limit_0 = Question { limit: 0, ..sound.clone() };
    let mut cases = refused_before_15(sound);
    cases.extend(refused_before_15(limit_0.clone()));
    cases.push(refused_as(15, 0, limit_0, (6, 12, 6)));
    cases
}

/// The refusals 1 to 11, in questions with the limit of one that none of them applies to.
fn refused_before_15(sound: Question) -> Vec<Refused> {
    let (enough, nothing) = ((6, 12, 6), (0, 0, 0));
    let weighty = vec![1, 0, 1, 10, 255, 1];
    let twice_blocked = vec![0, 0, 0, 1, 1, 1];
    vec![
        refused_as(1, 0, Question { width: 0, ..sound.clone() }, enough),
        refused_as(1, 0, Question { height: 1025, map: vec![10; 3 * 1025], ..sound.clone() }, nothing),
        refused_as(1, 0, Question { width: u32::MAX, height: u32::MAX, ..sound.clone() }, nothing),
        refused_as(2, 0, Question { map: vec![10; 7], ..sound.clone() }, nothing),
        refused_as(2, 0, Question { map: vec![], ..sound.clone() }, nothing),
        refused_as(3, 3, Question { map: weighty, ways: 5, ..sound.clone() }, nothing),
        refused_as(4, 0, Question { ways: 6, start: 6, ..sound.clone() }, nothing),
        refused_as(5, 0, Question { start: 6, goal: 6, ..sound.clone() }, nothing),
        refused_as(6, 0, Question { start: 1, goal: u32::MAX, ..sound.clone() }, nothing),
        refused_as(7, 0, Question { map: twice_blocked, ..sound.clone() }, nothing),
        refused_as(8, 0, Question { goal: 1, ..sound.clone() }, nothing),
        refused_as(9, 0, sound.clone(), (5, 11, 5)),
        refused_as(10, 0, sound.clone(), (6, 11, 5)),
        refused_as(11, 0, sound, (6, 12, 5)),
    ]
}

/// A small floor with any share of blocked cells. One in eight questions may be refused as 3 to 11; one in eight has limit 0,
/// and one in eight limit 1.
fn random_question(random: &mut Random) -> (Question, Rooms) {
    let width = 1 + random.below(12);
    let height = 1 + random.below(12);
    let cells = width * height;
    let blocked = random.below(6);
    let greatest = 1 + random.below(9);
    let mut map: Vec<u8> =
        (0..cells).map(|_| if random.below(10) < blocked { 0 } else { 1 + random.below(greatest) as u8 }).collect();
    let mut ways = 4 + 4 * random.below(2);
    let (mut start, mut goal) = (random.below(cells), random.below(cells));
    let mut rooms = roomy(cells as usize);
    if random.below(8) == 0 {
        match random.below(7) {
            0 => map[start as usize] = 10,
            1 => ways = random.below(10),
            2 => start = random.below(2 * cells),
            3 => goal = random.below(2 * cells),
            4 => rooms.costs.truncate(random.below(cells + 1) as usize),
            5 => rooms.work.truncate(random.below(2 * cells + 1) as usize),
            _ => rooms.route.truncate(random.below(cells + 1) as usize),
        }
    } else {
        map[start as usize] = 1;
        map[goal as usize] = 1;
    }
    let limit = match random.below(8) {
        least @ 0..=1 => least,
        _ => random.below(2 * cells),
    };
    (Question { width, height, ways, map, start, goal, limit }, rooms)
}
