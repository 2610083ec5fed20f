//! The floors to try of 01, with the answers that 01 gives, R-2 for case h, R-3 for the costs and R-6's P and Q worked out by hand, one of them as an
//! entry of R-1's log, and all as questions to R-4's A*: the plain planner is held against these before it is compared with anything.

use crate::astar::astar;
use crate::calls::{Call, What};
use crate::claims::{check_route, check_table, RouteVerdict, TableVerdict};
use crate::floor::{Refusal, MARK};
use crate::log::{read_entry, write_entry, Entry};
use crate::logs::{reading, writing};
use crate::program::output;
use crate::search::{search, Answer, Rooms};

struct Case {
    name: char,
    map: &'static str,
    ways: u32,
    start: u32,
    goal: u32,
    limit: u32,
    answer: Answer,
    route: &'static [u8],
}

fn found(settled: u64, cost: u64, length: u64, p: u64, q: u64) -> Answer {
    Answer::Found {
        settled,
        cost,
        length,
        p,
        q,
    }
}

fn refused(number: u32) -> Answer {
    Answer::Refused(Refusal { number, place: 0 })
}

#[rustfmt::skip]
fn cases() -> Vec<Case> {
    let none = |settled| Answer::None { settled };
    let stopped = |settled, floor| Answer::Stopped { settled, floor };
    let open = ".../.../...";
    vec![
        Case { name: 'a', map: ".@./...", ways: 8, start: 0, goal: 2, limit: 5, answer: found(5, 560, 4, 8, 0), route: &[4, 2, 2, 0] },
        Case { name: 'b', map: ".@./...", ways: 8, start: 0, goal: 2, limit: 4, answer: stopped(4, 560), route: &[] },
        Case { name: 'c', map: open, ways: 8, start: 0, goal: 8, limit: 9, answer: found(9, 396, 2, 0, 4), route: &[3, 3] },
        Case { name: 'd', map: open, ways: 4, start: 0, goal: 8, limit: 9, answer: found(9, 560, 4, 8, 0), route: &[4, 4, 2, 2] },
        Case { name: 'e', map: "../.9", ways: 8, start: 0, goal: 3, limit: 4, answer: found(4, 840, 2, 12, 0), route: &[4, 2] },
        Case { name: 'f', map: ".9./...", ways: 8, start: 0, goal: 2, limit: 6, answer: found(5, 396, 2, 0, 4), route: &[3, 1] },
        Case { name: 'g', map: ".@.", ways: 8, start: 0, goal: 2, limit: 1, answer: none(1), route: &[] },
        Case { name: 'h', map: ".@.", ways: 8, start: 0, goal: 2, limit: 0, answer: refused(15), route: &[] },
        Case { name: 'i', map: ".", ways: 8, start: 0, goal: 0, limit: 1, answer: found(1, 0, 0, 0, 0), route: &[] },
        Case { name: 'j', map: ".9", ways: 8, start: 0, goal: 1, limit: 2, answer: found(2, 700, 1, 10, 0), route: &[2] },
        Case { name: 'k', map: ".9", ways: 8, start: 1, goal: 0, limit: 2, answer: found(2, 700, 1, 10, 0), route: &[6] },
        Case { name: 'l', map: ".@/@.", ways: 8, start: 0, goal: 3, limit: 4, answer: none(1), route: &[] },
    ]
}

/// A call on a map that is drawn as 01 draws it.
fn drawn(what: What, picture: &str, ways: u32, start: u32, goal: u32, limit: u32) -> Call {
    let mut call = Call::of(what);
    let rows: Vec<&str> = picture.split('/').collect();
    call.width = rows[0].len() as u32;
    call.height = rows.len() as u32;
    call.ways = ways;
    call.start = start;
    call.goal = goal;
    call.limit = limit;
    for row in rows {
        for mark in row.bytes() {
            call.map.push(match mark {
                b'@' => 0,
                b'.' => 1,
                digit => digit - b'0',
            });
        }
    }
    call.costs_room = call.map.len();
    call.work_room = 2 * call.map.len();
    call.byte_room = call.map.len();
    call
}

/// Holds the plain planner against 01's answers, and gives the calls, to be compared too.
pub fn tried() -> Vec<Call> {
    let mut calls = Vec::new();
    for case in cases() {
        let call = drawn(
            What::Search,
            case.map,
            case.ways,
            case.start,
            case.goal,
            case.limit,
        );
        let (answer, rooms) = searched(&call);
        assert_eq!(answer, case.answer, "case {}", case.name);
        assert_eq!(
            &rooms.route[..case.route.len()],
            case.route,
            "case {}",
            case.name
        );
        if case.name == 'a' {
            assert_eq!(rooms.costs, [0, MARK, 560, 140, 280, 420]);
        }
        calls.push(call);
    }
    calls.extend(refused_or_taken());
    calls.extend(claimed());
    calls.extend(logged());
    calls.extend(aimed());
    calls.extend(tied());
    calls
}

fn rooms_of(call: &Call) -> Rooms {
    Rooms {
        costs: vec![0; call.costs_room],
        work: vec![0; call.work_room],
        route: vec![0; call.byte_room],
    }
}

fn searched(call: &Call) -> (Answer, Rooms) {
    let mut rooms = rooms_of(call);
    let (start, goal, limit) = (call.start as u64, call.goal as u64, call.limit as u64);
    let answer = search(call.floor(), &call.map, start, goal, limit, &mut rooms);
    (answer, rooms)
}

/// "Side 256 taken, 257 refused 1", which R-7 moves to 1,024 and 1,025; "byte 9 taken, 10 refused 3; start and goal both blocked, 7."
fn refused_or_taken() -> Vec<Call> {
    let row = |length: usize| drawn(What::Search, &".".repeat(length), 8, 0, 0, 1);
    let mut ten = drawn(What::Search, "9", 8, 0, 0, 1);
    ten.map[0] = 10;
    let blocked = drawn(What::Search, "@", 8, 0, 0, 1);
    assert_eq!(searched(&row(1024)).0, found(1, 0, 0, 0, 0));
    assert_eq!(searched(&row(1025)).0, refused(1));
    assert_eq!(searched(&ten).0, refused(3));
    assert_eq!(searched(&blocked).0, refused(7));
    vec![row(1024), row(1025), ten, blocked]
}

/// "In l the claimed route 3 is fault 44 at 0; a's table with 210 made 209 breaks first at cell 2"; R-3: "the check examples double".
fn claimed() -> Vec<Call> {
    let mut route = drawn(What::RouteClaim, ".@/@.", 8, 0, 3, 198);
    route.route = vec![3];
    let verdict = check_route(route.floor(), &route.map, 0, 3, 198, &route.route);
    assert_eq!(
        verdict,
        RouteVerdict::Fails(Refusal {
            number: 44,
            place: 0
        })
    );
    let mut table = drawn(What::TableClaim, ".@./...", 8, 0, 0, 0);
    table.table = vec![0, MARK, 560, 140, 280, 419];
    let verdict = check_table(table.floor(), &table.map, 0, &table.table);
    assert_eq!(verdict, TableVerdict::Breaks(2));
    vec![route, table]
}

/// 01's question record and answer record of case a, at R-3's cost and in R-6's form, with the route: the last record is "filled up with 255".
#[rustfmt::skip]
fn logged() -> Vec<Call> {
    let entry = Entry {
        question: vec![0, 0, 0, 0, 2, 0, 0, 0, 5, 0, 0, 0, 8, 0, 0, 0, 0, 0, 0, 0, 0, 0, 0, 0, 0, 0, 0, 0, 0, 0, 0, 0],
        answer: vec![1, 0, 0, 0, 5, 0, 0, 0, 48, 2, 0, 0, 4, 0, 0, 0, 8, 0, 0, 0, 0, 0, 0, 0, 0, 0, 0, 0, 0, 0, 0, 0],
        route: vec![4, 2, 2, 0],
    };
    let text = b"type octile\nheight 2\nwidth 3\nmap\n.@.\n...\n";
    assert_eq!(output(Some(text), &entry.question), entry.answer);
    let mut bytes = [&entry.question[..], &entry.answer, &entry.route].concat();
    bytes.extend([255; 28]);
    assert_eq!(write_entry(&entry, 96), Ok(bytes.clone()));
    assert_eq!(read_entry(&bytes, 4), Ok(Some(entry.clone())));
    vec![writing(&entry, 96), reading(&bytes, 4), reading(&[], 4)]
}

/// A question to A*: map, ways, start, goal, and what is due.
type Aimed = (&'static str, u32, u32, u32, Answer, &'static [u8]);

/// 01's cases that are not stopped, with R-4's settled counts worked out by hand: c settles the diagonal alone, d every cell by a tie, f neither the
/// heavy cell nor the ends of the lower row. Then R-4's warning: on the last two floors a search that ends when the goal comes off its list, which
/// prefers the lower cell or the one farther on among equal sums, misses cell 2, or 4, of the first route.
#[rustfmt::skip]
fn aimed_cases() -> Vec<Aimed> {
    let none = |settled| Answer::None { settled };
    let open = ".../.../...";
    vec![
        (".@./...", 8, 0, 2, found(5, 560, 4, 8, 0), &[4, 2, 2, 0]),
        (open, 8, 0, 8, found(3, 396, 2, 0, 4), &[3, 3]),
        (open, 4, 0, 8, found(9, 560, 4, 8, 0), &[4, 4, 2, 2]),
        ("../.9", 8, 0, 3, found(4, 840, 2, 12, 0), &[4, 2]),
        (".9./...", 8, 0, 2, found(3, 396, 2, 0, 4), &[3, 1]),
        (".@.", 8, 0, 2, none(1), &[]),
        (".", 8, 0, 0, found(1, 0, 0, 0, 0), &[]),
        (".9", 8, 0, 1, found(2, 700, 1, 10, 0), &[2]),
        (".9", 8, 1, 0, found(2, 700, 1, 10, 0), &[6]),
        (".@/@.", 8, 0, 3, none(1), &[]),
        ("../..", 4, 3, 0, found(4, 280, 2, 4, 0), &[6, 0]),
        (".../...", 8, 3, 2, found(4, 338, 2, 2, 2), &[2, 1]),
    ]
}

fn aimed() -> Vec<Call> {
    let mut calls = Vec::new();
    for (map, ways, start, goal, answer, route) in aimed_cases() {
        let call = drawn(What::Astar, map, ways, start, goal, 0);
        let mut rooms = rooms_of(&call);
        let given = astar(
            call.floor(),
            &call.map,
            start as u64,
            goal as u64,
            &mut rooms,
        );
        assert_eq!(given, answer, "A* on {}", map);
        assert_eq!(&rooms.route[..route.len()], route, "A* on {}", map);
        calls.push(call);
    }
    calls
}

/// Between the first cell and the last there are eight diagonal steps with Q = 140 and sixteen straight ones with P = 198, at the same cost. The last step
/// of the diagonal ones is 3; of the straight ones it is 4 on the first floor, and 2 on the second, which is the first one turned over.
#[rustfmt::skip]
fn tied_cases() -> Vec<(&'static str, Answer)> {
    vec![
        ("966666666/999@@@@@6/@999@@@@6/@@999@@@6/@@@999@@6/@@@@999@6/@@@@@9896/@@@@@@986/@@@@@@@99", found(38, 13860, 8, 0, 140)),
        ("99@@@@@@@/699@@@@@@/6999@@@@@/6@999@@@@/6@@999@@@/6@@@999@@/6@@@@989@/6@@@@@989/666666669", found(38, 13860, 16, 198, 0)),
    ]
}

fn tied() -> Vec<Call> {
    let mut calls = Vec::new();
    for (map, answer) in tied_cases() {
        let call = drawn(What::Search, map, 8, 0, 80, 81);
        assert_eq!(searched(&call).0, answer, "the sums on {}", map);
        calls.push(call);
    }
    calls
}
