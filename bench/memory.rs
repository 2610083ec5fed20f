//! The memory of a call: bytes a cell, of the rooms that it is lent and of what it asks of the allocator.

use crate::compare::{Pair, ASTAR, SEARCH};
use crate::floors::{Goal, Kind, ASTAR_KINDS, KINDS};
use crate::question::{Planner, Question, Rooms};
use crate::GREATEST_SIDE;
use std::alloc::{GlobalAlloc, Layout, System};
use std::sync::atomic::{AtomicUsize, Ordering::Relaxed};

/// A byte of the map, four of the costs, eight of the work room, one of the route.
const OURS: f64 = 14.0;

/// The same without the work room, which the ordinary planners are lent and leave cleared, but do not need.
const ORDINARY: f64 = 6.0;

/// The system's allocator, counted. It is asked some twenty times in a call, so the count takes no time that would show.
struct Counted;

#[global_allocator]
static ALLOCATOR: Counted = Counted;

static HELD: AtomicUsize = AtomicUsize::new(0);
static MOST: AtomicUsize = AtomicUsize::new(0);

fn took(bytes: usize) {
    let held = HELD.fetch_add(bytes, Relaxed) + bytes;
    MOST.fetch_max(held, Relaxed);
}

// Safe: all is done by the system's allocator.
unsafe impl GlobalAlloc for Counted {
    unsafe fn alloc(&self, layout: Layout) -> *mut u8 {
        took(layout.size());
        System.alloc(layout)
    }

    unsafe fn alloc_zeroed(&self, layout: Layout) -> *mut u8 {
        took(layout.size());
        System.alloc_zeroed(layout)
    }

    unsafe fn realloc(&self, block: *mut u8, layout: Layout, size: usize) -> *mut u8 {
        took(size);
        HELD.fetch_sub(layout.size(), Relaxed);
        System.realloc(block, layout, size)
    }

    unsafe fn dealloc(&self, block: *mut u8, layout: Layout) {
        HELD.fetch_sub(layout.size(), Relaxed);
        System.dealloc(block, layout)
    }
}

/// The most bytes that a call held at any time, beside the rooms. While a block grows it counts twice: the old one is copied.
fn most_held(planner: Planner, question: &Question, rooms: &mut Rooms) -> usize {
    let before = HELD.load(Relaxed);
    MOST.store(before, Relaxed);
    planner(question, rooms);
    MOST.load(Relaxed) - before
}

pub fn print() {
    println!("\nmemory at side {GREATEST_SIDE}: bytes a cell of the map and the rooms that are needed, and what is allocated in the call at its most\n");
    println!("| | floor | ours: bytes a cell | allocated KiB | ordinary: bytes a cell | allocated KiB | together, bytes a cell |");
    println!("|---|---|---|---|---|---|---|");
    for kind in KINDS {
        print_row("search", &SEARCH, kind, kind.question(GREATEST_SIDE));
    }
    for kind in ASTAR_KINDS {
        print_row("A*, far goal", &ASTAR, kind, kind.question_to(GREATEST_SIDE, Goal::Far));
    }
}

fn print_row(engine: &str, pair: &Pair, kind: Kind, question: Question) {
    let cells = question.map.len();
    let mut rooms = Rooms::for_cells(cells);
    let mut allocated = |planner| most_held(planner, &question, &mut rooms) as f64;
    let (ours, ordinary) = (allocated(pair.ours), allocated(pair.ordinary));
    let together = ORDINARY + ordinary / cells as f64;
    println!("| {engine} | {} | {OURS:.0} | {:.1} | {ORDINARY:.0} | {:.1} | {together:.2} |", kind.name(), ours / 1024.0, ordinary / 1024.0);
}
