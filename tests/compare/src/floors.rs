//! Random floors, and floors on which routes of one cost differ in P and Q.

use crate::floor::GREATEST_SIDE;
use crate::random::Random;

/// A map that passes 1 to 3.
#[derive(Clone, Debug)]
pub struct Drawn {
    pub width: u32,
    pub height: u32,
    pub map: Vec<u8>,
}

/// A floor of any kind, with sides up to `greatest`.
pub fn any_floor(random: &mut Random, greatest: u64) -> Drawn {
    let (width, height) = match random.below(12) {
        0 => (random.between(1, greatest), 1),
        1 => (1, random.between(1, greatest)),
        2 => (greatest, random.between(1, greatest)),
        _ => (random.between(1, greatest), random.between(1, greatest)),
    };
    floor_of_sides(random, width as u32, height as u32)
}

/// How many cells a large floor has that is no hall, at most.
const LARGE: u64 = 65536;

/// A floor of up to so many cells, of which a side may be the greatest.
pub fn large_floor(random: &mut Random) -> Drawn {
    if random.once_in(3) {
        return any_floor(random, 256);
    }
    let long = random.between(257, GREATEST_SIDE);
    let long = random.one_of(&[GREATEST_SIDE, GREATEST_SIDE - 1, long]);
    let other = random.between(1, LARGE / long);
    let (width, height) = random.one_of(&[(long, other), (other, long)]);
    floor_of_sides(random, width as u32, height as u32)
}

/// A full hall, or one that is nearly as large.
pub fn hall(random: &mut Random) -> Drawn {
    let other = random.between(257, GREATEST_SIDE);
    let (width, height) = random.one_of(&[
        (GREATEST_SIDE, GREATEST_SIDE),
        (GREATEST_SIDE, other),
        (GREATEST_SIDE, GREATEST_SIDE),
        (other, GREATEST_SIDE),
    ]);
    floor_of_sides(random, width as u32, height as u32)
}

pub fn floor_of_sides(random: &mut Random, width: u32, height: u32) -> Drawn {
    let cells = (width * height) as usize;
    let map = match random.below(8) {
        0 => vec![1; cells],
        1 => vec![random.between(1, 9) as u8; cells],
        2 => maze(random, width as usize, height as usize),
        3 => (0..cells).map(|_| random.between(1, 9) as u8).collect(),
        _ => patchy(random, cells),
    };
    Drawn { width, height, map }
}

/// Open cells of a few weights, so that costs are often equal, with blocked ones between.
fn patchy(random: &mut Random, cells: usize) -> Vec<u8> {
    let weights: &[u8] = random.one_of(&[
        &[1][..],
        &[9],
        &[1, 2],
        &[1, 9],
        &[6, 7, 8, 9],
        &[1, 1, 1, 1, 1, 9],
        &[1, 2, 3, 4, 5, 6, 7, 8, 9],
    ]);
    let blocked_in_100 = random.one_of(&[2, 10, 30, 45]);
    (0..cells)
        .map(|_| {
            if random.below(100) < blocked_in_100 {
                0
            } else {
                random.one_of(weights)
            }
        })
        .collect()
}

/// Corridors one cell wide: from a cell with even column and row the next such cell is opened at random, until no closed one is beside.
fn maze(random: &mut Random, width: usize, height: usize) -> Vec<u8> {
    let mut map = vec![0; width * height];
    let mut trail: Vec<(usize, usize)> = vec![(0, 0)];
    map[0] = 1;
    while let Some((x, y)) = trail.last().copied() {
        let mut closed = Vec::new();
        for (u, v) in [
            (x + 2, y),
            (x, y + 2),
            (x.wrapping_sub(2), y),
            (x, y.wrapping_sub(2)),
        ] {
            if u < width && v < height && map[v * width + u] == 0 {
                closed.push((u, v));
            }
        }
        if closed.is_empty() {
            trail.pop();
            continue;
        }
        let (u, v) = random.one_of(&closed);
        let weight = random.one_of(&[1, 1, 1, 2, 9]);
        map[(y + v) / 2 * width + (x + u) / 2] = weight;
        map[v * width + u] = weight;
        trail.push((u, v));
    }
    map
}

/// How many cells a side of such a floor has on which two ways between corners cost the same.
const TIED: usize = 9;

/// A floor on which eight diagonal steps from the first cell to the last have Q = 140, and sixteen straight ones along two sides P = 198, if the weights
/// leave no better way: 70 × 198 = 99 × 140. The sides of the diagonal steps are open and heavy, and all else is blocked.
pub fn tied(random: &mut Random) -> Drawn {
    let mut map = vec![0; TIED * TIED];
    for at in 0..TIED - 1 {
        map[at * TIED + at + 1] = 9;
        map[(at + 1) * TIED + at] = 9;
        map[at + 1] = 6;
        map[at * TIED + TIED - 1] = 6;
    }
    map[0] = 9;
    for at in 1..TIED {
        map[at * TIED + at] = 9;
    }
    for _ in 0..2 {
        let at = random.between(1, TIED as u64 - 2) as usize;
        map[at * TIED + at] -= 1;
    }
    for _ in 0..random.below(8) {
        let lighter = random.between(1, TIED as u64 - 2) as usize;
        let heavier = random.between(1, TIED as u64 - 2) as usize;
        if map[lighter] > 1 && map[heavier * TIED + TIED - 1] < 9 {
            map[lighter] -= 1;
            map[heavier * TIED + TIED - 1] += 1;
        }
    }
    turned(random, &map)
}

/// The floor turned over along its diagonal, or not, and then seen from the other side, or not.
fn turned(random: &mut Random, map: &[u8]) -> Drawn {
    let (over, mirrored) = (random.once_in(2), random.once_in(2));
    let mut cells = Vec::new();
    for y in 0..TIED {
        for x in 0..TIED {
            let x = if mirrored { TIED - 1 - x } else { x };
            let (x, y) = if over { (y, x) } else { (x, y) };
            cells.push(map[y * TIED + x]);
        }
    }
    Drawn {
        width: TIED as u32,
        height: TIED as u32,
        map: cells,
    }
}
