//! All paths of at most four steps, by all lists of moves; and the best of them, one by one.

use mapf_grid::{Cell, Map};
use mapf_low::Constraint;
use std::alloc::Global;
use std::test::Fail;

/// The greatest cost of the paths here, and the last time of a constraint.
pub(super) const LAST_TIME: u32 = 4;

/// For each number of steps, how many lists of moves there are: each step has one of five.
const LISTS: [(u32, u32); 5] = [(0, 1), (1, 5), (2, 25), (3, 125), (4, 625)];

/// Where a move leads, as place and cell: 0 is to wait, 1 up, 2 left, 3 right, 4 down; none where
/// that is no free cell of the map.
pub(super) fn moved(map: &Map, (x, y): (u32, u32), direction: u32) -> Option<((u32, u32), Cell)> {
    let (x, y) = match direction {
        0 => (x, y),
        1 => (x, y.checked_sub(1)?),
        2 => (x.checked_sub(1)?, y),
        3 => (x.checked_add(1)?, y),
        _ => (x, y.checked_add(1)?),
    };
    let cell = map.cell(x, y)?;
    if map.is_free(cell) {
        Some(((x, y), cell))
    } else {
        None
    }
}

/// The cells of a list of moves, which are the digits of a number in base five; none where a move
/// leads nowhere.
fn walk(
    alloc: Global,
    map: &Map,
    start: (u32, u32),
    (steps, list): (u32, u32),
) -> Result<Option<Vec<Cell>>, Fail> {
    let Some((_, first)) = moved(map, start, 0) else {
        return Ok(None);
    };
    let mut cells = Vec::new(alloc);
    cells.push(first)?;
    let mut place = start;
    let mut moves = list;
    for _step in 0..steps {
        let Some((next, cell)) = moved(map, place, moves % 5) else {
            return Ok(None);
        };
        cells.push(cell)?;
        place = next;
        moves /= 5;
    }
    Ok(Some(cells))
}

/// Whether a walk ends on the goal, and hadn't been there one step before.
fn is_path_to(goal: Cell, cells: &[Cell]) -> bool {
    match cells {
        [] => false,
        [only] => *only == goal,
        [.., before, last] => *before != goal && *last == goal,
    }
}

/// All paths of at most four steps from a place to the goal.
pub(super) fn all_paths(
    alloc: Global,
    map: &Map,
    start: (u32, u32),
    goal: Cell,
) -> Result<Vec<Vec<Cell>>, Fail> {
    let mut paths = Vec::new(alloc);
    for (steps, lists) in LISTS {
        for list in 0..lists {
            if let Some(cells) = walk(alloc, map, start, (steps, list))? {
                if is_path_to(goal, cells.as_slice()) {
                    paths.push(cells)?;
                }
            }
        }
    }
    Ok(paths)
}

/// Where an agent is at a time: on the goal from the path's end on.
fn place_at(cells: &[Cell], goal: Cell, time: u32) -> Cell {
    cells.get(time as usize).copied().unwrap_or(goal)
}

/// Whether a path to the goal does what the constraint forbids.
fn breaks(cells: &[Cell], goal: Cell, constraint: Constraint) -> bool {
    match constraint {
        Constraint::Vertex { cell, time } => place_at(cells, goal, time) == cell,
        Constraint::Edge { from, to, time } => {
            time > 0 && place_at(cells, goal, time - 1) == from && place_at(cells, goal, time) == to
        }
    }
}

/// Whether one path is better: fewer steps, or the smaller cell at the last difference.
fn is_better(one: &[Cell], other: &[Cell]) -> bool {
    if one.len() != other.len() {
        return one.len() < other.len();
    }
    for place in (0..one.len()).rev() {
        if one[place] != other[place] {
            return one[place] < other[place];
        }
    }
    false
}

/// The path, if it doesn't break the constraint.
fn allowed(cells: &[Cell], goal: Cell, constraint: Option<Constraint>) -> Option<&[Cell]> {
    match constraint {
        Some(forbidden) if breaks(cells, goal, forbidden) => None,
        _ => Some(cells),
    }
}

/// The better of two paths, where there is one.
fn better<'a>(one: Option<&'a [Cell]>, other: Option<&'a [Cell]>) -> Option<&'a [Cell]> {
    match (one, other) {
        (Some(x), Some(y)) if is_better(y, x) => Some(y),
        (None, y) => y,
        (x, _) => x,
    }
}

/// The best of the paths to the goal that don't break the constraint.
pub(super) fn best_of<'a>(
    paths: &'a [Vec<Cell>],
    goal: Cell,
    constraint: &Option<Constraint>,
) -> Option<&'a [Cell]> {
    let mut best = None;
    for path in paths {
        best = better(best, allowed(path.as_slice(), goal, *constraint));
    }
    best
}
