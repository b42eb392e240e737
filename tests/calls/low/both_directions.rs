//! The search backwards gives the same path as the search from the start: on small maps for each start, goal and constraint,
//! and where an agent is held at its start, or has to pass a cell that is forbidden for long.

use super::agreement::{free_places, is_same};
use super::map_files::{LINE, OPEN, RING, ROOM, SQUARE, cell_at};
use super::single_constraints::{at_most_one, set_of};
use mapf_grid::{Cell, Map};
use mapf_low::{
    Backwards, Constraint, Constraints, Distances, Lookup, cheapest, cheapest_backwards,
};
use std::alloc::Global;
use std::process::Abort;
use std::test::Fail;

/// What a path of these searches may cost.
const BOUND: u32 = 8;

/// How many dead ends a search backwards may meet here: more than there are.
const BUDGET: usize = 1_000;

/// Asserts that both give the same between two cells under a set of constraints, where so many dead ends may be met.
fn assert_same(
    rt: &impl Abort,
    alloc: Global,
    map: &Map,
    start: Cell,
    goal: Cell,
    set: &Constraints,
    budget: usize,
) -> Result<(), Fail> {
    assert!(rt; map.is_free(start));
    assert!(rt; map.is_free(goal));
    let distances = Distances::to(alloc, map, goal)?;
    let from_start = Distances::to(alloc, map, start)?;
    let one = cheapest(alloc, map, &distances, start, goal, set, BOUND)?;
    let by = Backwards {
        from_start: &from_start,
        least: 0,
        budget,
    };
    let other = cheapest_backwards(alloc, map, start, goal, set, BOUND, &by)?;
    let cells = one.as_ref().map(|path| path.cells());
    let Lookup::Known(back) = other else {
        return Err(Fail::from("too many dead ends"));
    };
    assert!(rt;
        is_same(back.as_ref(), cells),
        "from {start:?} to {goal:?}: {back:?}, not {one:?}"
    );
    Ok(())
}

/// Asserts that both give the same on a map, under at most one constraint.
fn assert_same_on(rt: &impl Abort, alloc: Global, file: &[u8]) -> Result<(), Fail> {
    let map = Map::read(alloc, file)?;
    let places = free_places(alloc, &map)?;
    for constraint in &at_most_one(alloc, &map)? {
        let set = set_of(alloc, *constraint)?;
        for (_, start) in &places {
            for (_, goal) in &places {
                assert_same(rt, alloc, &map, *start, *goal, &set, BUDGET)?;
            }
        }
    }
    Ok(())
}

#[test]
fn both_directions_agree_on_an_open_map(rt: HostRuntime) -> Result<(), Fail> {
    assert_same_on(&rt, rt.alloc(), OPEN)
}

#[test]
fn both_directions_agree_on_a_ring(rt: HostRuntime) -> Result<(), Fail> {
    assert_same_on(&rt, rt.alloc(), RING)
}

#[test]
fn both_directions_agree_on_smaller_maps(rt: HostRuntime) -> Result<(), Fail> {
    assert_same_on(&rt, rt.alloc(), ROOM)?;
    assert_same_on(&rt, rt.alloc(), LINE)?;
    assert_same_on(&rt, rt.alloc(), SQUARE)
}

/// These cells, forbidden from time 1 up to this time.
fn forbidding(alloc: Global, cells: &[u32], last: u32) -> Result<Constraints, Fail> {
    let mut set = Constraints::new(alloc);
    for time in 1..=last {
        for number in cells {
            let cell = Cell::of(*number);
            set = set.and(Constraint::Vertex { cell, time })?;
        }
    }
    Ok(set)
}

#[test]
fn both_directions_agree_where_the_start_is_held(rt: HostRuntime) -> Result<(), Fail> {
    let alloc = rt.alloc();
    let map = Map::read(alloc, OPEN)?;
    let start = cell_at(&map, (0, 0))?;
    let goal = cell_at(&map, (2, 2))?;
    for last in 0..=5 {
        // Both sides of the upper left corner.
        let set = forbidding(alloc, &[1, 3], last)?;
        assert_same(&rt, alloc, &map, start, goal, &set, BUDGET)?;
        assert_same(&rt, alloc, &map, start, goal, &set, 0)?;
    }
    Ok(())
}

#[test]
fn both_directions_agree_where_the_only_way_is_closed_for_long(
    rt: HostRuntime,
) -> Result<(), Fail> {
    let alloc = rt.alloc();
    let map = Map::read(alloc, LINE)?;
    let start = cell_at(&map, (0, 0))?;
    let goal = cell_at(&map, (2, 0))?;
    for last in 0..=7 {
        let set = forbidding(alloc, &[1], last)?;
        assert_same(&rt, alloc, &map, start, goal, &set, 0)?;
    }
    Ok(())
}

#[test]
fn a_dead_end_over_the_budget_ends_the_search_backwards(rt: HostRuntime) -> Result<(), Fail> {
    let alloc = rt.alloc();
    let map = Map::read(alloc, LINE)?;
    let start = cell_at(&map, (0, 0))?;
    let between = cell_at(&map, (1, 0))?;
    let goal = cell_at(&map, (2, 0))?;
    assert!(rt; map.is_free(start));
    assert!(rt; map.is_free(goal));
    let from_start = Distances::to(alloc, &map, start)?;
    let free = Constraints::new(alloc);
    let held = forbidding(alloc, &[1], 1)?;
    let mut lost = Constraints::new(alloc);
    for cell in [start, between, goal] {
        lost = lost.and(Constraint::Vertex { cell, time: 2 })?;
    }
    // By the distances the goal at time 2 is a dead end, since the cell between is forbidden at time 1, and by the earliest
    // arrivals nothing is. That at time 2 there is no cell to be on is found by dead ends alone.
    for (set, budget, cost) in [
        (&free, 0, Some(2)),
        (&held, 0, Some(3)),
        (&held, 1, Some(3)),
        (&lost, 0, None),
    ] {
        let by = Backwards {
            from_start: &from_start,
            least: 0,
            budget,
        };
        let own = cheapest_backwards(alloc, &map, start, goal, set, BOUND, &by)?;
        let known = match own {
            Lookup::Known(path) => Some(path.ok_or("no path")?.cost()),
            Lookup::Unknown => None,
        };
        assert_eq!(rt; known, cost);
    }
    Ok(())
}
