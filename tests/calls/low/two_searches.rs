//! On small maps the search by f-levels and the search by layers give the same path, for each start, goal and constraint.

use super::agreement::{free_places, is_same};
use super::map_files::{OPEN, ROOM, SQUARE};
use super::single_constraints::{at_most_one, set_of};
use mapf_grid::{Cell, Map};
use mapf_low::laws::cheapest_by_layers;
use mapf_low::{Constraint, Distances, cheapest};
use std::alloc::Global;
use std::process::Abort;
use std::test::Fail;

/// What a path of these searches may cost.
const BOUND: u32 = 6;

/// Asserts that both give the same from a cell to a goal under each of these constraints.
fn assert_same(
    rt: &impl Abort,
    alloc: Global,
    map: &Map,
    start: Cell,
    goal: Cell,
    constraints: &[Option<Constraint>],
) -> Result<(), Fail> {
    assert!(rt; map.is_free(start));
    assert!(rt; map.is_free(goal));
    let distances = Distances::to(alloc, map, goal)?;
    for constraint in constraints {
        let set = set_of(alloc, *constraint)?;
        let one = cheapest(alloc, map, &distances, start, goal, &set, BOUND)?;
        let other = cheapest_by_layers(alloc, map, &distances, start, goal, &set, BOUND)?;
        let cells = other.as_ref().map(|path| path.cells());
        assert!(rt;
            is_same(one.as_ref(), cells),
            "from {start:?} to {goal:?} under {constraint:?}: {one:?}, not {other:?}"
        );
    }
    Ok(())
}

/// Asserts that both give the same on a map.
fn assert_same_on(rt: &impl Abort, alloc: Global, file: &[u8]) -> Result<(), Fail> {
    let map = Map::read(alloc, file)?;
    let places = free_places(alloc, &map)?;
    let constraints = at_most_one(alloc, &map)?;
    for (_, start) in &places {
        for (_, goal) in &places {
            assert_same(rt, alloc, &map, *start, *goal, constraints.as_slice())?;
        }
    }
    Ok(())
}

#[test]
fn both_searches_agree_on_an_open_map(rt: HostRuntime) -> Result<(), Fail> {
    assert_same_on(&rt, rt.alloc(), OPEN)
}

#[test]
fn both_searches_agree_on_smaller_maps(rt: HostRuntime) -> Result<(), Fail> {
    assert_same_on(&rt, rt.alloc(), ROOM)?;
    assert_same_on(&rt, rt.alloc(), SQUARE)
}
