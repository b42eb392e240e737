//! On small maps the own path is the best of all paths, for each start, goal and single constraint.

use super::all_paths::{LAST_TIME, all_paths, best_of, moved};
use super::map_files::{COLUMN, CORNER, LINE, OPEN, PARTED, RING, ROOM, SQUARE};
use super::single_constraints::{at_most_one, set_of};
use mapf_grid::{Cell, Map};
use mapf_low::{Constraint, Distances, cheapest};
use mapf_plan::Path;
use std::alloc::Global;
use std::process::Abort;
use std::test::Fail;

/// A free place of a map, and its cell.
pub(super) type Place = ((u32, u32), Cell);

/// Whether what was found is the best path; none, where there is none.
pub(super) fn is_same(found: Option<&Path>, best: Option<&[Cell]>) -> bool {
    match (found, best) {
        (Some(path), Some(cells)) => path.cells() == cells,
        (None, None) => true,
        _ => false,
    }
}

/// Asserts that both agree from a place to a goal under each of these constraints.
fn assert_agreement(
    rt: &impl Abort,
    alloc: Global,
    map: &Map,
    (place, start): Place,
    goal: Cell,
    constraints: &[Option<Constraint>],
) -> Result<(), Fail> {
    assert!(rt; map.is_free(start));
    assert!(rt; map.is_free(goal));
    let distances = Distances::to(alloc, map, goal)?;
    let paths = all_paths(alloc, map, place, goal)?;
    for constraint in constraints {
        let set = set_of(alloc, *constraint)?;
        let found = cheapest(alloc, map, &distances, start, goal, &set, LAST_TIME)?;
        let best = best_of(paths.as_slice(), goal, constraint);
        assert!(rt;
            is_same(found.as_ref(), best),
            "from {start:?} to {goal:?} under {constraint:?}: {found:?}, not {best:?}"
        );
    }
    Ok(())
}

/// The free places of a map.
pub(super) fn free_places(alloc: Global, map: &Map) -> Result<Vec<Place>, Fail> {
    let mut places = Vec::new(alloc);
    for y in 0..map.height() {
        for x in 0..map.width() {
            if let Some(place) = moved(map, (x, y), 0) {
                places.push(place)?;
            }
        }
    }
    Ok(places)
}

/// Asserts that both agree on a map with so many free places and sets of at most one constraint.
fn assert_agreement_on(
    rt: &impl Abort,
    alloc: Global,
    file: &[u8],
    free: usize,
    sets: usize,
) -> Result<(), Fail> {
    let map = Map::read(alloc, file)?;
    let places = free_places(alloc, &map)?;
    let constraints = at_most_one(alloc, &map)?;
    assert_eq!(rt; places.len(), free);
    assert_eq!(rt; constraints.len(), sets);
    for start in &places {
        for (_, goal) in &places {
            assert_agreement(rt, alloc, &map, *start, *goal, constraints.as_slice())?;
        }
    }
    Ok(())
}

#[test]
fn agrees_with_all_paths_on_an_open_map(rt: HostRuntime) -> Result<(), Fail> {
    assert_agreement_on(&rt, rt.alloc(), OPEN, 9, 1 + 45 + 120)
}

#[test]
fn agrees_with_all_paths_on_a_ring(rt: HostRuntime) -> Result<(), Fail> {
    assert_agreement_on(&rt, rt.alloc(), RING, 8, 1 + 45 + 80)
}

#[test]
fn agrees_with_all_paths_on_smaller_maps(rt: HostRuntime) -> Result<(), Fail> {
    assert_agreement_on(&rt, rt.alloc(), CORNER, 5, 1 + 30 + 50)?;
    assert_agreement_on(&rt, rt.alloc(), ROOM, 4, 1 + 30 + 30)?;
    assert_agreement_on(&rt, rt.alloc(), SQUARE, 4, 1 + 20 + 40)?;
    assert_agreement_on(&rt, rt.alloc(), LINE, 3, 1 + 15 + 20)?;
    assert_agreement_on(&rt, rt.alloc(), COLUMN, 3, 1 + 15 + 20)?;
    assert_agreement_on(&rt, rt.alloc(), PARTED, 2, 1 + 15)
}
