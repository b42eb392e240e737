//! Own paths that the specification gives.

use super::map_files::{DETOUR, LINE, PARTED, SQUARE, cell_at};
use super::single_constraints::set_of;
use crate::numbers::push_cells;
use mapf_grid::{Cell, Map};
use mapf_low::{Constraint, Constraints, Distances, cheapest};
use mapf_plan::Path;
use std::alloc::Global;
use std::process::Abort;
use std::test::Fail;

/// The own path between two places of a map.
fn own_path(
    alloc: Global,
    map: &Map,
    (start, goal): ((u32, u32), (u32, u32)),
    constraints: &Constraints,
    bound: u32,
) -> Result<Option<Path>, Fail> {
    let start = cell_at(map, start)?;
    let goal = cell_at(map, goal)?;
    if !map.is_free(start) || !map.is_free(goal) || bound > 1_000_000 {
        return Err(Fail::from("not asked for"));
    }
    let distances = Distances::to(alloc, map, goal)?;
    let found = cheapest(alloc, map, &distances, start, goal, constraints, bound)?;
    Ok(found)
}

/// Asserts that the own path goes over these cells, named by their numbers; that there is none, where they are none.
fn expect(
    rt: &impl Abort,
    alloc: Global,
    file: &[u8],
    ends: ((u32, u32), (u32, u32)),
    constraint: Option<Constraint>,
    bound: u32,
    cells: &str,
) -> Result<(), Fail> {
    let map = Map::read(alloc, file)?;
    let constraints = set_of(alloc, constraint)?;
    let mut text = String::new(alloc);
    if let Some(path) = own_path(alloc, &map, ends, &constraints, bound)? {
        push_cells(&mut text, path.cells())?;
    }
    assert_eq!(rt; text.as_str(), cells);
    Ok(())
}

#[test]
fn takes_the_smaller_cell_at_the_last_difference(rt: HostRuntime) -> Result<(), Fail> {
    expect(&rt, rt.alloc(), SQUARE, ((0, 0), (1, 1)), None, 2, " 0 1 3")
}

#[test]
fn takes_a_detour(rt: HostRuntime) -> Result<(), Fail> {
    let cells = " 6 5 10 15 20 21 22 17 18";
    expect(&rt, rt.alloc(), DETOUR, ((1, 1), (3, 3)), None, 8, cells)
}

#[test]
fn finds_none_at_once_where_no_walk_leads(rt: HostRuntime) -> Result<(), Fail> {
    let ends = ((0, 0), (2, 0));
    expect(&rt, rt.alloc(), PARTED, ends, None, 1_000_000, "")
}

#[test]
fn stays_where_it_starts_on_its_goal(rt: HostRuntime) -> Result<(), Fail> {
    expect(&rt, rt.alloc(), LINE, ((1, 0), (1, 0)), None, 0, " 1")
}

/// The own path along the line of three cells goes over these.
fn expect_along(
    rt: &impl Abort,
    alloc: Global,
    constraint: Option<Constraint>,
    bound: u32,
    cells: &str,
) -> Result<(), Fail> {
    expect(rt, alloc, LINE, ((0, 0), (2, 0)), constraint, bound, cells)
}

/// That a cell is forbidden at a time.
fn at(cell: u32, time: u32) -> Option<Constraint> {
    Some(Constraint::Vertex {
        cell: Cell::of(cell),
        time,
    })
}

#[test]
fn obeys_at_all_times(rt: HostRuntime) -> Result<(), Fail> {
    let alloc = rt.alloc();
    let first_step = Some(Constraint::Edge {
        from: Cell::of(0),
        to: Cell::of(1),
        time: 1,
    });
    expect_along(&rt, alloc, None, 1, "")?;
    expect_along(&rt, alloc, at(2, 3), 3, "")?;
    expect_along(&rt, alloc, at(2, 3), 4, " 0 0 0 1 2")?;
    expect_along(&rt, alloc, first_step, 5, " 0 0 1 2")?;
    expect_along(&rt, alloc, at(2, 9), 5, "")?;
    expect_along(&rt, alloc, at(0, 0), 5, "")?;
    expect_along(&rt, alloc, at(1, 9), 2, " 0 1 2")
}
