//! Sets of at most one constraint: on a small map each, up to a time.

use super::all_paths::{LAST_TIME, moved};
use mapf_grid::{Cell, Map};
use mapf_low::{Constraint, Constraints};
use std::alloc::Global;
use std::test::Fail;

/// Whether a constraint, if it is of an edge, leads from a cell to another.
fn has_two_ends(constraint: Constraint) -> bool {
    match constraint {
        Constraint::Vertex { .. } => true,
        Constraint::Edge { from, to, .. } => from.number() != to.number(),
    }
}

/// The set of this one constraint, of which an edge has two ends; the empty set where there is none.
pub(super) fn set_of(alloc: Global, constraint: Option<Constraint>) -> Result<Constraints, Fail> {
    let empty = Constraints::new(alloc);
    let Some(only) = constraint else {
        return Ok(empty);
    };
    if !has_two_ends(only) {
        return Err(Fail::from("an edge with one end"));
    }
    Ok(empty.with(only)?)
}

/// No constraint, each vertex constraint and each edge constraint between free neighbours, for all
/// times up to the last.
pub(super) fn at_most_one(alloc: Global, map: &Map) -> Result<Vec<Option<Constraint>>, Fail> {
    let mut all = Vec::new(alloc);
    all.push(None)?;
    for y in 0..map.height() {
        for x in 0..map.width() {
            if let Some(cell) = map.cell(x, y) {
                add_vertices(cell, &mut all)?;
                add_edges(map, (x, y), &mut all)?;
            }
        }
    }
    Ok(all)
}

/// Adds the vertex constraints on a cell.
fn add_vertices(cell: Cell, all: &mut Vec<Option<Constraint>>) -> Result<(), Fail> {
    for time in 0..=LAST_TIME {
        all.push(Some(Constraint::Vertex { cell, time }))?;
    }
    Ok(())
}

/// Adds the edge constraints from a place to its free neighbours; none, if it isn't free.
fn add_edges(map: &Map, place: (u32, u32), all: &mut Vec<Option<Constraint>>) -> Result<(), Fail> {
    let Some((_, from)) = moved(map, place, 0) else {
        return Ok(());
    };
    for direction in 1..5 {
        if let Some((_, to)) = moved(map, place, direction) {
            for time in 0..=LAST_TIME {
                all.push(Some(Constraint::Edge { from, to, time }))?;
            }
        }
    }
    Ok(())
}
