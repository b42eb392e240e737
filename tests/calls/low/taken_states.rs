use super::map_files::{LINE, PARTED, cell_at};
use super::single_constraints::set_of;
use mapf_grid::{Cell, Map};
use mapf_low::laws::taken;
use mapf_low::{Constraint, Distances};
use std::alloc::Global;
use std::process::Abort;
use std::test::Fail;

/// The states that the search between two columns of a map of one row takes, as columns and times.
fn taken_states(
    rt: &impl Abort,
    alloc: Global,
    file: &[u8],
    (from, to): (u32, u32),
    constraint: Option<Constraint>,
    bound: u32,
) -> Result<String, Fail> {
    let map = Map::read(alloc, file)?;
    let start = cell_at(&map, (from, 0))?;
    let goal = cell_at(&map, (to, 0))?;
    assert!(rt; map.is_free(start));
    assert!(rt; map.is_free(goal));
    assert!(rt; bound <= 1_000_000);
    let distances = Distances::to(alloc, &map, goal)?;
    let constraints = set_of(alloc, constraint)?;
    let mut text = String::new(alloc);
    for (cell, time) in taken(alloc, &map, &distances, start, goal, &constraints, bound)? {
        write!(&mut text, " {},{time}", cell.number())?;
    }
    Ok(text)
}

#[test]
fn takes_no_step_away_from_the_goal(rt: HostRuntime) -> Result<(), Fail> {
    let states = taken_states(&rt, rt.alloc(), LINE, (1, 2), None, 5)?;
    assert_eq!(rt; states.as_str(), " 1,0 2,1");
    Ok(())
}

/// That the last column is forbidden at time 1.
fn forbidden() -> Option<Constraint> {
    Some(Constraint::Vertex {
        cell: Cell::of(2),
        time: 1,
    })
}

#[test]
fn takes_the_next_class_where_the_first_has_no_end(rt: HostRuntime) -> Result<(), Fail> {
    let states = taken_states(&rt, rt.alloc(), LINE, (1, 2), forbidden(), 5)?;
    assert_eq!(rt; states.as_str(), " 1,0 1,1 2,2");
    Ok(())
}

#[test]
fn takes_nothing_where_the_goal_is_forbidden_at_the_bound(rt: HostRuntime) -> Result<(), Fail> {
    let states = taken_states(&rt, rt.alloc(), LINE, (1, 2), forbidden(), 1)?;
    assert_eq!(rt; states.as_str(), "");
    Ok(())
}

#[test]
fn takes_nothing_where_no_walk_leads(rt: HostRuntime) -> Result<(), Fail> {
    let states = taken_states(&rt, rt.alloc(), PARTED, (0, 2), None, 5)?;
    assert_eq!(rt; states.as_str(), "");
    Ok(())
}
