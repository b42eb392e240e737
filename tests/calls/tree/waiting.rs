use super::problem_of;
use crate::worked::{BAY, CHANGE, Worked};
use mapf_grid::NoMemory;
use mapf_plan::Conflict;
use mapf_tree::{Node, OpenList, root};
use std::alloc::Global;
use std::test::Fail;

#[test]
fn nothing_waits_at_first(rt: HostRuntime) -> Result<(), Fail> {
    let mut waiting = OpenList::new(rt.alloc());
    assert!(rt; waiting.is_empty());
    assert!(rt; waiting.take_least().is_none());
    assert!(rt; waiting.first(2).next().is_none());
    Ok(())
}

/// The root of the tree of these files.
fn root_of(alloc: Global, worked: &Worked) -> Result<Node, Fail> {
    let problem = problem_of(alloc, worked, 4)?;
    Ok(root(alloc, &problem)?.ok_or("no root")?)
}

/// Of two roots that cost the same, of two trees, the second takes the first one's place.
#[test]
fn the_second_of_one_key_waits(rt: HostRuntime) -> Result<(), Fail> {
    let meets = root_of(rt.alloc(), &BAY)?;
    let swaps = root_of(rt.alloc(), &CHANGE)?;
    assert_eq!(rt; meets.key(), swaps.key());
    let mut waiting = OpenList::new(rt.alloc());
    waiting.put(meets).map_err(|_node| NoMemory)?;
    waiting.put(swaps).map_err(|_node| NoMemory)?;
    let first = waiting.take_least().ok_or("no node")?;
    assert!(rt; matches!(first.conflict(), Some(Conflict::Swapping { .. })));
    assert!(rt; waiting.is_empty());
    Ok(())
}
