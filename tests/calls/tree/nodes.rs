//! The trees of two small problems, node by node: names, costs, paths and conflicts.

use super::problem_of;
use super::texts::{letters, push_change, push_conflict, push_paths};
use crate::worked::{BAY, CHANGE, CROSSING, RING};
use mapf_grid::NoMemory;
use mapf_tree::{Name, Node, Problem, Side, child, root};
use std::alloc::Global;
use std::process::Abort;
use std::test::Fail;

/// A line for each node, those on the left first: its name and cost, its paths, and its conflict.
const BAY_TREE: &str = " 2: 1; 0 1 2; agents 0 and 1 on 1 at 1
L 4: 1 0 1; 0 1 2; agents 0 and 1 swap 1 and 0 at 1
LL 4: 1 2 1; 0 1 2; agents 0 and 1 swap 2 and 1 at 2
LLL 4: 1 4 1; 0 1 2;
R 3: 1; 0 0 1 2; agents 0 and 1 on 1 at 2
RR 4: 1; 0 0 0 1 2; agents 0 and 1 on 1 at 3
";

const SQUARE_TREE: &str = " 2: 0 1; 1 0; agents 0 and 1 swap 0 and 1 at 1
L 3: 0 0 1; 1 0; agents 0 and 1 on 0 at 1
LL 4: 0 2 0 1; 1 0; agents 0 and 1 on 0 at 2
LLL 4: 0 2 3 1; 1 0;
LR 4: 0 0 1; 1 1 0; agents 0 and 1 swap 0 and 1 at 2
R 3: 0 1; 1 1 0; agents 0 and 1 on 1 at 1
RL 4: 0 0 1; 1 1 0; agents 0 and 1 swap 0 and 1 at 2
RR 4: 0 1; 1 3 1 0; agents 0 and 1 on 1 at 2
RRR 4: 0 1; 1 3 2 0;
";

/// Under a smaller bound the tree ends earlier.
const SQUARE_TREE_WITH_LESS: &str = " 2: 0 1; 1 0; agents 0 and 1 swap 0 and 1 at 1
L 3: 0 0 1; 1 0; agents 0 and 1 on 0 at 1
R 3: 0 1; 1 1 0; agents 0 and 1 on 1 at 1
";

/// Writes the line of a node.
fn write_node(rt: &impl Abort, alloc: Global, node: &Node, text: &mut String) -> Result<(), Fail> {
    let key = node.key();
    assert_eq!(rt; key.depth, key.name.len());
    assert_eq!(rt; node.copy()?.key(), key);
    let name = key.name.to_vec(alloc)?;
    write!(text, "{} {}:", letters(alloc, name.as_slice())?, key.cost)?;
    push_paths(text, node.plan(alloc)?.paths())?;
    if let Some(conflict) = node.conflict() {
        push_conflict(text, conflict)?;
    }
    text.push('\n')?;
    Ok(())
}

/// The child on this side; none also where the node has no conflict.
fn child_of(
    alloc: Global,
    problem: &Problem,
    parent: &Node,
    side: Side,
) -> Result<Option<Node>, NoMemory> {
    if parent.conflict().is_none() {
        return Ok(None);
    }
    child(alloc, problem, parent, side)
}

/// Writes the lines of a node and of those below it, if they are on no more than so many levels.
fn write_nodes(
    rt: &impl Abort,
    alloc: Global,
    problem: &Problem,
    node: &Node,
    levels: u8,
    text: &mut String,
) -> Result<(), Fail> {
    assert!(rt; levels > 0);
    write_node(rt, alloc, node, text)?;
    for side in [Side::Left, Side::Right] {
        if let Some(below) = child_of(alloc, problem, node, side)? {
            write_nodes(rt, alloc, problem, &below, levels - 1, text)?;
        }
    }
    Ok(())
}

/// The lines of the whole tree.
fn tree(rt: &impl Abort, alloc: Global, problem: &Problem) -> Result<String, Fail> {
    let mut text = String::new(alloc);
    let root = root(alloc, problem)?.ok_or("no root")?;
    write_nodes(rt, alloc, problem, &root, 9, &mut text)?;
    Ok(text)
}

#[test]
fn corridor_with_bay(rt: HostRuntime) -> Result<(), Fail> {
    let problem = problem_of(rt.alloc(), &BAY, 4)?;
    assert_eq!(rt; tree(&rt, rt.alloc(), &problem)?.as_str(), BAY_TREE);
    Ok(())
}

#[test]
fn square(rt: HostRuntime) -> Result<(), Fail> {
    let problem = problem_of(rt.alloc(), &CHANGE, 4)?;
    assert_eq!(rt; tree(&rt, rt.alloc(), &problem)?.as_str(), SQUARE_TREE);
    Ok(())
}

#[test]
fn square_with_less(rt: HostRuntime) -> Result<(), Fail> {
    let problem = problem_of(rt.alloc(), &CHANGE, 3)?;
    assert_eq!(rt;
        tree(&rt, rt.alloc(), &problem)?.as_str(),
        SQUARE_TREE_WITH_LESS
    );
    Ok(())
}

/// A line for each turn that leads to the left child's left child's left child.
const LEFT_CHANGES: &str = "agent 0 not on 1 at 1: 1 0 1;
agent 0 not from 1 to 0 at 1: 1 2 1;
agent 0 not from 2 to 1 at 2: 1 4 1;
";

/// The node so many left turns below the root.
fn left_node(alloc: Global, problem: &Problem, turns: u8) -> Result<Node, Fail> {
    let mut node = root(alloc, problem)?.ok_or("no root")?;
    for _ in 0..turns {
        node = child_of(alloc, problem, &node, Side::Left)?.ok_or("no child")?;
    }
    Ok(node)
}

#[test]
fn changes_on_the_left(rt: HostRuntime) -> Result<(), Fail> {
    let problem = problem_of(rt.alloc(), &BAY, 4)?;
    let node = left_node(rt.alloc(), &problem, 3)?;
    let mut text = String::new(rt.alloc());
    for turn in 0..3 {
        let Some((agent, constraint, path)) = node.change(turn) else {
            return Err(Fail::from("no change"));
        };
        push_change(&mut text, agent, constraint, path)?;
        text.push('\n')?;
    }
    assert_eq!(rt; text.as_str(), LEFT_CHANGES);
    assert!(rt; node.change(3).is_none());
    Ok(())
}

/// More turns than a name keeps in its number.
const SEVENTY_TURNS: &str =
    "LRLLRLRLLRLRLLRLRLLRLRLLRLRLLRLRLLRLRLLRLRLLRLRLLRLRLLRLRLLRLRLLRLRLLR";

/// The name that these letters spell.
fn name_of(alloc: Global, turns: &str) -> Result<Name, NoMemory> {
    let mut name = Name::root();
    for turn in turns.chars() {
        name = name.with(alloc, if turn == 'L' { Side::Left } else { Side::Right })?;
    }
    Ok(name)
}

#[test]
fn name_of_seventy_turns(rt: HostRuntime) -> Result<(), Fail> {
    let alloc = rt.alloc();
    let name = name_of(alloc, SEVENTY_TURNS)?;
    let turns = name.copy(alloc)?.to_vec(alloc)?;
    assert_eq!(rt; name.len(), 70);
    assert_eq!(rt; letters(alloc, turns.as_slice())?.as_str(), SEVENTY_TURNS);
    assert!(rt; name == name_of(alloc, SEVENTY_TURNS)?);
    assert!(rt; name < name.with(alloc, Side::Left)?);
    assert!(rt; name.with(alloc, Side::Left)? < name.with(alloc, Side::Right)?);
    Ok(())
}

/// Where no agent may follow another.
const CROSSING_TREE: &str = " 4: 1 4 7; 3 4 5; agents 0 and 1 on 4 at 1
L 5: 1 1 4 7; 3 4 5; agent 0 follows 1 on 4 at 2
LL 6: 1 0 1 4 7; 3 4 5;
LR 6: 1 1 4 7; 3 3 4 5; agents 0 and 1 on 4 at 2
R 5: 1 4 7; 3 3 4 5; agent 1 follows 0 on 4 at 2
RL 6: 1 1 4 7; 3 3 4 5; agents 0 and 1 on 4 at 2
RR 6: 1 4 7; 3 0 1 2 5;
";

/// The right child would forbid agent 1 its start.
const RING_TREE: &str = " 4: 0 1; 1 3; 3 2; 2 0; agent 0 follows 1 on 1 at 1
L 5: 0 0 1; 1 3; 3 2; 2 0; agents 0 and 3 on 0 at 1
";

#[test]
fn crossing_without_following(rt: HostRuntime) -> Result<(), Fail> {
    let problem = problem_of(rt.alloc(), &CROSSING, 6)?.forbid_following();
    assert_eq!(rt; tree(&rt, rt.alloc(), &problem)?.as_str(), CROSSING_TREE);
    Ok(())
}

#[test]
fn ring_without_following(rt: HostRuntime) -> Result<(), Fail> {
    let problem = problem_of(rt.alloc(), &RING, 5)?.forbid_following();
    assert_eq!(rt; tree(&rt, rt.alloc(), &problem)?.as_str(), RING_TREE);
    Ok(())
}
