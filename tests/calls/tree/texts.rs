//! Names, paths and conflicts as text.

use mapf_low::Constraint;
use mapf_plan::{Conflict, Path};
use mapf_tree::Side;
use std::alloc::{AllocError, Global};
use std::test::Fail;

/// A node's name: a letter for each turn from the root.
pub(super) fn letters(alloc: Global, name: &[Side]) -> Result<String, AllocError> {
    let mut text = String::new(alloc);
    for side in name {
        text.push(match side {
            Side::Left => 'L',
            Side::Right => 'R',
        })?;
    }
    Ok(text)
}

/// Each path's cells by their numbers, and a semicolon behind each path.
pub(super) fn push_paths(text: &mut String, paths: &[Path]) -> Result<(), Fail> {
    for path in paths {
        push_path(text, path)?;
    }
    Ok(())
}

fn push_path(text: &mut String, path: &Path) -> Result<(), Fail> {
    for cell in path.cells() {
        write!(text, " {}", cell.number())?;
    }
    text.push(';')?;
    Ok(())
}

/// An agent, what it is forbidden, cells by their numbers, and its path from then on.
pub(super) fn push_change(
    text: &mut String,
    agent: usize,
    constraint: Constraint,
    path: &Path,
) -> Result<(), Fail> {
    match constraint {
        Constraint::Vertex { cell, time } => {
            write!(text, "agent {agent} not on {} at {time}:", cell.number())?
        }
        Constraint::Edge { from, to, time } => write!(
            text,
            "agent {agent} not from {} to {} at {time}:",
            from.number(),
            to.number()
        )?,
    }
    push_path(text, path)
}

/// The conflict's agents, its cells by their numbers, and its time.
pub(super) fn push_conflict(text: &mut String, conflict: Conflict) -> Result<(), Fail> {
    match conflict {
        Conflict::Vertex {
            first,
            second,
            cell,
            time,
        } => write!(
            text,
            " agents {first} and {second} on {} at {time}",
            cell.number()
        )?,
        Conflict::Swapping {
            first,
            second,
            from,
            to,
            time,
        } => write!(
            text,
            " agents {first} and {second} swap {} and {} at {time}",
            from.number(),
            to.number()
        )?,
        Conflict::Following {
            follower,
            leader,
            cell,
            time,
        } => write!(
            text,
            " agent {follower} follows {leader} on {} at {time}",
            cell.number()
        )?,
    }
    Ok(())
}
