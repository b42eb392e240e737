//! What searches of small trees find.

use super::problem_of;
use super::texts::{letters, push_paths};
use crate::worked::{ALONG, BAY, CANNOT_PASS, CHANGE, CROSSING, RING, Worked};
use mapf_plan::Answer;
use mapf_solve::solve_by_bounds;
use mapf_tree::{OwnPaths, Problem, Progress, Search, solve_alone};
use std::alloc::Global;
use std::process::Abort;
use std::test::Fail;

/// Writes the cost and the paths of a plan, or the bound where there is none.
fn push_answer(text: &mut String, answer: &Answer) -> Result<(), Fail> {
    match answer {
        Answer::Plan { plan, stated } => {
            write!(text, "plan {stated}:")?;
            push_paths(text, plan.paths())?;
        }
        Answer::None { bound } => write!(text, "none {bound}")?,
        Answer::GaveUp { nodes, least } => write!(text, "gave up {nodes} {least}")?,
    }
    Ok(())
}

/// The search in the tree of this problem finds this, by keys alone and by bounds.
fn expect_answer(
    rt: &impl Abort,
    alloc: Global,
    problem: &Problem,
    text: &str,
) -> Result<(), Fail> {
    let mut by_keys = String::new(alloc);
    push_answer(&mut by_keys, &solve_alone(alloc, problem)?)?;
    assert_eq!(rt; by_keys.as_str(), text);
    let mut by_bounds = String::new(alloc);
    push_answer(&mut by_bounds, &solve_by_bounds(alloc, problem)?)?;
    assert_eq!(rt; by_bounds.as_str(), text);
    Ok(())
}

/// The search in the tree of these files finds this.
fn expect(
    rt: &impl Abort,
    alloc: Global,
    worked: &Worked,
    bound: u32,
    text: &str,
) -> Result<(), Fail> {
    expect_answer(rt, alloc, &problem_of(alloc, worked, bound)?, text)
}

#[test]
fn leaves_its_goal_for_another(rt: HostRuntime) -> Result<(), Fail> {
    expect(&rt, rt.alloc(), &BAY, 4, "plan 4: 1 4 1; 0 1 2;")
}

#[test]
fn cannot_pass_in_a_corridor(rt: HostRuntime) -> Result<(), Fail> {
    expect(&rt, rt.alloc(), &CANNOT_PASS, 6, "none 6")
}

#[test]
fn four_turn_in_a_ring(rt: HostRuntime) -> Result<(), Fail> {
    expect(&rt, rt.alloc(), &RING, 4, "plan 4: 0 1; 1 3; 3 2; 2 0;")
}

#[test]
fn two_change_places(rt: HostRuntime) -> Result<(), Fail> {
    expect(&rt, rt.alloc(), &CHANGE, 3, "none 3")?;
    expect(&rt, rt.alloc(), &CHANGE, 4, "plan 4: 0 2 3 1; 1 0;")
}

#[test]
fn the_left_of_two_solutions(rt: HostRuntime) -> Result<(), Fail> {
    expect(&rt, rt.alloc(), &CROSSING, 9, "plan 5: 1 1 4 7; 3 4 5;")
}

/// The search in the tree of these files finds this where it may take so many nodes.
fn expect_within(
    rt: &impl Abort,
    alloc: Global,
    worked: &Worked,
    bound: u32,
    nodes: u64,
    text: &str,
) -> Result<(), Fail> {
    let problem = problem_of(alloc, worked, bound)?.with_nodes(nodes);
    expect_answer(rt, alloc, &problem, text)
}

/// The sixth node in key order is the first solution.
#[test]
fn gives_up_before_the_sixth_node(rt: HostRuntime) -> Result<(), Fail> {
    let alloc = rt.alloc();
    expect_within(&rt, alloc, &BAY, 4, 6, "plan 4: 1 4 1; 0 1 2;")?;
    expect_within(&rt, alloc, &BAY, 4, 5, "gave up 5 4")?;
    expect_within(&rt, alloc, &BAY, 4, 2, "gave up 2 4")?;
    expect_within(&rt, alloc, &BAY, 4, 1, "gave up 1 3")
}

/// The tree has three nodes and no solution.
#[test]
fn gives_up_only_where_a_node_waits(rt: HostRuntime) -> Result<(), Fail> {
    expect_within(&rt, rt.alloc(), &CHANGE, 3, 3, "none 3")?;
    expect_within(&rt, rt.alloc(), &CHANGE, 3, 2, "gave up 2 3")
}

/// The tree is empty.
#[test]
fn nothing_to_take(rt: HostRuntime) -> Result<(), Fail> {
    expect_within(&rt, rt.alloc(), &ALONG, 1, 1, "none 1")
}

/// The turn that gives up takes no node.
#[test]
fn the_turn_after_the_limit_takes_no_node(rt: HostRuntime) -> Result<(), Fail> {
    let problem = problem_of(rt.alloc(), &BAY, 4)?.with_nodes(2);
    assert_eq!(rt;
        taken(rt.alloc(), &problem, 3)?.as_str(),
        ", R, R. gave up 2 4"
    );
    Ok(())
}

/// The nodes that so many turns take, a full stop where the search is finished, and its answer.
fn taken(alloc: Global, problem: &Problem, turns: u8) -> Result<String, Fail> {
    let mut search = Search::new(alloc, problem)?;
    let mut children = OwnPaths::new(alloc, problem)?;
    let mut text = String::new(alloc);
    for _ in 0..turns {
        let progress = search.go(&mut children, 1)?;
        let last = search.last().ok_or("no node was taken")?;
        let name = last.name.to_vec(alloc)?;
        text.push_str(letters(alloc, name.as_slice())?.as_str())?;
        text.push_str(if progress == Progress::Finished {
            ". "
        } else {
            ", "
        })?;
    }
    push_answer(&mut text, search.answer().ok_or("no answer")?)?;
    Ok(text)
}

/// Turn by turn the search takes the nodes in the order of their keys.
#[test]
fn six_turns_of_the_corridor_with_bay(rt: HostRuntime) -> Result<(), Fail> {
    let problem = problem_of(rt.alloc(), &BAY, 4)?;
    assert_eq!(rt;
        taken(rt.alloc(), &problem, 6)?.as_str(),
        ", R, L, LL, RR, LLL. plan 4: 1 4 1; 0 1 2;"
    );
    Ok(())
}

/// The fourth turn finds no node.
#[test]
fn three_turns_without_a_solution(rt: HostRuntime) -> Result<(), Fail> {
    let problem = problem_of(rt.alloc(), &CHANGE, 3)?;
    assert_eq!(rt;
        taken(rt.alloc(), &problem, 4)?.as_str(),
        ", L, R, R. none 3"
    );
    Ok(())
}

#[test]
fn no_turn_takes_no_node(rt: HostRuntime) -> Result<(), Fail> {
    let problem = problem_of(rt.alloc(), &CHANGE, 3)?;
    let mut search = Search::new(rt.alloc(), &problem)?;
    let progress = search.go(&mut OwnPaths::new(rt.alloc(), &problem)?, 0)?;
    assert!(rt; progress == Progress::Working);
    assert!(rt; search.last().is_none());
    Ok(())
}
