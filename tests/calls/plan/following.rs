use super::known::expect_known;
use mapf_grid::Cell;
use mapf_plan::{Conflict, Path, Plan, Rule};
use std::alloc::Global;
use std::process::Abort;
use std::test::Fail;

/// The plan over these cells, named by their numbers: three for each agent.
fn plan_of(rt: &impl Abort, alloc: Global, paths: &[[u32; 3]]) -> Result<Plan, Fail> {
    let mut plan = Vec::new(alloc);
    for cells in paths {
        let [start, middle, end] = *cells;
        let path = vec![in alloc; Cell::of(start), Cell::of(middle), Cell::of(end)]?;
        plan.push(Path::of(path))?;
    }
    assert!(rt; !plan.is_empty() && plan.len() < 100);
    Ok(Plan::of(plan))
}

/// The first conflicts of a plan: by the rule that forbids following, and by the classical one.
fn expect(
    rt: &impl Abort,
    alloc: Global,
    paths: &[[u32; 3]],
    wanted: Option<Conflict>,
    classical: Option<Conflict>,
) -> Result<(), Fail> {
    let plan = plan_of(rt, alloc, paths)?;
    assert_eq!(rt; plan.first_conflict_by(Rule::NoFollowing), wanted);
    assert_eq!(rt; plan.first_conflict_by(Rule::Classical), classical);
    assert_eq!(rt; plan.first_conflict(), classical);
    expect_known(rt, alloc, paths, Rule::NoFollowing, &wanted)?;
    expect_known(rt, alloc, paths, Rule::Classical, &classical)
}

/// The first conflict of a plan, by both rules.
fn expect_by_both(
    rt: &impl Abort,
    alloc: Global,
    paths: &[[u32; 3]],
    wanted: Option<Conflict>,
) -> Result<(), Fail> {
    let plan = plan_of(rt, alloc, paths)?;
    assert_eq!(rt; plan.first_conflict_by(Rule::NoFollowing), wanted);
    assert_eq!(rt; plan.first_conflict(), wanted);
    expect_known(rt, alloc, paths, Rule::NoFollowing, &wanted)?;
    expect_known(rt, alloc, paths, Rule::Classical, &wanted)
}

fn following(follower: usize, leader: usize, cell: u32, time: u32) -> Option<Conflict> {
    Some(Conflict::Following {
        follower,
        leader,
        cell: Cell::of(cell),
        time,
    })
}

fn vertex(first: usize, second: usize, cell: u32, time: u32) -> Option<Conflict> {
    Some(Conflict::Vertex {
        first,
        second,
        cell: Cell::of(cell),
        time,
    })
}

fn swapping(first: usize, second: usize, from: u32, to: u32, time: u32) -> Option<Conflict> {
    Some(Conflict::Swapping {
        first,
        second,
        from: Cell::of(from),
        to: Cell::of(to),
        time,
    })
}

/// A cell that is left between times 0 and 1 is entered at time 1, by the larger and by the smaller agent.
#[test]
fn either_agent_is_the_follower(rt: HostRuntime) -> Result<(), Fail> {
    let alloc = rt.alloc();
    let larger = following(1, 0, 1, 1);
    expect(&rt, alloc, &[[1, 4, 1], [0, 1, 2]], larger, None)?;
    let smaller = following(0, 1, 1, 1);
    expect(&rt, alloc, &[[0, 1, 2], [1, 4, 1]], smaller, None)?;
    let at_the_end = following(1, 0, 1, 2);
    expect(&rt, alloc, &[[1, 1, 4], [0, 0, 1]], at_the_end, None)
}

/// Agents that stay where they begin follow nobody, nor does one that goes on one step after the cell was left.
#[test]
fn nobody_follows(rt: HostRuntime) -> Result<(), Fail> {
    let alloc = rt.alloc();
    expect_by_both(&rt, alloc, &[[0, 0, 0], [1, 1, 1]], None)?;
    expect_by_both(&rt, alloc, &[[1, 4, 4], [0, 0, 1]], None)?;
    expect_by_both(&rt, alloc, &[[0, 1, 2]], None)
}

/// At one time two agents that meet or change places do that first; each of the latter follows the other.
#[test]
fn one_pair_at_one_time(rt: HostRuntime) -> Result<(), Fail> {
    let alloc = rt.alloc();
    let places = swapping(0, 1, 1, 0, 1);
    expect_by_both(&rt, alloc, &[[1, 0, 1], [0, 1, 2]], places)?;
    let start = vertex(0, 1, 1, 0);
    expect_by_both(&rt, alloc, &[[1, 0, 0], [1, 1, 1]], start)?;
    let meeting = vertex(0, 1, 1, 1);
    expect_by_both(&rt, alloc, &[[1, 1, 0], [0, 1, 1]], meeting)
}

/// At one time a vertex conflict and a swapping one of later agents come before a following one of earlier agents, but
/// a following one of an earlier time comes first.
#[test]
fn pairs_at_one_time(rt: HostRuntime) -> Result<(), Fail> {
    let alloc = rt.alloc();
    let met = vertex(0, 2, 2, 1);
    expect_by_both(&rt, alloc, &[[1, 2, 2], [0, 1, 1], [3, 2, 3]], met)?;
    let changed = swapping(2, 3, 5, 6, 1);
    let beside = [[1, 2, 2], [0, 1, 1], [5, 6, 6], [6, 5, 5]];
    expect_by_both(&rt, alloc, &beside, changed)?;
    let later = [[1, 2, 2], [0, 1, 1], [5, 5, 6], [6, 6, 5]];
    let earlier = following(1, 0, 1, 1);
    expect(&rt, alloc, &later, earlier, swapping(2, 3, 5, 6, 2))
}

/// Of rings that turn, the conflict of agents 0 and 1, whichever of them follows.
#[test]
fn rings_turn(rt: HostRuntime) -> Result<(), Fail> {
    let alloc = rt.alloc();
    let forward = following(0, 1, 1, 1);
    let four = [[0, 1, 1], [1, 3, 3], [3, 2, 2], [2, 0, 0]];
    expect(&rt, alloc, &four, forward, None)?;
    let backward = following(1, 0, 0, 1);
    let four = [[0, 2, 2], [1, 0, 0], [3, 1, 1], [2, 3, 3]];
    expect(&rt, alloc, &four, backward, None)
}
