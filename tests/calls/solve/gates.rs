//! Which jobs workers do, as a gate sees them, and that two of them work at one time.

use super::counting::{Counts, MOST_LOOKS};
use crate::worked::{CHANGE, CROSSING, Worked};
use mapf_board::AlwaysGrants;
use mapf_grid::instance_of;
use mapf_plan::{Answer, Rule};
use mapf_solve::{Ask, Pace, answer, solve, solve_paced};
use mapf_tree::Problem;
use std::alloc::Global;
use std::sync::atomic::Ordering;
use std::thread::Threads;

fn solved<R: Threads + Sync>(
    rt: &R,
    alloc: Global,
    worked: &Worked,
    bound: u32,
    workers: usize,
    gate: &Counts,
) -> Option<Answer> {
    let instance = instance_of(alloc, worked.map, worked.scen, worked.agents).ok()?;
    let problem = Problem::new(alloc, instance, bound).ok()?;
    solve(rt, alloc, &problem, workers, gate).ok()
}

/// The answer to the crossing, with so many workers.
fn answered<R: Threads + Sync>(
    rt: &R,
    alloc: Global,
    workers: u64,
    gate: &Counts,
) -> Option<Vec<u8>> {
    let ask = Ask {
        agents: 2,
        bound: 9,
        workers,
        nodes: None,
        rule: Rule::Classical,
    };
    answer(rt, alloc, CROSSING.map, CROSSING.scen, ask, gate).ok()
}

/// The text of the answer to the crossing.
const TEXT: &[u8] = b"plan 2 5\n1,0 1,0 1,1 1,2\n0,1 1,1 2,1\n";

#[test]
fn one_worker_does_each_root_path_and_each_side_once(rt: HostRuntime) {
    let gate = Counts::new();
    let answer = solved(&rt, rt.alloc(), &CROSSING, 9, 1, &gate);
    assert!(rt; matches!(answer, Some(Answer::Plan { stated: 5, .. })));
    assert!(rt; gate.is_each_once(4));
}

#[test]
fn one_worker_does_each_goal_root_path_and_side_once(rt: HostRuntime) {
    let gate = Counts::new();
    let text = answered(&rt, rt.alloc(), 1, &gate);
    assert!(rt; text.is_some_and(|bytes| bytes.as_slice() == TEXT));
    assert!(rt; gate.is_each_once(6));
}

#[test]
fn two_workers_do_each_goal_root_path_and_side_once(rt: HostRuntime) {
    let gate = Counts::new();
    let text = answered(&rt, rt.alloc(), 2, &gate);
    assert!(rt; text.is_some_and(|bytes| bytes.as_slice() == TEXT));
    assert!(rt; gate.is_each_once(6));
}

#[test]
fn two_workers_make_two_tables_at_one_time(rt: HostRuntime) {
    let gate = Counts::waiting(0, 1, MOST_LOOKS);
    let text = answered(&rt, rt.alloc(), 2, &gate);
    assert!(rt; text.is_some_and(|bytes| bytes.as_slice() == TEXT));
    assert!(rt; gate.is_each_once(6));
    assert_eq!(rt; gate.impatient.load(Ordering::SeqCst), 0);
}

/// Whether the left side is done while the right one is: the job of the left side ends when that of the right side has
/// ended, each of them passes the gate once, and the answer is the right one.
fn does_two_sides_at_one_time<R: Threads + Sync>(rt: &R, alloc: Global, workers: u64) -> bool {
    let gate = Counts::waiting(4, 5, MOST_LOOKS);
    let text = answered(rt, alloc, workers, &gate);
    text.is_some_and(|bytes| bytes.as_slice() == TEXT)
        && gate.is_each_once(6)
        && gate.impatient.load(Ordering::SeqCst) == 0
}

#[test]
fn one_worker_and_the_coordinator_do_two_sides_at_one_time(rt: HostRuntime) {
    assert!(rt; does_two_sides_at_one_time(&rt, rt.alloc(), 1));
}

#[test]
fn two_workers_do_two_sides_at_one_time(rt: HostRuntime) {
    assert!(rt; does_two_sides_at_one_time(&rt, rt.alloc(), 2));
}

/// Of a worker that takes no turn, in sessions of one node: a job that nobody did in one session is posted in the next again.
///
/// Two agents change places at a cost of at most 3, for which there is no plan: three nodes are taken, each of whose sides
/// has a set of constraints of its own, so with two root paths eight jobs are done. Those of the third node's sides come back
/// from the board of the second, and are posted as 8 and 9.
#[test]
fn a_job_that_a_closed_board_gives_back_is_posted_again(rt: HostRuntime) {
    let gate = Counts::new();
    let answer = paced_one_by_one(&rt, rt.alloc(), &gate);
    assert!(rt; matches!(answer, Some(Answer::None { bound: 3 })));
    assert_eq!(rt; gate.entries(), 8);
    assert_eq!(rt; gate.others.load(Ordering::SeqCst), 0);
}

/// A limit on nodes that is not reached: with one all sessions go by keys.
const UNREACHED: u64 = 1_000;

/// The answer to the change of places at a cost of at most 3, of sessions of one node with a worker that takes no turn.
fn paced_one_by_one<R: Threads + Sync>(rt: &R, alloc: Global, gate: &Counts) -> Option<Answer> {
    let pace = Pace {
        worker_turns: 0,
        session_nodes: 1,
    };
    let instance = instance_of(alloc, CHANGE.map, CHANGE.scen, CHANGE.agents).ok()?;
    let problem = Problem::new(alloc, instance, 3).ok()?.with_nodes(UNREACHED);
    solve_paced(rt, alloc, &problem, 1, pace, gate, &AlwaysGrants).ok()
}
