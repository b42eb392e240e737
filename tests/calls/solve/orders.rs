//! What is posted, as the numbers of the jobs tell where the coordinator does all of them.

use crate::worked::{CHANGE, FACING, Worked};
use mapf_board::{AlwaysGrants, Gate};
use mapf_grid::instance_of;
use mapf_plan::Answer;
use mapf_solve::{Pace, solve_paced};
use mapf_tree::Problem;
use std::alloc::{AllocError, Global};
use std::sync::atomic::{AtomicU64, Ordering};
use std::test::Fail;
use std::thread::Threads;

/// The first number of a side's job, where two root paths were jobs.
const FIRST: u64 = 2;

/// Compares the numbers of the sides' jobs that are entered with these.
#[derive(Drop)]
struct InOrder<'a> {
    numbers: &'a [u64],
    entered: AtomicU64,
    others: AtomicU64,
}

impl<'a> InOrder<'a> {
    fn new(numbers: &'a [u64]) -> InOrder<'a> {
        InOrder {
            numbers,
            entered: AtomicU64::new(0),
            others: AtomicU64::new(0),
        }
    }

    /// Whether these jobs were entered first, in this order.
    fn are_first(&self) -> bool {
        self.others.load(Ordering::SeqCst) == 0 && self.entered() >= self.numbers.len() as u64
    }

    /// How many jobs were entered.
    fn entered(&self) -> u64 {
        self.entered.load(Ordering::SeqCst)
    }
}

impl Gate for InOrder<'_> {
    fn enter(&self, n: u64) {
        if n < FIRST {
            return;
        }
        let place = self.entered.fetch_add(1, Ordering::SeqCst);
        if let Some(number) = self.numbers.get(place as usize) {
            if *number != n {
                self.others.fetch_add(1, Ordering::SeqCst);
            }
        }
    }

    fn leave(&self, _n: u64) {}
}

/// The problem of these files.
fn problem_of(alloc: Global, worked: &Worked, bound: u32) -> Option<Problem> {
    let instance = instance_of(alloc, worked.map, worked.scen, worked.agents).ok()?;
    Problem::new(alloc, instance, bound).ok()
}

/// The answer in sessions of so many nodes, where workers leave at once, so that the coordinator does each side's job at its
/// node's turn.
fn solved_alone<R: Threads + Sync>(
    rt: &R,
    alloc: Global,
    problem: &Problem,
    workers: usize,
    session_nodes: u64,
    gate: &InOrder<'_>,
) -> Option<Answer> {
    let pace = Pace {
        worker_turns: 0,
        session_nodes,
    };
    solve_paced(rt, alloc, problem, workers, pace, gate, &AlwaysGrants).ok()
}

/// A limit on nodes that is not reached: with one all sessions go by keys.
const UNREACHED: u64 = 1_000;

/// Whether the sides' jobs of the change of places have these numbers at their nodes' turns, with so many workers in sessions of
/// so many nodes.
fn changes_in_order<R: Threads + Sync>(
    rt: &R,
    alloc: Global,
    workers: usize,
    session_nodes: u64,
    numbers: &[u64],
) -> bool {
    let Some(whole) = problem_of(alloc, &CHANGE, 4) else {
        return false;
    };
    let problem = whole.with_nodes(UNREACHED);
    let gate = InOrder::new(numbers);
    let answer = solved_alone(rt, alloc, &problem, workers, session_nodes, &gate);
    matches!(answer, Some(Answer::Plan { stated: 4, .. }))
        && gate.are_first()
        && gate.entered() == numbers.len() as u64
}

/// Seven nodes with a conflict are taken, and then the solution. A session's end is seen by this: what was posted and not
/// done is dropped, and posted again in the next session under new numbers.
#[test]
fn a_session_ends_after_its_nodes(rt: HostRuntime) {
    let alloc = rt.alloc();
    let of_one = [2, 3, 4, 5, 8, 9, 14, 15, 22, 23, 28, 29, 32, 33];
    let of_two = [2, 3, 4, 5, 8, 9, 10, 11, 18, 19, 20, 21, 24, 25];
    let of_three = [2, 3, 4, 5, 6, 7, 12, 13, 14, 15, 16, 17, 20, 21];
    let of_more = [2, 3, 4, 5, 6, 7, 8, 9, 10, 11, 12, 13, 14, 15];
    assert!(rt; changes_in_order(&rt, alloc, 1, 1, &of_one));
    assert!(rt; changes_in_order(&rt, alloc, 1, 2, &of_two));
    assert!(rt; changes_in_order(&rt, alloc, 1, 3, &of_three));
    assert!(rt; changes_in_order(&rt, alloc, 1, 4096, &of_more));
}

/// Two workers: the nodes that wait are looked at before each second one. So nothing is posted for the second; its children have
/// their sides posted together with those of the third, before that is taken, and the third's children before the fifth.
#[test]
fn two_workers_have_a_look_for_each_second_node(rt: HostRuntime) {
    let numbers = [2, 3, 4, 5, 6, 7, 8, 9, 10, 11, 12, 13];
    assert!(rt; changes_in_order(&rt, rt.alloc(), 2, 4096, &numbers));
}

/// How many nodes are taken where two agents face each other.
const TAKEN: u64 = 16;

/// The numbers of the jobs that are done in sessions of one node: one node waits in the first, and one more in each that
/// follows. Of these so many at most have their sides posted, and the sides of the least are done.
fn numbers_in_sessions_of_one(alloc: Global, most: u64) -> Result<Vec<u64>, AllocError> {
    let mut numbers = Vec::new(alloc);
    let mut next = FIRST;
    for waiting in 1..=TAKEN {
        numbers.push(next)?;
        numbers.push(next.saturating_add(1))?;
        next = next.saturating_add(waiting.min(most).saturating_mul(2));
    }
    Ok(numbers)
}

/// Whether so many workers have the sides of so many waiting nodes posted, and no more, left first.
fn posts_sides_of<R: Threads + Sync>(
    rt: &R,
    alloc: Global,
    workers: usize,
    most: u64,
) -> Result<bool, AllocError> {
    let Some(problem) = problem_of(alloc, &FACING, 14) else {
        return Ok(false);
    };
    let problem = problem.with_nodes(TAKEN);
    let numbers = numbers_in_sessions_of_one(alloc, most)?;
    let gate = InOrder::new(numbers.as_slice());
    let answer = solved_alone(rt, alloc, &problem, workers, 1, &gate);
    Ok(matches!(answer, Some(Answer::GaveUp { nodes: TAKEN, .. })) && gate.are_first())
}

/// Two agents face each other in a corridor: each of the first nodes has a conflict and two children, so one node more waits
/// in each session of one node. From a session to the next the numbers rise by as many jobs as were posted.
#[test]
fn four_waiting_nodes_for_each_worker_have_their_sides_posted(rt: HostRuntime) -> Result<(), Fail> {
    let alloc = rt.alloc();
    assert!(rt; posts_sides_of(&rt, alloc, 1, 4)?);
    assert!(rt; posts_sides_of(&rt, alloc, 2, 8)?);
    assert!(rt; posts_sides_of(&rt, alloc, 3, 12)?);
    Ok(())
}
