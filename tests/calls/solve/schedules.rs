//! The same answers where workers leave at once, or are held up.

use super::answers::answered;
use crate::worked::{BAY, CANNOT_PASS, CHANGE, CROSSING, Worked};
use mapf_board::{AlwaysGrants, Gate};
use mapf_grid::instance_of;
use mapf_plan::{Answer, Path};
use mapf_solve::{Pace, solve_paced};
use mapf_tree::Problem;
use std::alloc::Global;
use std::sync::atomic::{AtomicU64, Ordering};
use std::thread::Threads;

/// Holds each job up, when it begins and when it ends.
#[derive(Drop)]
struct Slow {
    looks: AtomicU64,
}

impl Slow {
    fn hold_up(&self) {
        for _ in 0..10_000 {
            self.looks.fetch_add(1, Ordering::SeqCst);
        }
    }
}

impl Gate for Slow {
    fn enter(&self, _n: u64) {
        self.hold_up();
    }

    fn leave(&self, _n: u64) {
        self.hold_up();
    }
}

/// Whether the path has these cells.
fn has_cells(path: Option<&Path>, cells: &[u32]) -> bool {
    match path {
        Some(path) => {
            path.cells().len() == cells.len()
                && path
                    .cells()
                    .iter()
                    .zip(cells)
                    .all(|(cell, number)| cell.number() == *number)
        }
        None => false,
    }
}

/// Whether it is a plan of this cost and of these two paths.
pub(super) fn is_plan(answer: Option<Answer>, cost: u64, first: &[u32], second: &[u32]) -> bool {
    match answer {
        Some(Answer::Plan { plan, stated }) => {
            stated == cost
                && plan.paths().len() == 2
                && has_cells(plan.paths().first(), first)
                && has_cells(plan.paths().last(), second)
        }
        _ => false,
    }
}

/// Whether it is that no plan costs at most this bound.
pub(super) fn is_none(answer: Option<Answer>, limit: u32) -> bool {
    match answer {
        Some(Answer::None { bound }) => bound == limit,
        _ => false,
    }
}

/// What so many workers answer at this pace, each of whose jobs is held up.
fn paced<R: Threads + Sync>(
    rt: &R,
    alloc: Global,
    worked: &Worked,
    bound: u32,
    workers: usize,
    pace: Pace,
) -> Option<Answer> {
    let gate = Slow {
        looks: AtomicU64::new(0),
    };
    let instance = instance_of(alloc, worked.map, worked.scen, worked.agents).ok()?;
    let problem = Problem::new(alloc, instance, bound).ok()?;
    solve_paced(rt, alloc, &problem, workers, pace, &gate, &AlwaysGrants).ok()
}

/// Whether the worked problems of two agents have their answers at this pace.
fn answers_at<R: Threads + Sync>(
    rt: &R,
    alloc: Global,
    workers: usize,
    worker_turns: u64,
    session_nodes: u64,
) -> bool {
    let pace = Pace {
        worker_turns,
        session_nodes,
    };
    is_plan(
        paced(rt, alloc, &BAY, 4, workers, pace),
        4,
        &[1, 4, 1],
        &[0, 1, 2],
    ) && is_plan(
        paced(rt, alloc, &CHANGE, 4, workers, pace),
        4,
        &[0, 2, 3, 1],
        &[1, 0],
    ) && is_none(paced(rt, alloc, &CHANGE, 3, workers, pace), 3)
        && is_none(paced(rt, alloc, &CANNOT_PASS, 6, workers, pace), 6)
}

/// Whether they have their answers with workers of no turn and of one, and with sessions of one node and of two.
fn answers_at_each<R: Threads + Sync>(rt: &R, alloc: Global, workers: usize) -> bool {
    answers_at(rt, alloc, workers, 0, 1)
        && answers_at(rt, alloc, workers, 0, 2)
        && answers_at(rt, alloc, workers, 1, 1)
        && answers_at(rt, alloc, workers, 1, 2)
}

#[test]
fn the_answers_are_the_same_where_workers_leave_at_once(rt: HostRuntime) {
    assert!(rt; answers_at_each(&rt, rt.alloc(), 1));
    assert!(rt; answers_at_each(&rt, rt.alloc(), 2));
    assert!(rt; answers_at_each(&rt, rt.alloc(), 64));
}

/// Whether each of 20 runs with so many workers answers this text. (`tests/same-bytes` runs the program 200 times.)
fn answers_each_time<R: Threads + Sync>(
    rt: &R,
    alloc: Global,
    worked: &Worked,
    bound: u64,
    workers: u64,
    text: &[u8],
) -> bool {
    (0..20).all(|_run| match answered(rt, alloc, worked, bound, workers) {
        Ok(bytes) => bytes.as_slice() == text,
        Err(_) => false,
    })
}

#[test]
fn the_bytes_are_the_same_each_time(rt: HostRuntime) {
    let alloc = rt.alloc();
    for workers in [1, 2, 3, 4, 7, 64] {
        let bay = b"plan 2 4\n1,0 1,1 1,0\n0,0 1,0 2,0\n";
        let change = b"plan 2 4\n0,0 0,1 1,1 1,0\n1,0 0,0\n";
        let crossing = b"plan 2 5\n1,0 1,0 1,1 1,2\n0,1 1,1 2,1\n";
        assert!(rt; answers_each_time(&rt, alloc, &BAY, 4, workers, bay));
        assert!(rt; answers_each_time(&rt, alloc, &CHANGE, 4, workers, change));
        assert!(rt; answers_each_time(&rt, alloc, &CROSSING, 9, workers, crossing));
    }
}
