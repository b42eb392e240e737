//! Workers that are refused memory: the answers are the same, and each job that is entered is left.

use super::counting::{Counts, MOST_LOOKS};
use super::schedules::{is_none, is_plan};
use crate::worked::{BAY, CHANGE, CROSSING, Worked};
use mapf_board::{Gate, NoGate, Supply};
use mapf_grid::instance_of;
use mapf_plan::Answer;
use mapf_solve::solve_with;
use mapf_tree::Problem;
use std::alloc::Global;
use std::sync::atomic::Ordering;
use std::thread::Threads;

/// Grants no memory.
struct GrantsNone;

impl Supply for GrantsNone {
    fn grants(&self, _n: u64) -> bool {
        false
    }
}

/// Grants memory for the jobs of odd numbers.
struct GrantsOdd;

impl Supply for GrantsOdd {
    fn grants(&self, n: u64) -> bool {
        n % 2 == 1
    }
}

/// What two workers answer who pass a gate, and are granted memory by a supply.
fn supplied<R: Threads + Sync, G: Gate, S: Supply>(
    rt: &R,
    alloc: Global,
    worked: &Worked,
    bound: u32,
    gate: &G,
    supply: &S,
) -> Option<Answer> {
    let instance = instance_of(alloc, worked.map, worked.scen, worked.agents).ok()?;
    let problem = Problem::new(alloc, instance, bound).ok()?;
    solve_with(rt, alloc, &problem, 2, gate, supply).ok()
}

/// Whether the worked problems of two agents have their answers with this supply.
fn answers_with<R: Threads + Sync, S: Supply>(rt: &R, alloc: Global, supply: &S) -> bool {
    is_plan(
        supplied(rt, alloc, &BAY, 4, &NoGate, supply),
        4,
        &[1, 4, 1],
        &[0, 1, 2],
    ) && is_plan(
        supplied(rt, alloc, &CHANGE, 4, &NoGate, supply),
        4,
        &[0, 2, 3, 1],
        &[1, 0],
    ) && is_none(supplied(rt, alloc, &CHANGE, 3, &NoGate, supply), 3)
        && is_plan(
            supplied(rt, alloc, &CROSSING, 9, &NoGate, supply),
            5,
            &[1, 1, 4, 7],
            &[3, 4, 5],
        )
}

#[test]
fn the_answers_are_the_same_where_no_worker_is_granted_memory(rt: HostRuntime) {
    assert!(rt; answers_with(&rt, rt.alloc(), &GrantsNone));
}

#[test]
fn the_answers_are_the_same_where_odd_jobs_are_granted_memory(rt: HostRuntime) {
    assert!(rt; answers_with(&rt, rt.alloc(), &GrantsOdd));
}

/// Whether the jobs of the two root paths and of the root's two sides are each entered once and left once with this supply.
fn leaves_each_once<R: Threads + Sync, S: Supply>(
    rt: &R,
    alloc: Global,
    gate: &Counts,
    supply: &S,
) -> bool {
    let answer = supplied(rt, alloc, &CROSSING, 9, gate, supply);
    is_plan(answer, 5, &[1, 1, 4, 7], &[3, 4, 5])
        && gate.is_each_once(4)
        && gate.impatient.load(Ordering::SeqCst) == 0
}

/// At the second gate the left side's job ends when the right side's is left, so that a worker does at least one of the two.
#[test]
fn each_job_is_left_also_where_it_was_refused(rt: HostRuntime) {
    let alloc = rt.alloc();
    let gate = Counts::new();
    assert!(rt; leaves_each_once(&rt, alloc, &gate, &GrantsNone));
    let gate = Counts::waiting(2, 3, MOST_LOOKS);
    assert!(rt; leaves_each_once(&rt, alloc, &gate, &GrantsNone));
    let gate = Counts::waiting(2, 3, MOST_LOOKS);
    assert!(rt; leaves_each_once(&rt, alloc, &gate, &GrantsOdd));
}
