//! Sessions that go on without workers, where these found too little to do.

use crate::worked::FACING;
use mapf_board::{AlwaysGrants, Gate};
use mapf_grid::instance_of;
use mapf_plan::Answer;
use mapf_solve::{Means, Pace, Watch, solve_watched};
use mapf_tree::Problem;
use std::alloc::Global;
use std::sync::atomic::{AtomicU64, Ordering};
use std::test::Fail;
use std::thread::Threads;

/// The nodes of a session: workers found too little to do where they worked out no child.
const SESSION_NODES: u64 = 4;

/// How many sessions in a row have jobs or have none, in turn, from the first on.
const IN_A_ROW: [u64; 9] = [1, 4, 1, 16, 1, 64, 1, 64, 1];

/// How many nodes all these take.
const TAKEN: u64 = 153 * SESSION_NODES;

/// Counts the jobs that are entered.
#[derive(Drop)]
struct Entries(AtomicU64);

impl Gate for Entries {
    fn enter(&self, _n: u64) {
        self.0.fetch_add(1, Ordering::SeqCst);
    }

    fn leave(&self, _n: u64) {}
}

/// Notes of each session, behind the root, whether a job was entered.
#[derive(Drop)]
struct Sessions<'a> {
    entries: &'a Entries,
    before: u64,
    had_jobs: Vec<bool>,
}

impl Watch for Sessions<'_> {
    fn nodes_expanded(&mut self, _nodes: u64, _least: u64) {
        let entries = self.entries.0.load(Ordering::SeqCst);
        let _ = self.had_jobs.push(entries > self.before);
        self.before = entries;
    }
}

/// Of the root and of each session, whether it had jobs, with a worker that takes no turn.
fn with_an_idle_worker<R: Threads + Sync>(rt: &R, alloc: Global) -> Option<Vec<bool>> {
    let instance = instance_of(alloc, FACING.map, FACING.scen, FACING.agents).ok()?;
    let problem = Problem::new(alloc, instance, 10_000).ok()?;
    let problem = problem.with_nodes(TAKEN);
    let entries = Entries(AtomicU64::new(0));
    let mut sessions = Sessions {
        entries: &entries,
        before: 0,
        had_jobs: Vec::new(alloc),
    };
    let means = Means {
        rt,
        alloc,
        workers: 1,
        pace: Pace {
            worker_turns: 0,
            session_nodes: SESSION_NODES,
        },
        gate: &entries,
        supply: &AlwaysGrants,
    };
    match solve_watched(&means, &problem, &mut sessions) {
        Ok(Answer::GaveUp { .. }) => Some(sessions.had_jobs),
        _ => None,
    }
}

#[test]
fn workers_come_back(rt: HostRuntime) -> Result<(), Fail> {
    let alloc = rt.alloc();
    let mut wanted = Vec::new(alloc);
    let mut has_jobs = true;
    for sessions in IN_A_ROW {
        for _session in 0..sessions {
            wanted.push(has_jobs)?;
        }
        has_jobs = !has_jobs;
    }
    let had = with_an_idle_worker(&rt, alloc);
    assert!(rt; had.is_some_and(|had| had[1..].starts_with(&wanted)));
    Ok(())
}
