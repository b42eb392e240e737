//! That a job is performed between the two calls of the gate, as the time tells that passes there.

use mapf_board::{AlwaysGrants, Gate};
use mapf_grid::instance_of;
use mapf_plan::Answer;
use mapf_solve::{MOST_SESSION_NODES, Pace, solve_paced};
use mapf_tree::Problem;
use std::alloc::{AllocError, Global};
use std::sync::atomic::{AtomicU64, Ordering};
use std::test::Fail;
use std::thread::Threads;
use std::time::{Clock, Instant};

/// The columns and rows of free cells that two agents cross from corner to corner. The search of such a path tries each cell.
const SIDE: usize = 256;

/// In nanoseconds, much less than such a search takes, and much more than nothing.
const LEAST: u64 = 1_000_000;

/// The first number of a side's job, where two root paths were jobs.
const FIRST: u64 = 2;

/// Notes the shortest time of a side's job.
#[derive(Drop)]
struct Timed<'a, R> {
    clock: &'a R,
    start: Instant,
    entered_at: AtomicU64,
    jobs: AtomicU64,
    shortest: AtomicU64,
}

impl<R: Clock> Timed<'_, R> {
    /// The time since the start, in nanoseconds.
    fn time(&self) -> u64 {
        match self.start.elapsed(self.clock) {
            Ok(passed) => passed.as_nanos() as u64,
            Err(_) => 0,
        }
    }
}

impl<R: Clock + Sync> Gate for Timed<'_, R> {
    fn enter(&self, _n: u64) {
        self.entered_at.store(self.time(), Ordering::SeqCst);
    }

    fn leave(&self, n: u64) {
        if n >= FIRST {
            let entered_at = self.entered_at.load(Ordering::SeqCst);
            let time = self.time().saturating_sub(entered_at);
            self.shortest.fetch_min(time, Ordering::SeqCst);
            self.jobs.fetch_add(1, Ordering::SeqCst);
        }
    }
}

/// The problem of the two agents.
fn crossing(alloc: Global) -> Result<Problem, Fail> {
    let row = ".".repeat(alloc, SIDE)?;
    let mut map = format!(in alloc; "type octile\nheight {SIDE}\nwidth {SIDE}\nmap\n")?;
    for _ in 0..SIDE {
        write!(map, "{row}\n")?;
    }
    let scen = b"version 1\n0 free.map 256 256 0 0 255 255 0\n0 free.map 256 256 255 255 0 0 0\n";
    let instance = instance_of(alloc, map.as_bytes(), scen, 2)?;
    Problem::new(alloc, instance, 10_000).map_err(|_| Fail::from(AllocError))
}

/// The worker takes no turn, so the coordinator performs each side's job.
#[test]
fn a_job_is_performed_between_enter_and_leave(rt: HostRuntime) -> Result<(), Fail> {
    let alloc = rt.alloc();
    let gate = Timed {
        clock: &rt,
        start: Instant::now(&rt)?,
        entered_at: AtomicU64::new(0),
        jobs: AtomicU64::new(0),
        shortest: AtomicU64::new(u64::MAX),
    };
    let pace = Pace {
        worker_turns: 0,
        session_nodes: MOST_SESSION_NODES,
    };
    let problem = crossing(alloc)?;
    let answer = solve_paced(&rt, alloc, &problem, 1, pace, &gate, &AlwaysGrants);
    assert!(rt; matches!(answer, Ok(Answer::Plan { .. })));
    assert!(rt; gate.jobs.load(Ordering::SeqCst) >= 2);
    let shortest = gate.shortest.load(Ordering::SeqCst);
    assert!(rt; shortest >= LEAST);
    Ok(())
}
