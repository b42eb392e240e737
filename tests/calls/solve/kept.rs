//! What a worker found in one session, and the coordinator did not use there, is used in the next.

use super::counting::{Counts, MOST_LOOKS};
use super::schedules::is_none;
use crate::worked::CHANGE;
use mapf_board::{Gate, Supply};
use mapf_grid::instance_of;
use mapf_plan::Answer;
use mapf_solve::{Pace, solve_paced};
use mapf_tree::Problem;
use std::alloc::Global;
use std::sync::atomic::{AtomicU64, Ordering};
use std::thread::Threads;

/// The jobs of the second node's sides, and that of the third node's left side.
const LEFT: u64 = 4;

const RIGHT: u64 = 5;

const NEXT: u64 = 6;

/// Sees to it that the coordinator does one side of the second node, and goes on from there only when its worker has begun the
/// left side of the third.
///
/// Only a worker asks for memory: so a job that ends, and was not the last one asked for, is the coordinator's.
#[derive(Drop)]
struct Held {
    counts: Counts,
    asked: AtomicU64,
}

impl Held {
    fn wait_for_entry(&self, n: u64) {
        for _ in 0..MOST_LOOKS {
            if self.counts.entries_of(n) > 0 {
                return;
            }
        }
        self.counts.impatient.fetch_add(1, Ordering::SeqCst);
    }
}

impl Gate for Held {
    fn enter(&self, n: u64) {
        self.counts.enter(n);
    }

    fn leave(&self, n: u64) {
        if (n == LEFT || n == RIGHT) && self.asked.load(Ordering::SeqCst) != n {
            self.wait_for_entry(NEXT);
        }
        self.counts.leave(n);
    }
}

impl Supply for Held {
    fn grants(&self, n: u64) -> bool {
        self.asked.store(n, Ordering::SeqCst);
        if n == LEFT {
            self.wait_for_entry(RIGHT);
        }
        true
    }
}

/// A limit on nodes that is not reached: with one all sessions go by keys.
const UNREACHED: u64 = 1_000;

/// The answer to the change of places at a cost of at most 3, of sessions of one node with a worker that goes along three slots.
fn changed<R: Threads + Sync>(rt: &R, alloc: Global, held: &Held) -> Option<Answer> {
    let pace = Pace {
        worker_turns: 3,
        session_nodes: 1,
    };
    let instance = instance_of(alloc, CHANGE.map, CHANGE.scen, CHANGE.agents).ok()?;
    let problem = Problem::new(alloc, instance, 3).ok()?.with_nodes(UNREACHED);
    solve_paced(rt, alloc, &problem, 1, pace, held, held).ok()
}

/// Three nodes are taken, each in a session of its own, and two sides of each are asked for. In the second session the jobs of the
/// third node's sides are 6 and 7: the worker does 6 and never comes to 7. So the third session uses the child of 6, and posts
/// only the right side again, as 8.
#[test]
fn a_child_that_was_not_collected_is_used_in_the_next_session(rt: HostRuntime) {
    let held = Held {
        counts: Counts::new(),
        asked: AtomicU64::new(0),
    };
    let answer = changed(&rt, rt.alloc(), &held);
    assert!(rt; is_none(answer, 3));
    assert_eq!(rt; held.counts.impatient.load(Ordering::SeqCst), 0);
    assert_eq!(rt; held.counts.entries_of(6), 1);
    assert_eq!(rt; held.counts.entries_of(7), 0);
    assert_eq!(rt; held.counts.entries_of(8), 1);
    assert_eq!(rt; held.counts.entries(), 8);
    assert_eq!(rt; held.counts.others.load(Ordering::SeqCst), 0);
}
