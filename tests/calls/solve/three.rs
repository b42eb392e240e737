//! That three workers work at one time, in a round and in a session.

use crate::worked::RING;
use mapf_board::{Gate, Supply};
use mapf_grid::instance_of;
use mapf_plan::{Answer, Rule};
use mapf_solve::{Ask, MOST_SESSION_NODES, MOST_WORKER_TURNS, Pace, answer, solve_paced};
use mapf_tree::Problem;
use std::alloc::{AllocError, Global};
use std::sync::atomic::{AtomicU64, Ordering};
use std::thread::Threads;

/// How long a job waits for two others at most, in looks.
const MOST_LOOKS: u64 = 100_000_000;

/// How long the coordinator waits for the three at each job that it does itself, in looks.
const SOME_LOOKS: u64 = 100_000;

/// The agents on the square. So many jobs are for their paths, before those of the session.
const CROWD: u64 = 20;

/// Free cells, on which they are crowded.
const SQUARE: &[u8] = b"type octile\nheight 8\nwidth 8\nmap\n........\n........\n........\n........\n........\n........\n........\n........\n";

/// Jobs wait for each other here: each of three goes on only when all three have come.
#[derive(Drop)]
struct Meeting {
    come: AtomicU64,
    impatient: AtomicU64,
}

impl Meeting {
    fn new() -> Meeting {
        Meeting {
            come: AtomicU64::new(0),
            impatient: AtomicU64::new(0),
        }
    }

    /// Whether so many have come, or someone has lost patience, after so many looks at most.
    fn have_come(&self, number: u64, looks: u64) -> bool {
        (0..looks).any(|_look| {
            self.come.load(Ordering::SeqCst) >= number || self.impatient.load(Ordering::SeqCst) > 0
        })
    }

    /// One comes, and waits where it is of the first so many threes.
    fn come(&self, threes: u64) {
        let three = self.come.fetch_add(1, Ordering::SeqCst) / 3;
        if three < threes && !self.have_come(three * 3 + 3, MOST_LOOKS) {
            self.impatient.fetch_add(1, Ordering::SeqCst);
        }
    }

    fn were_patient(&self) -> bool {
        self.impatient.load(Ordering::SeqCst) == 0
    }
}

/// Three tables are made at one time, then three paths.
#[derive(Drop)]
struct InRounds(Meeting);

impl Gate for InRounds {
    fn enter(&self, _n: u64) {
        self.0.come(2);
    }

    fn leave(&self, _n: u64) {}
}

/// Three children are worked out at one time by workers, who alone ask for memory.
#[derive(Drop)]
struct InSession(Meeting);

impl Supply for InSession {
    fn grants(&self, n: u64) -> bool {
        if n >= CROWD {
            self.0.come(1);
        }
        true
    }
}

impl Gate for InSession {
    fn enter(&self, _n: u64) {}

    fn leave(&self, n: u64) {
        if n >= CROWD {
            let _came = self.0.have_come(3, SOME_LOOKS);
        }
    }
}

#[test]
fn three_workers_in_a_round(rt: HostRuntime) {
    let gate = InRounds(Meeting::new());
    let ask = Ask {
        agents: 3,
        bound: 3,
        workers: 3,
        nodes: None,
        rule: Rule::Classical,
    };
    let text = answer(&rt, rt.alloc(), RING.map, RING.scen, ask, &gate);
    let wanted = b"plan 3 3\n0,0 1,0\n1,0 1,1\n1,1 0,1\n";
    assert!(rt; text.is_ok_and(|bytes| bytes.as_slice() == wanted.as_slice()));
    assert!(rt; gate.0.were_patient());
    assert_eq!(rt; gate.0.come.load(Ordering::SeqCst), 6);
}

/// A scenario of the agents on the square, whose starts and goals lie scattered.
fn crowd(alloc: Global) -> Result<String, AllocError> {
    let mut text = format!(in alloc; "version 1\n")?;
    for i in 0..CROWD {
        let start = (97 * i + 5) % 64;
        let goal = (61 * i + 33) % 64;
        write!(text, "0 square.map 8 8 {} {} ", start % 8, start / 8)?;
        write!(text, "{} {} 0\n", goal % 8, goal / 8)?;
    }
    Ok(text)
}

/// What three workers answer to the crowd, at a thousand nodes.
fn given_up<R: Threads + Sync>(rt: &R, alloc: Global, met: &InSession) -> Option<Answer> {
    let pace = Pace {
        worker_turns: MOST_WORKER_TURNS,
        session_nodes: MOST_SESSION_NODES,
    };
    let scen = crowd(alloc).ok()?;
    let instance = instance_of(alloc, SQUARE, scen.as_bytes(), CROWD).ok()?;
    let problem = Problem::new(alloc, instance, 1000).ok()?.with_nodes(1000);
    solve_paced(rt, alloc, &problem, 3, pace, met, met).ok()
}

#[test]
fn three_workers_in_a_session(rt: HostRuntime) {
    let met = InSession(Meeting::new());
    let answer = given_up(&rt, rt.alloc(), &met);
    assert!(rt; matches!(answer, Some(Answer::GaveUp { nodes: 1000, .. })));
    assert!(rt; met.0.were_patient());
    assert!(rt; met.0.come.load(Ordering::SeqCst) >= 3);
}
