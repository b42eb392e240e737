// Two workers and an owner in threads move a thousand jobs, and each comes back once.

use super::crew::{put_back, take_seat};
use super::squares::{Squares, answer_in};
use mapf_board::{AlwaysGrants, Live, NoGate, Owner, WorkerSeat};
use std::test::Fail;
use std::thread::{Threads, join};

const JOBS: u32 = 1000;

/// More turns than any thread takes.
const TURNS: u64 = 1_000_000_000;

/// Goes round the slots until the flag is shut, and does each job that it can claim.
fn worker(live: &Live<Squares>, mut seat: WorkerSeat<Squares>) -> WorkerSeat<Squares> {
    for turn in 0..TURNS {
        if !live.is_open(&mut seat) {
            break;
        }
        if live.claim(&mut seat, (turn % 8) as usize).is_ok() {
            live.work_off(&Squares, &NoGate, &AlwaysGrants, &mut seat);
        }
    }
    seat
}

/// One more for the number that comes back with its square.
fn count_back(back: &mut Vec<u32>, answer: Option<(u32, u64)>) -> bool {
    let Some((job, square)) = answer else {
        return false;
    };
    if square != u64::from(job) * u64::from(job) {
        return false;
    }
    if let Some(times) = back.get_mut(job as usize) {
        *times = times.saturating_add(1);
    }
    true
}

/// Goes round the slots until all jobs came back, takes what is left, and posts the next job; then shuts the flag.
fn run_owner(
    live: &Live<Squares>,
    mut owner: Owner<Squares>,
    mut back: Vec<u32>,
) -> (Owner<Squares>, Vec<u32>) {
    let mut next = 0;
    let mut came = 0u32;
    for turn in 0..TURNS {
        let slot = (turn % 8) as usize;
        if let Ok(left) = live.collect(&mut owner, slot) {
            if count_back(&mut back, answer_in(left)) {
                came = came.saturating_add(1);
            }
        }
        if came == JOBS {
            break;
        }
        if next < JOBS && live.post(&mut owner, slot, next).is_ok() {
            next += 1;
        }
    }
    live.shut(&mut owner);
    (owner, back)
}

/// Two workers, each in a thread of its own.
fn run_workers<R: Threads + Sync>(
    rt: &R,
    live: &Live<Squares>,
    zero: WorkerSeat<Squares>,
    one: WorkerSeat<Squares>,
) -> (WorkerSeat<Squares>, WorkerSeat<Squares>) {
    join(rt, || worker(live, zero), || worker(live, one))
}

#[test]
fn a_thousand_jobs_come_back_once(rt: HostRuntime) -> Result<(), Fail> {
    let (live, owner, mut workers) = Live::<Squares>::new(rt.alloc(), 8, 2)?;
    let back = Vec::from_elem(rt.alloc(), 0, JOBS as usize)?;
    let one = take_seat(&live, &mut workers);
    let zero = take_seat(&live, &mut workers);
    let ((owner, back), (zero, one)) = join(
        &rt,
        || run_owner(&live, owner, back),
        || run_workers(&rt, &live, zero, one),
    );
    assert!(rt; back.len() == 1000);
    assert!(rt; back.iter().all(|times| *times == 1));
    put_back(&live, &mut workers, zero)?;
    put_back(&live, &mut workers, one)?;
    assert!(rt;
        live.close(rt.alloc(), owner, workers)
            .is_ok_and(|all| all.is_empty())
    );
    Ok(())
}
