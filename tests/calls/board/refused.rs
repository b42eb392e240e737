// A job for which a worker is granted no memory.

use super::crew::{put_back, take_seat};
use super::squares::Squares;
use mapf_board::{Found, Left, Live, NoGate, Supply};
use std::test::Fail;

/// Grants no memory for any job.
#[derive(Clone, Copy, Drop)]
struct NeverGrants;

impl Supply for NeverGrants {
    fn grants(&self, _n: u64) -> bool {
        false
    }
}

#[test]
fn a_job_without_memory_comes_back_undone(rt: HostRuntime) -> Result<(), Fail> {
    let (live, mut owner, mut workers) = Live::<Squares>::new(rt.alloc(), 1, 1)?;
    let mut worker = take_seat(&live, &mut workers);
    assert!(rt; live.post(&mut owner, 0, 8).is_ok());
    let Ok(()) = live.claim(&mut worker, 0) else {
        panic!(rt; "no claim")
    };
    live.work_off(&Squares, &NoGate, &NeverGrants, &mut worker);
    let Ok(Left::Job(back)) = live.collect(&mut owner, 0) else {
        panic!(rt; "no job")
    };
    assert!(rt; back == 8);
    assert!(rt; live.withdraw(&mut owner, 0) == Err(Found::Free));
    put_back(&live, &mut workers, worker)?;
    Ok(())
}
