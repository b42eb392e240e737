use super::crew::{put_back, take_seat};
use super::squares::{Squares, answer_in};
use mapf_board::{AlwaysGrants, Found, Left, Live, NoGate};
use std::test::Fail;

#[test]
fn one_slot_is_answered_and_two_are_left(rt: HostRuntime) -> Result<(), Fail> {
    let (live, mut owner, mut workers) = Live::<Squares>::new(rt.alloc(), 3, 2)?;
    let mut one = take_seat(&live, &mut workers);
    let mut zero = take_seat(&live, &mut workers);
    assert!(rt; live.post(&mut owner, 0, 5).is_ok());
    assert!(rt; live.post(&mut owner, 1, 6).is_ok());
    assert!(rt; live.post(&mut owner, 2, 7).is_ok());
    let Ok(()) = live.claim(&mut zero, 1) else {
        panic!(rt; "no claim")
    };
    live.work_off(&Squares, &NoGate, &AlwaysGrants, &mut zero);
    assert!(rt; live.claim(&mut one, 1) == Err(Found::Done));
    let Ok(left) = live.collect(&mut owner, 1) else {
        panic!(rt; "nothing is left")
    };
    assert!(rt; answer_in(left) == Some((6, 36)));
    assert!(rt; live.collect(&mut owner, 1).err() == Some(Found::Free));
    assert!(rt; live.claim(&mut one, 1) == Err(Found::Free));
    assert!(rt; live.post(&mut owner, 0, 9) == Err((9, Found::Posted)));
    put_back(&live, &mut workers, zero)?;
    put_back(&live, &mut workers, one)?;
    let Ok(all) = live.close(rt.alloc(), owner, workers) else {
        panic!(rt; "no memory")
    };
    assert!(rt; all.len() == 2);
    let mut jobs = Vec::new(rt.alloc());
    for (slot, left) in all {
        if let Left::Job(job) = left {
            jobs.push((slot, job))?;
        }
    }
    assert!(rt; jobs.as_slice() == [(0, 5), (2, 7)].as_slice());
    Ok(())
}

#[test]
fn a_job_comes_back_by_its_worker(rt: HostRuntime) -> Result<(), Fail> {
    let (live, mut owner, mut workers) = Live::<Squares>::new(rt.alloc(), 1, 1)?;
    let mut worker = take_seat(&live, &mut workers);
    assert!(rt; live.post(&mut owner, 0, 8).is_ok());
    let Ok(()) = live.claim(&mut worker, 0) else {
        panic!(rt; "no claim")
    };
    assert!(rt; live.withdraw(&mut owner, 0) == Err(Found::Claimed(0)));
    assert!(rt; live.collect(&mut owner, 0).err() == Some(Found::Claimed(0)));
    let job = live.job_of(&mut worker);
    live.finish(&mut worker, Left::Job(job));
    assert!(rt; live.withdraw(&mut owner, 0) == Err(Found::Done));
    let Ok(Left::Job(back)) = live.collect(&mut owner, 0) else {
        panic!(rt; "no job")
    };
    assert!(rt; back == 8);
    assert!(rt; live.withdraw(&mut owner, 0) == Err(Found::Free));
    Ok(())
}

#[test]
fn what_is_posted_can_be_withdrawn(rt: HostRuntime) -> Result<(), Fail> {
    let (live, mut owner, mut workers) = Live::<Squares>::new(rt.alloc(), 2, 1)?;
    let mut worker = take_seat(&live, &mut workers);
    assert!(rt; live.post(&mut owner, 1, 4).is_ok());
    assert!(rt; live.collect(&mut owner, 1).err() == Some(Found::Posted));
    assert!(rt; live.withdraw(&mut owner, 1) == Ok(4));
    assert!(rt; live.claim(&mut worker, 1) == Err(Found::Free));
    assert!(rt; live.post(&mut owner, 1, 3).is_ok());
    assert!(rt; live.withdraw(&mut owner, 1) == Ok(3));
    Ok(())
}

#[test]
fn the_flag_is_open_until_it_is_shut(rt: HostRuntime) -> Result<(), Fail> {
    let (live, mut owner, mut workers) = Live::<Squares>::new(rt.alloc(), 1, 2)?;
    let mut one = take_seat(&live, &mut workers);
    let mut zero = take_seat(&live, &mut workers);
    assert!(rt; live.is_open(&mut zero));
    assert!(rt; live.is_open(&mut one));
    live.shut(&mut owner);
    assert!(rt; !live.is_open(&mut zero));
    assert!(rt; !live.is_open(&mut one));
    live.shut(&mut owner);
    assert!(rt; !live.is_open(&mut one));
    put_back(&live, &mut workers, one)?;
    put_back(&live, &mut workers, zero)?;
    assert!(rt;
        live.close(rt.alloc(), owner, workers)
            .is_ok_and(|all| all.is_empty())
    );
    Ok(())
}

#[test]
fn close_leaves_what_nobody_collected(rt: HostRuntime) -> Result<(), Fail> {
    let (live, mut owner, mut workers) = Live::<Squares>::new(rt.alloc(), 64, 64)?;
    let mut last = take_seat(&live, &mut workers);
    assert!(rt; live.post(&mut owner, 63, 10).is_ok());
    assert!(rt; live.post(&mut owner, 2, 20).is_ok());
    assert!(rt; live.post(&mut owner, 5, 30).is_ok());
    let Ok(()) = live.claim(&mut last, 63) else {
        panic!(rt; "no claim")
    };
    assert!(rt; live.collect(&mut owner, 63).err() == Some(Found::Claimed(63)));
    live.work_off(&Squares, &NoGate, &AlwaysGrants, &mut last);
    assert!(rt; live.withdraw(&mut owner, 2) == Ok(20));
    put_back(&live, &mut workers, last)?;
    let Ok(mut all) = live.close(rt.alloc(), owner, workers) else {
        panic!(rt; "no memory")
    };
    assert!(rt; all.len() == 2);
    let (slot, left) = all.pop().unwrap();
    assert!(rt; slot == 63);
    assert!(rt; answer_in(left) == Some((10, 100)));
    let (slot, left) = all.pop().unwrap();
    assert!(rt; slot == 5);
    assert!(rt; matches!(left, Left::Job(30)));
    Ok(())
}
