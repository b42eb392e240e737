//! The worked problems' answers, byte for byte, with several numbers of workers.

use crate::worked::{
    ACROSS, ALONG, AT_GOAL, BAY, CANNOT_PASS, CHANGE, CROSSING, RING, TWO_WAYS, WALLED, Worked,
};
use mapf_board::NoGate;
use mapf_plan::Rule;
use mapf_solve::{Ask, Refusal, answer};
use std::alloc::Global;
use std::thread::Threads;

/// What is answered, with no gate.
pub(super) fn answered<R: Threads + Sync>(
    rt: &R,
    alloc: Global,
    worked: &Worked,
    bound: u64,
    workers: u64,
) -> Result<Vec<u8>, Refusal> {
    let ask = Ask {
        agents: worked.agents,
        bound,
        workers,
        nodes: None,
        rule: Rule::Classical,
    };
    answer(rt, alloc, worked.map, worked.scen, ask, &NoGate)
}

/// Whether this text is answered with 1, 2, 3 and 64 workers.
fn answers<R: Threads + Sync>(
    rt: &R,
    alloc: Global,
    worked: &Worked,
    bound: u64,
    text: &[u8],
) -> bool {
    [1, 2, 3, 64].iter().all(|&workers| {
        match answered(rt, alloc, worked, bound, workers) {
            Ok(bytes) => bytes.as_slice() == text,
            Err(_) => false,
        }
    })
}

#[test]
fn one_agent_goes_along(rt: HostRuntime) {
    let alloc = rt.alloc();
    assert!(rt; answers(&rt, alloc, &ALONG, 2, b"plan 1 2\n0,0 1,0 2,0\n"));
    assert!(rt; answers(&rt, alloc, &ALONG, 1, b"none 1\n"));
    assert!(rt; answers(&rt, alloc, &WALLED, 1_000_000, b"none 1000000\n"));
}

#[test]
fn one_agent_goes_by_the_smaller_cell(rt: HostRuntime) {
    let alloc = rt.alloc();
    assert!(rt; answers(&rt, alloc, &ACROSS, 2, b"plan 1 2\n0,0 1,0 1,1\n"));
    assert!(rt;
        answers(
            &rt,
            alloc,
            &TWO_WAYS,
            8,
            b"plan 1 8\n1,1 0,1 0,2 0,3 0,4 1,4 2,4 2,3 3,3\n"
        )
    );
}

#[test]
fn one_agent_stays(rt: HostRuntime) {
    assert!(rt; answers(&rt, rt.alloc(), &AT_GOAL, 0, b"plan 1 0\n1,0\n"));
}

#[test]
fn one_agent_leaves_its_goal(rt: HostRuntime) {
    assert!(rt;
        answers(
            &rt,
            rt.alloc(),
            &BAY,
            4,
            b"plan 2 4\n1,0 1,1 1,0\n0,0 1,0 2,0\n"
        )
    );
}

#[test]
fn two_cannot_pass(rt: HostRuntime) {
    assert!(rt; answers(&rt, rt.alloc(), &CANNOT_PASS, 6, b"none 6\n"));
}

#[test]
fn four_turn_in_a_ring(rt: HostRuntime) {
    let text = b"plan 4 4\n0,0 1,0\n1,0 1,1\n1,1 0,1\n0,1 0,0\n";
    assert!(rt; answers(&rt, rt.alloc(), &RING, 4, text));
}

#[test]
fn two_change_places(rt: HostRuntime) {
    let alloc = rt.alloc();
    assert!(rt; answers(&rt, alloc, &CHANGE, 3, b"none 3\n"));
    assert!(rt;
        answers(
            &rt,
            alloc,
            &CHANGE,
            4,
            b"plan 2 4\n0,0 0,1 1,1 1,0\n1,0 0,0\n"
        )
    );
}

#[test]
fn the_left_of_two_optima(rt: HostRuntime) {
    let text = b"plan 2 5\n1,0 1,0 1,1 1,2\n0,1 1,1 2,1\n";
    assert!(rt; answers(&rt, rt.alloc(), &CROSSING, 9, text));
}
