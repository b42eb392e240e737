//! The worked problems with a limit on nodes, byte for byte, with several numbers of workers.

use crate::worked::{ALONG, BAY, CHANGE, Worked};
use mapf_board::NoGate;
use mapf_plan::Rule;
use mapf_solve::{Ask, Refusal, answer};
use std::alloc::Global;
use std::thread::Threads;

/// What is answered with this limit.
fn answered_up_to<R: Threads + Sync>(
    rt: &R,
    alloc: Global,
    worked: &Worked,
    bound: u64,
    nodes: u64,
    workers: u64,
) -> Result<Vec<u8>, Refusal> {
    let ask = Ask {
        agents: worked.agents,
        bound,
        workers,
        nodes: Some(nodes),
        rule: Rule::Classical,
    };
    answer(rt, alloc, worked.map, worked.scen, ask, &NoGate)
}

/// Whether this text is answered with 1, 2 and 64 workers.
fn answers_up_to<R: Threads + Sync>(
    rt: &R,
    alloc: Global,
    worked: &Worked,
    bound: u64,
    nodes: u64,
    text: &[u8],
) -> bool {
    [1, 2, 64].iter().all(|&workers| {
        match answered_up_to(rt, alloc, worked, bound, nodes, workers) {
            Ok(bytes) => bytes.as_slice() == text,
            Err(_) => false,
        }
    })
}

/// Whether this limit is refused with 1, 2 and 64 workers.
fn refuses_nodes<R: Threads + Sync>(
    rt: &R,
    alloc: Global,
    worked: &Worked,
    bound: u64,
    nodes: u64,
) -> bool {
    [1, 2, 64].iter().all(|&workers| {
        answered_up_to(rt, alloc, worked, bound, nodes, workers).err() == Some(Refusal::Nodes)
    })
}

#[test]
fn the_solution_is_the_last_node_that_may_be_taken(rt: HostRuntime) {
    let text = b"plan 2 4\n1,0 1,1 1,0\n0,0 1,0 2,0\n";
    assert!(rt; answers_up_to(&rt, rt.alloc(), &BAY, 4, 6, text));
}

#[test]
fn the_solution_is_one_node_too_late(rt: HostRuntime) {
    assert!(rt; answers_up_to(&rt, rt.alloc(), &BAY, 4, 5, b"gave up 5 4\n"));
}

#[test]
fn the_next_node_gives_the_bound(rt: HostRuntime) {
    let alloc = rt.alloc();
    assert!(rt; answers_up_to(&rt, alloc, &BAY, 4, 2, b"gave up 2 4\n"));
    assert!(rt; answers_up_to(&rt, alloc, &BAY, 4, 1, b"gave up 1 3\n"));
}

#[test]
fn nothing_is_given_up_where_the_tree_ends(rt: HostRuntime) {
    let alloc = rt.alloc();
    assert!(rt; answers_up_to(&rt, alloc, &CHANGE, 3, 3, b"none 3\n"));
    assert!(rt; answers_up_to(&rt, alloc, &CHANGE, 3, 2, b"gave up 2 3\n"));
    assert!(rt; answers_up_to(&rt, alloc, &ALONG, 1, 1, b"none 1\n"));
}

#[test]
fn a_limit_of_no_node_or_too_many_is_refused(rt: HostRuntime) {
    let alloc = rt.alloc();
    assert!(rt; refuses_nodes(&rt, alloc, &ALONG, 2, 0));
    assert!(rt; refuses_nodes(&rt, alloc, &ALONG, 2, 1_000_001));
}
