//! The worked problems where no agent may enter a cell that another leaves in the same step, byte for byte, with several
//! numbers of workers.

use crate::worked::{BAY, CROSSING, RING, Worked};
use mapf_board::NoGate;
use mapf_plan::Rule;
use mapf_solve::{Ask, answer};
use std::alloc::Global;
use std::thread::Threads;

/// Whether this text is answered with 1, 2 and 64 workers.
fn answers<R: Threads + Sync>(
    rt: &R,
    alloc: Global,
    worked: &Worked,
    bound: u64,
    nodes: Option<u64>,
    text: &[u8],
) -> bool {
    [1, 2, 64].iter().all(|&workers| {
        let ask = Ask {
            agents: worked.agents,
            bound,
            workers,
            nodes,
            rule: Rule::NoFollowing,
        };
        match answer(rt, alloc, worked.map, worked.scen, ask, &NoGate) {
            Ok(bytes) => bytes.as_slice() == text,
            Err(_) => false,
        }
    })
}

const ROUND: &[u8] = b"plan 2 6\n1,0 0,0 1,0 1,1 1,2\n0,1 1,1 2,1\n";

#[test]
fn one_agent_makes_room_at_a_crossing(rt: HostRuntime) {
    assert!(rt; answers(&rt, rt.alloc(), &CROSSING, 9, None, ROUND));
}

#[test]
fn no_plan_without_following_costs_as_little_as_one_with_it(rt: HostRuntime) {
    assert!(rt; answers(&rt, rt.alloc(), &CROSSING, 5, None, b"none 5\n"));
}

#[test]
fn the_solution_without_following_is_the_fourth_node(rt: HostRuntime) {
    let alloc = rt.alloc();
    assert!(rt; answers(&rt, alloc, &CROSSING, 9, Some(4), ROUND));
    assert!(rt; answers(&rt, alloc, &CROSSING, 9, Some(3), b"gave up 3 6\n"));
}

#[test]
fn an_agent_stays_in_the_bay_until_the_other_has_passed(rt: HostRuntime) {
    let alloc = rt.alloc();
    let text = b"plan 2 7\n1,0 1,1 1,1 1,1 1,0\n0,0 0,0 1,0 2,0\n";
    assert!(rt; answers(&rt, alloc, &BAY, 7, None, text));
    assert!(rt; answers(&rt, alloc, &BAY, 6, None, b"none 6\n"));
}

#[test]
fn four_agents_that_fill_a_ring_cannot_turn_in_it(rt: HostRuntime) {
    assert!(rt; answers(&rt, rt.alloc(), &RING, 4, None, b"none 4\n"));
}
