//! The most agents, and the largest map.

use super::changed_bytes::valid_cost;
use mapf_board::NoGate;
use mapf_grid::InstanceFault;
use mapf_plan::Rule;
use mapf_solve::{Ask, Refusal, answer};
use std::alloc::{AllocError, Global};
use std::test::Fail;
use std::thread::Threads;

/// A map file of so many columns and rows of free cells.
fn free_map(alloc: Global, width: usize, height: usize) -> Result<String, AllocError> {
    let row = ".".repeat(alloc, width)?;
    let mut text = format!(in alloc; "type octile\nheight {height}\nwidth {width}\nmap\n")?;
    for _ in 0..height {
        write!(text, "{row}\n")?;
    }
    Ok(text)
}

/// A scenario file of an agent on each cell of a row of 1,000, which is its goal.
fn thousand_on_goals(alloc: Global) -> Result<String, AllocError> {
    let mut text = format!(in alloc; "version 1\n")?;
    for x in 0..1000 {
        write!(text, "0 row.map 1000 1 {x} 0 {x} 0 0\n")?;
    }
    Ok(text)
}

/// What is answered with a bound of 0, by one worker.
fn answered_at_once<R: Threads + Sync>(
    rt: &R,
    alloc: Global,
    map: &str,
    scen: &str,
    agents: u64,
) -> Result<Vec<u8>, Refusal> {
    let ask = Ask {
        agents,
        bound: 0,
        workers: 1,
        nodes: None,
        rule: Rule::Classical,
    };
    answer(rt, alloc, map.as_bytes(), scen.as_bytes(), ask, &NoGate)
}

#[test]
fn a_thousand_agents_and_no_more(rt: HostRuntime) -> Result<(), Fail> {
    let alloc = rt.alloc();
    let map = free_map(alloc, 1000, 1)?;
    let scen = thousand_on_goals(alloc)?;
    let text = answered_at_once(&rt, alloc, &map, &scen, 1000)?;
    assert_eq!(rt; text.len(), 5902);
    assert!(rt; text.starts_with(b"plan 1000 0\n0,0\n1,0\n"));
    assert!(rt; text.ends_with(b"999,0\n"));
    let cost = valid_cost(alloc, map.as_bytes(), scen.as_bytes(), 1000, &text)?;
    assert_eq!(rt; cost, Some(0));
    let result = answered_at_once(&rt, alloc, &map, &scen, 1001);
    let count = Refusal::Instance(InstanceFault::AgentCount);
    assert!(rt; result.err() == Some(count));
    Ok(())
}

#[test]
fn one_agent_on_the_largest_map(rt: HostRuntime) -> Result<(), Fail> {
    let alloc = rt.alloc();
    let map = free_map(alloc, 2048, 2048)?;
    let scen = "version 1\n0 all.map 2048 2048 2047 2047 2047 2047 0\n";
    let text = answered_at_once(&rt, alloc, &map, scen, 1)?;
    assert_eq!(rt; text.as_slice(), b"plan 1 0\n2047,2047\n".as_slice());
    Ok(())
}
