//! Any optimum of the worked problems by each call: its cost is known, and a plan is judged by the checker.

use crate::worked::{
    ACROSS, ALONG, AT_GOAL, BAY, CANNOT_PASS, CHANGE, CROSSING, RING, TWO_WAYS, WALLED, Worked,
};
use mapf_board::NoGate;
use mapf_check::{Verdict, check_by};
use mapf_grid::{InstanceFault, instance_of};
use mapf_plan::{Answer, Counted, Rule, read_answer};
use mapf_solve::{Ask, Refusal, Watch, answer_any, answer_any_alone, answer_any_watched, run_any};
use std::alloc::Global;
use std::test::Fail;
use std::thread::Threads;

/// A worked problem by a rule, under a bound.
#[derive(Clone, Copy, Drop)]
struct Case {
    worked: Worked,
    rule: Rule,
    bound: u64,
}

fn classical(worked: Worked, bound: u64) -> Case {
    Case {
        worked,
        rule: Rule::Classical,
        bound,
    }
}

fn no_following(worked: Worked, bound: u64) -> Case {
    Case {
        worked,
        rule: Rule::NoFollowing,
        bound,
    }
}

fn ask_of(case: Case, nodes: Option<u64>, workers: u64) -> Ask {
    Ask {
        agents: case.worked.agents,
        bound: case.bound,
        workers,
        nodes,
        rule: case.rule,
    }
}

/// The text that a run writes.
fn text_of_run<R: Threads + Sync>(
    rt: &R,
    alloc: Global,
    case: Case,
    ask: Ask,
) -> Result<Vec<u8>, Fail> {
    let mut out = Vec::new(alloc);
    run_any(
        rt,
        alloc,
        &mut Counted::of(case.worked.map),
        &mut Counted::of(case.worked.scen),
        &mut Counted::of(&mut out),
        ask,
    )?;
    Ok(out)
}

/// The texts with 1, 2 and 64 workers, on one thread, and of a run.
fn texts_of<R: Threads + Sync>(
    rt: &R,
    alloc: Global,
    case: Case,
    nodes: Option<u64>,
) -> Result<Vec<Vec<u8>>, Fail> {
    let Worked { map, scen, .. } = case.worked;
    let mut texts = Vec::new(alloc);
    for workers in [1, 2, 64] {
        let ask = ask_of(case, nodes, workers);
        texts.push(answer_any(rt, alloc, map, scen, ask, &NoGate)?)?;
    }
    let ask = ask_of(case, nodes, 1);
    texts.push(answer_any_alone(alloc, map, scen, ask)?)?;
    texts.push(text_of_run(rt, alloc, case, ask)?)?;
    Ok(texts)
}

/// Whether this is a valid plan of this cost; or, at this limit on nodes, that the search gave up with no greater a cost.
fn is_best(
    alloc: Global,
    case: Case,
    limit: Option<u64>,
    text: &[u8],
    cost: u64,
) -> Result<bool, Fail> {
    let instance = instance_of(alloc, case.worked.map, case.worked.scen, case.worked.agents)?;
    let answer = read_answer(alloc, text, instance.map())?;
    if let Answer::GaveUp { nodes, least } = &answer {
        return Ok(limit == Some(*nodes) && *least <= cost);
    }
    let verdict = check_by(&instance, &answer, case.rule);
    Ok(verdict == Verdict::Valid { cost })
}

/// Whether each call finds a plan of this cost, and each at a limit on nodes that or a cost that is no greater.
fn costs<R: Threads + Sync>(rt: &R, alloc: Global, case: Case, cost: u64) -> Result<bool, Fail> {
    for limit in [None, Some(1), Some(2), Some(5), Some(1_000_000)] {
        for text in &texts_of(rt, alloc, case, limit)? {
            if !is_best(alloc, case, limit, text, cost)? {
                return Ok(false);
            }
        }
    }
    Ok(true)
}

/// Whether each call says this.
fn says<R: Threads + Sync>(rt: &R, alloc: Global, case: Case, said: &[u8]) -> Result<bool, Fail> {
    let texts = texts_of(rt, alloc, case, None)?;
    Ok(texts.iter().all(|text| text.as_slice() == said))
}

#[test]
fn the_only_optimum(rt: HostRuntime) -> Result<(), Fail> {
    let alloc = rt.alloc();
    let along = classical(ALONG, 2);
    assert!(rt; says(&rt, alloc, along, b"plan 1 2\n0,0 1,0 2,0\n")?);
    let stays = classical(AT_GOAL, 0);
    assert!(rt; says(&rt, alloc, stays, b"plan 1 0\n1,0\n")?);
    let bay = classical(BAY, 4);
    assert!(rt; says(&rt, alloc, bay, b"plan 2 4\n1,0 1,1 1,0\n0,0 1,0 2,0\n")?);
    let ring = classical(RING, 4);
    let turned = b"plan 4 4\n0,0 1,0\n1,0 1,1\n1,1 0,1\n0,1 0,0\n";
    assert!(rt; says(&rt, alloc, ring, turned)?);
    let late = no_following(BAY, 7);
    let text = b"plan 2 7\n1,0 1,1 1,1 1,1 1,0\n0,0 0,0 1,0 2,0\n";
    assert!(rt; says(&rt, alloc, late, text)?);
    Ok(())
}

#[test]
fn none_exactly_where_there_is_none(rt: HostRuntime) -> Result<(), Fail> {
    let alloc = rt.alloc();
    assert!(rt; says(&rt, alloc, classical(ALONG, 1), b"none 1\n")?);
    assert!(rt; says(&rt, alloc, classical(WALLED, 1_000_000), b"none 1000000\n")?);
    assert!(rt; says(&rt, alloc, classical(CANNOT_PASS, 6), b"none 6\n")?);
    assert!(rt; says(&rt, alloc, classical(CHANGE, 3), b"none 3\n")?);
    assert!(rt; says(&rt, alloc, classical(BAY, 3), b"none 3\n")?);
    assert!(rt; says(&rt, alloc, no_following(CROSSING, 5), b"none 5\n")?);
    assert!(rt; says(&rt, alloc, no_following(BAY, 6), b"none 6\n")?);
    assert!(rt; says(&rt, alloc, no_following(RING, 4), b"none 4\n")?);
    Ok(())
}

#[test]
fn one_of_several_optima(rt: HostRuntime) -> Result<(), Fail> {
    let alloc = rt.alloc();
    assert!(rt; costs(&rt, alloc, classical(ACROSS, 2), 2)?);
    assert!(rt; costs(&rt, alloc, classical(TWO_WAYS, 8), 8)?);
    assert!(rt; costs(&rt, alloc, classical(CHANGE, 4), 4)?);
    assert!(rt; costs(&rt, alloc, classical(CHANGE, 1_000_000), 4)?);
    assert!(rt; costs(&rt, alloc, classical(CROSSING, 9), 5)?);
    assert!(rt; costs(&rt, alloc, no_following(CROSSING, 9), 6)?);
    Ok(())
}

#[test]
fn no_cost_at_a_limit_is_greater(rt: HostRuntime) -> Result<(), Fail> {
    let alloc = rt.alloc();
    assert!(rt; costs(&rt, alloc, classical(BAY, 4), 4)?);
    assert!(rt; costs(&rt, alloc, no_following(BAY, 7), 7)?);
    assert!(rt; costs(&rt, alloc, classical(RING, 4), 4)?);
    Ok(())
}

/// Notes the greatest cost that it is told.
#[derive(Drop)]
struct Greatest {
    least: u64,
}

impl Watch for Greatest {
    fn nodes_expanded(&mut self, _nodes: u64, least: u64) {
        self.least = self.least.max(least);
    }
}

#[test]
fn no_cost_that_is_told_is_greater(rt: HostRuntime) -> Result<(), Fail> {
    let alloc = rt.alloc();
    for (case, cost) in [
        (classical(BAY, 4), 4),
        (classical(CROSSING, 9), 5),
        (no_following(CROSSING, 9), 6),
    ] {
        let mut greatest = Greatest { least: 0 };
        let ask = ask_of(case, None, 2);
        let Worked { map, scen, .. } = case.worked;
        let text = answer_any_watched(&rt, alloc, map, scen, ask, &NoGate, &mut greatest)?;
        assert!(rt; is_best(alloc, case, None, &text, cost)?);
        assert!(rt; greatest.least <= cost);
    }
    Ok(())
}

/// Whether each call refuses the bay for this.
fn refuses<R: Threads + Sync>(rt: &R, alloc: Global, ask: Ask, refusal: Refusal) -> bool {
    let answered = answer_any(rt, alloc, BAY.map, BAY.scen, ask, &NoGate);
    let alone = answer_any_alone(alloc, BAY.map, BAY.scen, ask);
    answered.err() == Some(refusal) && alone.err() == Some(refusal)
}

#[test]
fn refusals_in_their_order(rt: HostRuntime) {
    let alloc = rt.alloc();
    let mut ask = Ask {
        agents: 0,
        bound: 1_000_001,
        workers: 65,
        nodes: Some(0),
        rule: Rule::Classical,
    };
    assert!(rt; refuses(&rt, alloc, ask, Refusal::Bound));
    ask.bound = 4;
    assert!(rt; refuses(&rt, alloc, ask, Refusal::Workers));
    ask.workers = 64;
    assert!(rt; refuses(&rt, alloc, ask, Refusal::Nodes));
    ask.nodes = None;
    let count = Refusal::Instance(InstanceFault::AgentCount);
    assert!(rt; refuses(&rt, alloc, ask, count));
    ask.agents = 3;
    let rows = Refusal::Instance(InstanceFault::TooFewRows { rows: 2 });
    assert!(rt; refuses(&rt, alloc, ask, rows));
}
