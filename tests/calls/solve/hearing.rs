//! How often a watch hears of a search whose sessions it doesn't choose.

use crate::worked::FACING;
use mapf_board::NoGate;
use mapf_plan::{Counted, Rule};
use mapf_solve::{Ask, Watch, answer_watched, run_watched};
use std::alloc::Global;

/// The limit on nodes, which is reached: with one all sessions go by keys.
const TAKEN: u64 = 700;

/// The most nodes from one note to the next.
const MOST_NODES: u64 = 256;

const ASK: Ask = Ask {
    agents: 2,
    bound: 1000,
    workers: 2,
    nodes: Some(TAKEN),
    rule: Rule::Classical,
};

/// Notes the most nodes that were taken from one note to the next.
#[derive(Drop)]
struct Gaps {
    last: u64,
    widest: u64,
}

impl Gaps {
    fn new() -> Gaps {
        Gaps { last: 0, widest: 0 }
    }

    /// Whether it heard often, and last of the end.
    fn are_narrow(&self) -> bool {
        self.last == TAKEN && self.widest <= MOST_NODES
    }
}

impl Watch for Gaps {
    fn nodes_expanded(&mut self, nodes: u64, _least: u64) {
        self.widest = self.widest.max(nodes.saturating_sub(self.last));
        self.last = nodes;
    }
}

#[test]
fn an_answer_tells_of_each_256_nodes(rt: HostRuntime) {
    let mut gaps = Gaps::new();
    let text = answer_watched(
        &rt,
        rt.alloc(),
        FACING.map,
        FACING.scen,
        ASK,
        &NoGate,
        &mut gaps,
    );
    assert!(rt; text.is_ok_and(|bytes| bytes.starts_with(b"gave up 700 ")));
    assert!(rt; gaps.are_narrow());
}

#[test]
fn a_run_tells_of_each_256_nodes(rt: HostRuntime) {
    let alloc: Global = rt.alloc();
    let mut gaps = Gaps::new();
    let mut text = Vec::new(alloc);
    let run = run_watched(
        &rt,
        alloc,
        &mut Counted::of(FACING.map),
        &mut Counted::of(FACING.scen),
        &mut Counted::of(&mut text),
        ASK,
        &mut gaps,
    );
    assert!(rt; run.is_ok() && text.starts_with(b"gave up 700 "));
    assert!(rt; gaps.are_narrow());
}
