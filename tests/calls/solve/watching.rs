//! What a watch is told, at each node, compared with what a search answers that is limited to so many.

use crate::worked::{ALONG, BAY, CHANGE, Worked};
use mapf_board::{AlwaysGrants, NoGate};
use mapf_grid::instance_of;
use mapf_plan::Answer;
use mapf_solve::{MOST_WORKER_TURNS, Means, Pace, Watch, solve_watched};
use mapf_tree::{Problem, solve_alone};
use std::alloc::Global;
use std::thread::Threads;

/// Notes what it is told: how many nodes were taken, and what each plan costs at least.
#[derive(Drop)]
struct Notes {
    told: Vec<(u64, u64)>,
}

impl Watch for Notes {
    fn nodes_expanded(&mut self, nodes: u64, least: u64) {
        let _ = self.told.push((nodes, least));
    }
}

/// A worked problem under a bound; 0 nodes are no limit.
#[derive(Clone, Copy, Drop)]
struct Case {
    worked: Worked,
    bound: u32,
    nodes: u64,
}

/// A bay, where the search by keys finds a plan at its sixth node, within a limit that it doesn't reach.
const SOLVED: Case = Case {
    worked: BAY,
    bound: 4,
    nodes: 1_000,
};

/// The same without a limit: what the first session leaves goes by bounds.
const SOLVED_BY_BOUNDS: Case = Case {
    worked: BAY,
    bound: 4,
    nodes: 0,
};

/// The same, given up before that node.
const GIVEN_UP: Case = Case {
    worked: BAY,
    bound: 4,
    nodes: 5,
};

/// A square, where the tree has three nodes and no solution, within such a limit.
const NONE: Case = Case {
    worked: CHANGE,
    bound: 3,
    nodes: 1_000,
};

/// The same without a limit.
const NONE_BY_BOUNDS: Case = Case {
    worked: CHANGE,
    bound: 3,
    nodes: 0,
};

/// A row of cells, where the root costs more than the bound.
const NO_ROOT: Case = Case {
    worked: ALONG,
    bound: 1,
    nodes: 0,
};

/// The problem with a limit on nodes; 0 are none.
fn problem_of(alloc: Global, case: Case, nodes: u64) -> Option<Problem> {
    if case.bound > 1_000_000 || nodes > 1_000_000 {
        return None;
    }
    let instance = instance_of(alloc, case.worked.map, case.worked.scen, case.worked.agents).ok()?;
    let problem = Problem::new(alloc, instance, case.bound).ok()?;
    if nodes == 0 {
        Some(problem)
    } else {
        Some(problem.with_nodes(nodes))
    }
}

/// What a watch is told, in sessions of so many nodes, and the answer.
fn watched<R: Threads + Sync>(
    rt: &R,
    alloc: Global,
    case: Case,
    workers: usize,
    session_nodes: u64,
) -> Option<(Vec<(u64, u64)>, Answer)> {
    let problem = problem_of(alloc, case, case.nodes)?;
    let pace = Pace {
        worker_turns: MOST_WORKER_TURNS,
        session_nodes,
    };
    let mut notes = Notes {
        told: Vec::new(alloc),
    };
    let means = Means {
        rt,
        alloc,
        workers,
        pace,
        gate: &NoGate,
        supply: &AlwaysGrants,
    };
    let answer = solve_watched(&means, &problem, &mut notes).ok()?;
    Some((notes.told, answer))
}

/// Whether 1, 2 and 64 workers tell this, in sessions of so many nodes.
fn tells<R: Threads + Sync>(
    rt: &R,
    alloc: Global,
    case: Case,
    session_nodes: u64,
    wanted: &[(u64, u64)],
) -> bool {
    for workers in [1, 2, 64] {
        match watched(rt, alloc, case, workers, session_nodes) {
            Some((told, _answer)) if told.as_slice() == wanted => {}
            _ => return false,
        }
    }
    true
}

/// Whether it is told of the root and of the first session of one node as by keys, then of no fewer nodes and no lower costs, and last
/// of this cost.
fn ends_at<R: Threads + Sync>(rt: &R, alloc: Global, case: Case, cost: u64) -> bool {
    let Some((told, _answer)) = watched(rt, alloc, case, 2, 1) else {
        return false;
    };
    let mut before = (0, 0);
    for note in &told {
        if note.0 < before.0 || note.1 < before.1 {
            return false;
        }
        before = *note;
    }
    told.first() == Some(&(0, 2)) && told.get(1) == Some(&(1, 3)) && before.1 == cost
}

#[test]
fn by_bounds_up_to_the_cost(rt: HostRuntime) {
    let alloc = rt.alloc();
    assert!(rt; ends_at(&rt, alloc, SOLVED_BY_BOUNDS, 4));
    assert!(rt; ends_at(&rt, alloc, NONE_BY_BOUNDS, 4));
}

/// Whether a search that is limited to so many nodes gives up with this cost.
fn gives_up(alloc: Global, case: Case, limit: u64, cost: u64) -> bool {
    let Some(problem) = problem_of(alloc, case, limit) else {
        return false;
    };
    match solve_alone(alloc, &problem) {
        Ok(Answer::GaveUp { nodes, least }) => nodes == limit && least == cost,
        _ => false,
    }
}

#[test]
fn each_node_up_to_the_solution(rt: HostRuntime) {
    let alloc = rt.alloc();
    let told = [(0, 2), (1, 3), (2, 4), (3, 4), (4, 4), (5, 4), (6, 4)];
    assert!(rt; tells(&rt, alloc, SOLVED, 1, &told));
    for (nodes, least) in &told[1..6] {
        assert!(rt; gives_up(alloc, SOLVED, *nodes, *least));
    }
}

#[test]
fn each_node_where_none_is_a_solution(rt: HostRuntime) {
    let alloc = rt.alloc();
    assert!(rt;
        tells(
            &rt,
            alloc,
            NONE,
            1,
            &[(0, 2), (1, 3), (2, 3), (3, 4), (3, 4)]
        )
    );
    assert!(rt; gives_up(alloc, NONE, 1, 3) && gives_up(alloc, NONE, 2, 3));
}

#[test]
fn each_node_up_to_the_limit(rt: HostRuntime) {
    let told = [(0, 2), (1, 3), (2, 4), (3, 4), (4, 4), (5, 4), (5, 4)];
    assert!(rt; tells(&rt, rt.alloc(), GIVEN_UP, 1, &told));
}

#[test]
fn the_root_and_the_end_alone_in_a_long_session(rt: HostRuntime) {
    let alloc = rt.alloc();
    assert!(rt; tells(&rt, alloc, SOLVED, 256, &[(0, 2), (6, 4)]));
    assert!(rt; tells(&rt, alloc, NONE, 256, &[(0, 2), (3, 4)]));
    assert!(rt; tells(&rt, alloc, GIVEN_UP, 256, &[(0, 2), (5, 4)]));
}

#[test]
fn nothing_where_the_tree_has_no_root(rt: HostRuntime) {
    assert!(rt; tells(&rt, rt.alloc(), NO_ROOT, 1, &[]));
}
