//! What a search asks of its source of children: before each node is taken it is told what waits, while that node still waits.

use super::problem_of;
use super::texts::letters;
use crate::worked::CHANGE;
use mapf_grid::NoMemory;
use mapf_tree::{Children, Key, Node, OpenList, Problem, Progress, Search, Side, child};
use std::alloc::Global;
use std::test::Fail;

/// Children as they are needed, and a line for each call: with the least waiting key, or with the key of the node.
#[derive(Drop)]
struct Noting {
    alloc: Global,
    calls: String,
}

impl Noting {
    fn new(alloc: Global) -> Noting {
        Noting {
            alloc,
            calls: String::new(alloc),
        }
    }

    /// Writes the call's line: its name, and the key's cost and name.
    fn note(&mut self, call: &str, key: &Key) -> Result<(), NoMemory> {
        let name = key.name.to_vec(self.alloc)?;
        let name = letters(self.alloc, name.as_slice())?;
        write!(self.calls, "{call} {} {name}\n", key.cost)?;
        Ok(())
    }
}

impl Children for Noting {
    ghost serves = { λ _ _. Unit {0} };

    fn both(
        &mut self,
        problem: &Problem,
        node: &Node,
    ) -> Result<(Option<Node>, Option<Node>), NoMemory> {
        self.note("both", node.key())?;
        let left = child(self.alloc, problem, node, Side::Left)?;
        let right = child(self.alloc, problem, node, Side::Right)?;
        Ok((left, right))
    }

    fn ahead(&mut self, _problem: &Problem, waiting: &OpenList) {
        if let Some(least) = waiting.first(1).next() {
            let _ = self.note("ahead", least.key());
        }
    }
}

/// Each turn's calls: the tree has nine nodes, and the eighth in the order of their keys is the first solution.
const CALLS: [&str; 8] = [
    "ahead 2 \nboth 2 \n",
    "ahead 3 L\nboth 3 L\n",
    "ahead 3 R\nboth 3 R\n",
    "ahead 4 LL\nboth 4 LL\n",
    "ahead 4 LR\nboth 4 LR\n",
    "ahead 4 RL\nboth 4 RL\n",
    "ahead 4 RR\nboth 4 RR\n",
    "ahead 4 LLL\n",
];

#[test]
fn each_turn_tells_what_waits_before_it_takes_a_node(rt: HostRuntime) -> Result<(), Fail> {
    let problem = problem_of(rt.alloc(), &CHANGE, 4)?;
    let mut search = Search::new(rt.alloc(), &problem)?;
    for (turn, calls) in CALLS.iter().enumerate() {
        let mut children = Noting::new(rt.alloc());
        let progress = search.go(&mut children, 1)?;
        assert_eq!(rt; children.calls.as_str(), *calls, "turn {turn}");
        assert!(rt;
            (progress == Progress::Finished) == (turn == 7),
            "turn {turn}"
        );
    }
    Ok(())
}

#[test]
fn no_turn_calls_nothing(rt: HostRuntime) -> Result<(), Fail> {
    let problem = problem_of(rt.alloc(), &CHANGE, 4)?;
    let mut search = Search::new(rt.alloc(), &problem)?;
    let mut children = Noting::new(rt.alloc());
    assert!(rt; search.go(&mut children, 0)? == Progress::Working);
    assert!(rt; children.calls.is_empty());
    Ok(())
}

/// A finished search calls nothing either.
#[test]
fn all_turns_at_once_make_the_same_calls(rt: HostRuntime) -> Result<(), Fail> {
    let problem = problem_of(rt.alloc(), &CHANGE, 4)?;
    let mut search = Search::new(rt.alloc(), &problem)?;
    let mut children = Noting::new(rt.alloc());
    assert!(rt; search.go(&mut children, 100)? == Progress::Finished);
    assert!(rt; search.go(&mut children, 100)? == Progress::Finished);
    let mut all = String::new(rt.alloc());
    for calls in CALLS {
        all.push_str(calls)?;
    }
    assert_eq!(rt; children.calls.as_str(), all.as_str());
    Ok(())
}
