// What the script `refused-allocations` tests: it adds a test for each place, and runs them unproved with one allocation refused.
// So this file stands in no crate, and isn't called `.rt`.
//
// The refused allocation has the same number in each process, and each test is one. A test for a place makes others
// first, so that the refused one is the allocation of that place in an answer or a verdict.
#![tactic(auto)]

ghost use Rattle.std.specs.Prelude.{◌≡◌, ◌*◌};

use mapf_board::{AlwaysGrants, Left, Live, NoGate, Owner, Pair, Task, Work, WorkerSeat};
use mapf_check::Verdict;
use mapf_cli::{CheckFault, call, check_run};
use mapf_grid::{NoMemory, instance_of};
use mapf_plan::{Counted, DeviceFault, Rule};
use mapf_solve::{Ask, Refusal, answer, answer_any};
use mapf_tree::{Children, Node, OpenList, Problem, Progress, Search, Side, child, root};
use std::alloc::Global;
use std::rt::Files;
use std::thread::Threads;
use std::time::Clock;

/// The number of the refused allocation, which the script gives.
const REFUSED: u64 = 2000;

/// Map, scenario, bound and plan of two agents.
#[derive(Clone, Copy, Drop)]
struct Worked {
    map: &'static [u8],
    scen: &'static [u8],
    bound: u64,
    plan: &'static [u8],
}

/// A corridor with a bay; one agent has to leave its goal for the other.
const BAY: Worked = Worked {
    map: b"type octile\nheight 2\nwidth 3\nmap\n...\n@.@\n",
    scen: b"version 1\n0 bay.map 3 2 1 0 1 0 0\n0 bay.map 3 2 0 0 2 0 2\n",
    bound: 4,
    plan: b"plan 2 4\n1,0 1,1 1,0\n0,0 1,0 2,0\n",
};

/// Nine cells in a square; two agents cross in the middle.
const CROSSING: Worked = Worked {
    map: b"type octile\nheight 3\nwidth 3\nmap\n...\n...\n...\n",
    scen: b"version 1\n0 open.map 3 3 1 0 1 2 2\n0 open.map 3 3 0 1 2 1 2\n",
    bound: 9,
    plan: b"plan 2 5\n1,0 1,0 1,1 1,2\n0,1 1,1 2,1\n",
};

/// Four cells in a square; two agents change places.
const CHANGE: Worked = Worked {
    map: b"type octile\nheight 2\nwidth 2\nmap\n..\n..\n",
    scen: b"version 1\n0 square.map 2 2 0 0 1 0 1\n0 square.map 2 2 1 0 0 0 1\n",
    bound: 6,
    plan: b"plan 2 4\n0,0 0,1 1,1 1,0\n1,0 0,0\n",
};

#[derive(Drop)]
enum Outcome {
    Right,
    NoMemory,
    Wrong,
}

fn ask_of(worked: &Worked, workers: u64) -> Ask {
    Ask {
        agents: 2,
        bound: worked.bound,
        workers,
        nodes: None,
        rule: Rule::Classical,
    }
}

fn answered<R: Threads + Sync>(rt: &R, alloc: Global, worked: &Worked, workers: u64) -> Outcome {
    let ask = ask_of(worked, workers);
    came_to(worked, answer(rt, alloc, worked.map, worked.scen, ask, &NoGate))
}

/// What an answer came to where one plan alone is right.
fn came_to(worked: &Worked, given: Result<Vec<u8>, Refusal>) -> Outcome {
    match given {
        Ok(text) if text.as_slice() == worked.plan => Outcome::Right,
        Err(Refusal::NoMemory) => Outcome::NoMemory,
        _ => Outcome::Wrong,
    }
}

/// The writer takes memory too, so a refusal there is a failed write.
fn judged(alloc: Global, worked: &Worked) -> Outcome {
    let mut map = Counted::of(worked.map);
    let mut scen = Counted::of(worked.scen);
    let mut plan = Counted::of(worked.plan);
    let mut out = Counted::of(Vec::new(alloc));
    match check_run(
        alloc,
        &mut map,
        &mut scen,
        &mut plan,
        &mut out,
        2,
        Rule::Classical,
    ) {
        Ok(Verdict::Valid { .. }) => Outcome::Right,
        Err(CheckFault::Device(
            DeviceFault::NoMemory | DeviceFault::WriteFailed { taken: 0 },
        )) => Outcome::NoMemory,
        _ => Outcome::Wrong,
    }
}

/// Command lines of the program, on files that the script writes: those of the corridor with a bay.
const SOLVE: &[&str] = &[
    "mapf", "solve", "--map", "map", "--scen", "scen", "--agents", "2", "--bound", "4", "--workers", "2",
];
const CHECK: &[&str] = &[
    "mapf", "check", "--map", "map", "--scen", "scen", "--agents", "2", "--plan", "plan",
];

fn words_of(alloc: Global, words: &[&str]) -> Option<Vec<String>> {
    let mut all = Vec::with_capacity(alloc, words.len()).ok()?;
    for word in words {
        let mut text = String::new(alloc);
        text.push_str(word).ok()?;
        all.push(text).ok()?;
    }
    Some(all)
}

/// What the program says to these words: what is right, with the status 0; or that there is no memory, with the status 4 and
/// nothing on its output.
fn called<R: Files + Threads + Clock + Sync>(
    rt: &R,
    alloc: Global,
    words: &[&str],
    right: &[u8],
    place: u64,
) -> Option<Outcome> {
    let words = words_of(alloc, words)?;
    let mut out = Vec::with_capacity(alloc, 100).ok()?;
    let mut err = Vec::with_capacity(alloc, 100).ok()?;
    let _ = is_refused(alloc, REFUSED - place);
    let status = call(
        rt,
        alloc,
        words,
        &mut Counted::of(&mut out),
        &mut Counted::of(&mut err),
    );
    Some(match status {
        0 if out.as_slice() == right && err.is_empty() => Outcome::Right,
        4 if out.is_empty() && err.as_slice() == b"mapf: 43 no memory\n".as_slice() => Outcome::NoMemory,
        _ => Outcome::Wrong,
    })
}

/// Whether one of so many allocations is refused.
fn is_refused(alloc: Global, count: u64) -> bool {
    (0..count).any(|_| {
        let other: Result<Vec<u8>, _> = Vec::with_capacity(alloc, 1);
        other.is_err()
    })
}

/// What is the square of a number?
struct Squares;

impl Task for Squares {
    type Job = u32;

    type Answer = u64;

    ghost fits = { λ n square. square ≡ n * n };
}

impl Work for Squares {
    fn number(&self, job: &u32) -> u64 {
        u64::from(*job)
    }

    fn perform(&self, job: u32) -> Result<Pair<Squares>, u32> {
        Ok(Pair::of(job, u64::from(job) * u64::from(job)))
    }
}

type Board = (Live<Squares>, Owner<Squares>, Vec<WorkerSeat<Squares>>);

/// A board of three slots with a job in the first and in the last; that of the middle was done and collected.
fn board_of_two_jobs(alloc: Global) -> Result<Board, NoMemory> {
    let (live, mut owner, mut workers) = Live::new(alloc, 3, 2).map_err(|_| NoMemory)?;
    for slot in 0..3 {
        let _ = live.post(&mut owner, slot, 5 + slot as u32);
    }
    let mut worker = workers.pop().unwrap();
    if live.claim(&mut worker, 1).is_ok() {
        live.work_off(&Squares, &NoGate, &AlwaysGrants, &mut worker);
    }
    workers.push(worker)?;
    let _ = live.collect(&mut owner, 1);
    Ok((live, owner, workers))
}

/// A refused `close` hands everything back, and the next one gives both jobs.
fn closed(alloc: Global) -> Outcome {
    let Ok((live, owner, workers)) = board_of_two_jobs(alloc) else {
        return Outcome::NoMemory;
    };
    let all = match live.close(alloc, owner, workers) {
        Ok(all) => Some(all),
        Err((live, owner, workers)) => live.close(alloc, owner, workers).ok(),
    };
    match all.as_deref() {
        Some([(0, Left::Job(5)), (2, Left::Job(7))]) => Outcome::Right,
        _ => Outcome::Wrong,
    }
}

fn problem_of(alloc: Global, worked: &Worked) -> Option<Problem> {
    let instance = instance_of(alloc, worked.map, worked.scen, 2).ok()?;
    Problem::new(alloc, instance, worked.bound as u32).ok()
}

/// The first nodes of the tree by levels, in the order of their keys.
fn first_nodes(alloc: Global, problem: &Problem, count: usize) -> Option<Vec<Node>> {
    let mut nodes = Vec::new(alloc);
    nodes.push(root(alloc, problem).ok()??).ok()?;
    let mut parent = 0;
    while nodes.len() < count {
        for side in [Side::Left, Side::Right] {
            let node = nodes.get(parent)?;
            if node.conflict().is_none() {
                continue;
            }
            if let Some(below) = child(alloc, problem, node, side).ok()? {
                nodes.push(below).ok()?;
            }
        }
        parent += 1;
    }
    let mut waiting = OpenList::new(alloc);
    while let Some(node) = nodes.pop() {
        waiting.put(node).ok()?;
    }
    take_all(&mut waiting, &mut nodes)?;
    Some(nodes)
}

/// Takes the nodes out, in the order of their keys.
fn take_all(waiting: &mut OpenList, nodes: &mut Vec<Node>) -> Option<()> {
    while let Some(node) = waiting.take_least() {
        nodes.push(node).ok()?;
    }
    Some(())
}

fn copies(alloc: Global, nodes: &[Node]) -> Option<Vec<Node>> {
    let mut same = Vec::with_capacity(alloc, nodes.len()).ok()?;
    for node in nodes {
        same.push(node.copy().ok()?).ok()?;
    }
    Some(same)
}

fn is_same(one: &Node, other: &Node) -> bool {
    one.key() == other.key() && one.conflict() == other.conflict()
}

/// Whether these nodes wait and no other, in this order.
fn lists(waiting: &OpenList, nodes: &[Node]) -> bool {
    waiting.first(nodes.len() + 1).count() == nodes.len()
        && waiting
            .first(nodes.len())
            .zip(nodes)
            .all(|(waits, node)| is_same(waits, node))
}

/// Puts the nodes into a list of their own, the last first, and takes them out again. Some where a `put` was refused:
/// whether it gave its node back and left the list as it was, and the next one put it in.
fn fill(alloc: Global, nodes: &mut Vec<Node>, same: &[Node]) -> Option<bool> {
    let mut waiting = OpenList::new(alloc);
    while let Some(node) = nodes.pop() {
        let place = nodes.len();
        if let Err(node) = waiting.put(node) {
            let is_as_before = is_same(&node, &same[place]) && lists(&waiting, &same[place + 1..]);
            let is_put = waiting.put(node).is_ok() && lists(&waiting, &same[place..]);
            return Some(is_as_before && is_put);
        }
    }
    take_all(&mut waiting, nodes)?;
    None
}

/// Fills lists until a `put` is refused. Each takes as many allocations as the one before, so it is enough to shift that
/// place by fewer than a list takes.
fn filled(alloc: Global, shift: u64) -> Option<bool> {
    let problem = problem_of(alloc, &CHANGE)?;
    let mut nodes = first_nodes(alloc, &problem, 20)?;
    let same = copies(alloc, nodes.as_slice())?;
    let _ = is_refused(alloc, shift);
    (0..REFUSED).find_map(|_| fill(alloc, &mut nodes, same.as_slice()))
}

/// Children as they are needed, each worked out alone.
#[derive(Drop)]
struct ByChild {
    alloc: Global,
}

impl Children for ByChild {
    ghost serves = { λ _ _. Unit {0} };

    fn both(
        &mut self,
        problem: &Problem,
        node: &Node,
    ) -> Result<(Option<Node>, Option<Node>), NoMemory> {
        let left = child(self.alloc, problem, node, Side::Left)?;
        let right = child(self.alloc, problem, node, Side::Right)?;
        Ok((left, right))
    }

    fn ahead(&mut self, _problem: &Problem, _waiting: &OpenList) {}
}

/// A search of two turns, which answers that memory ran out also from then on.
fn searched(alloc: Global, place: u64) -> Outcome {
    let Some(problem) = problem_of(alloc, &CROSSING) else {
        return Outcome::Wrong;
    };
    let Ok(mut search) = Search::new(alloc, &problem) else {
        return Outcome::Wrong;
    };
    let mut children = ByChild { alloc };
    let _ = is_refused(alloc, REFUSED - place);
    match search.go(&mut children, 2) {
        Ok(Progress::Finished) if search.answer().is_some() => Outcome::Right,
        Err(NoMemory) if is_out_of_memory(&mut search, &mut children) => Outcome::NoMemory,
        _ => Outcome::Wrong,
    }
}

/// Whether the search answers that memory ran out, and no answer.
fn is_out_of_memory(search: &mut Search<'_>, children: &mut ByChild) -> bool {
    search.go(children, 2).is_err() && search.answer().is_none()
}

/// What comes of the work of this letter where the allocation of this place in it is refused, and whether none was.
fn worked_out<R: Files + Threads + Clock + Sync>(rt: &R, alloc: Global, letter: u8, place: u64) -> (Outcome, bool) {
    let outcome = match letter {
        b'f' => match filled(alloc, place) {
            Some(true) => Outcome::Right,
            _ => Outcome::Wrong,
        },
        b'g' => searched(alloc, place),
        b'i' => called(rt, alloc, SOLVE, BAY.plan, place).unwrap_or(Outcome::Wrong),
        b'j' => called(rt, alloc, CHECK, b"valid 4\n", place).unwrap_or(Outcome::Wrong),
        _ => {
            let _ = is_refused(alloc, REFUSED - place);
            unprepared(rt, alloc, letter)
        }
    };
    (outcome, is_refused(alloc, REFUSED))
}

/// What comes of a work whose first allocation is the first of all.
fn unprepared<R: Threads + Sync>(rt: &R, alloc: Global, letter: u8) -> Outcome {
    match letter {
        b'a' => answered(rt, alloc, &BAY, 1),
        b'b' => answered(rt, alloc, &BAY, 2),
        b'c' => answered(rt, alloc, &CROSSING, 1),
        b'd' => answered(rt, alloc, &CROSSING, 2),
        b'e' => judged(alloc, &BAY),
        b'k' => {
            let ask = ask_of(&BAY, 2);
            came_to(&BAY, answer_any(rt, alloc, BAY.map, BAY.scen, ask, &NoGate))
        }
        _ => closed(alloc),
    }
}

/// Whether it is right, or wanting memory that was refused.
fn is_right_or_wanting<R: Files + Threads + Clock + Sync>(rt: &R, alloc: Global, letter: u8, place: u64) -> bool {
    match worked_out(rt, alloc, letter, place) {
        (Outcome::Right, _) => true,
        (Outcome::NoMemory, is_untouched) => !is_untouched,
        (Outcome::Wrong, _) => false,
    }
}

/// Whether it is right and has fewer allocations than that.
fn is_untouched<R: Files + Threads + Clock + Sync>(rt: &R, alloc: Global, letter: u8, place: u64) -> bool {
    matches!(worked_out(rt, alloc, letter, place), (Outcome::Right, true))
}
