//! A plain search of the constraint tree, to be timed beside mapf: docs/BENCHMARK.md.
//!
//! Usage: plain_search MAP SCEN AGENTS BOUND NODES. It prints the first line of the text that `mapf solve --nodes NODES` prints.
//! The same search by the classical rule, with nothing proved and no fault told: each own path is worked out once, backwards
//! from the goal; a node is its last change; a child's first conflict is found from its parent's; one thread. It expects good
//! files, and names of at most 128 turns.
use std::collections::{BTreeMap, HashMap, HashSet};
use std::rc::Rc;

type Cell = u32;
type Path = Vec<Cell>;

/// The agent may not be on the cell then; or not arrive on the second cell from the first then.
#[derive(Clone, Copy, PartialEq, Eq, Hash, PartialOrd, Ord)]
enum Constraint {
    Vertex(Cell, u32),
    Edge(Cell, Cell, u32),
}

/// Two agents on one cell, or which swap theirs: the first one comes from the one cell to the other. In their order.
#[derive(Clone, Copy, PartialEq, Eq, PartialOrd, Ord)]
struct Conflict {
    time: u32,
    swaps: bool,
    first: usize,
    second: usize,
    from: Cell,
    to: Cell,
}

/// For each cell the free ones among it and its four sides, by number; none where the cell is blocked.
struct Map {
    width: usize,
    near: Vec<Vec<Cell>>,
}

fn read_map(name: &str) -> Map {
    let text = std::fs::read_to_string(name).unwrap();
    let mut lines = text.lines().skip(1);
    let mut number = || lines.next().unwrap().split(' ').nth(1).unwrap().parse::<usize>().unwrap();
    let (height, width) = (number(), number());
    let free: Vec<bool> = lines.skip(1).take(height).flat_map(str::bytes).map(|sign| b".GS".contains(&sign)).collect();
    let near = |cell: usize| {
        let sides = [
            (cell >= width).then(|| cell - width),
            (cell % width > 0).then(|| cell - 1),
            Some(cell),
            (cell % width + 1 < width).then_some(cell + 1),
            (cell + width < free.len()).then_some(cell + width),
        ];
        if !free[cell] {
            return vec![];
        }
        sides.into_iter().flatten().filter(|side| free[*side]).map(|side| side as Cell).collect()
    };
    Map { width, near: (0..free.len()).map(near).collect() }
}

/// The starts and the goals of the first agents.
fn read_scenario(name: &str, width: usize, agents: usize) -> (Vec<Cell>, Vec<Cell>) {
    let text = std::fs::read_to_string(name).unwrap();
    let rows = text.lines().skip(1).take(agents).map(|line| {
        let at: Vec<usize> = line.split('\t').skip(4).take(4).map(|field| field.parse().unwrap()).collect();
        ((at[1] * width + at[0]) as Cell, (at[3] * width + at[2]) as Cell)
    });
    rows.unzip()
}

fn distances(map: &Map, start: Cell) -> Vec<u32> {
    let mut table = vec![u32::MAX; map.near.len()];
    let mut queue = vec![start];
    table[start as usize] = 0;
    let mut next = 0;
    while next < queue.len() {
        let cell = queue[next] as usize;
        next += 1;
        for &side in &map.near[cell] {
            if table[side as usize] == u32::MAX {
                table[side as usize] = table[cell] + 1;
                queue.push(side);
            }
        }
    }
    table
}

/// The agent's own path, which costs at least and at most so much; the table has the distances from its start.
fn own_path(map: &Map, table: &[u32], goal: Cell, set: &[Constraint], least: u32, most: u32) -> Option<Path> {
    let mut end = least.max(table[goal as usize]);
    let mut last = 0;
    for constraint in set {
        match *constraint {
            Constraint::Vertex(cell, time) => {
                last = last.max(time);
                if cell == goal {
                    end = end.max(time + 1);
                }
            }
            Constraint::Edge(_, _, time) => last = last.max(time),
        }
    }
    let has = |constraint| set.binary_search(&constraint).is_ok();
    let most = most.min(last.saturating_add(map.near.len() as u32));
    let mut dead: HashSet<(Cell, u32)> = HashSet::new();
    while end <= most {
        let mut path = vec![goal; end as usize + 1];
        let mut tried = vec![0; end as usize + 1];
        let mut time = end;
        while time > 0 {
            let to = path[time as usize];
            let before = time - 1;
            let is_left = |from: Cell| {
                table[from as usize] <= before
                    && !dead.contains(&(from, before))
                    && !has(Constraint::Vertex(from, before))
                    && !has(Constraint::Edge(from, to, time))
            };
            let near = &map.near[to as usize];
            match (tried[time as usize]..near.len()).find(|place| is_left(near[*place])) {
                Some(place) => {
                    tried[time as usize] = place + 1;
                    path[before as usize] = near[place];
                    tried[before as usize] = 0;
                    time = before;
                }
                None => {
                    dead.insert((to, time));
                    if time == end {
                        break;
                    }
                    time += 1;
                }
            }
        }
        if time == 0 && !has(Constraint::Vertex(path[0], 0)) {
            return Some(path);
        }
        end += 1;
    }
    None
}

fn at(path: &[Cell], time: usize) -> Cell {
    path[time.min(path.len() - 1)]
}

/// The conflict of two agents at a time step.
fn conflict_at(paths: &[&[Cell]], one: usize, other: usize, time: usize) -> Option<Conflict> {
    let (first, second) = (one.min(other), one.max(other));
    let (to, cell) = (at(paths[first], time), at(paths[second], time));
    let swaps = time > 0 && at(paths[first], time - 1) == cell && at(paths[second], time - 1) == to;
    let is = to == cell || swaps;
    is.then(|| Conflict { time: time as u32, swaps: to != cell, first, second, from: cell, to })
}

/// The first conflict of this agent with another before the end; none of them has one with it before the first time step.
fn first_with(paths: &[&[Cell]], agent: usize, from: usize, end: usize) -> Option<Conflict> {
    let mut first: Option<Conflict> = None;
    let mut end = end;
    let path = paths[agent];
    for (other, beside) in paths.iter().enumerate() {
        if other == agent {
            continue;
        }
        for time in from..end {
            let (one, two) = (at(path, time), at(beside, time));
            let near = one == two || time > 0 && one == at(beside, time - 1) && two == at(path, time - 1);
            if near {
                let found = conflict_at(paths, agent, other, time);
                first = first.into_iter().chain(found).min();
                end = time + 1;
                break;
            }
        }
    }
    first
}

/// In which round each cell was entered last, and by which agent.
struct Marks {
    cells: Vec<(u32, u32)>,
    round: u32,
}

/// The first conflict, where there is none before this time step.
fn first_from(paths: &[&[Cell]], time: usize, marks: &mut Marks) -> Option<Conflict> {
    let end = paths.iter().map(|path| path.len()).max().unwrap();
    for time in time..end {
        marks.round += 1;
        let mut first: Option<Conflict> = None;
        let before = time.saturating_sub(1);
        for (agent, path) in paths.iter().enumerate() {
            let (to, from) = (at(path, time), at(path, before));
            let there = marks.cells[to as usize];
            let behind = marks.cells[from as usize];
            if there.0 == marks.round || behind.0 == marks.round && at(paths[behind.1 as usize], before) == to {
                let others = (0..agent).filter_map(|other| conflict_at(paths, other, agent, time));
                first = first.into_iter().chain(others).min();
            }
            marks.cells[to as usize] = (marks.round, agent as u32);
        }
        if first.is_some() {
            return first;
        }
    }
    None
}

/// What a turn changed, behind the changes before it.
struct Change {
    before: Option<Rc<Change>>,
    agent: usize,
    /// The agent's set of constraints and its path since, by their numbers.
    set: usize,
    path: usize,
}

struct Node {
    change: Option<Rc<Change>>,
    conflict: Option<Conflict>,
}

/// Sets of constraints and paths by number, and which set is another one with one constraint more.
struct Known {
    sets: Vec<Vec<Constraint>>,
    paths: Vec<Path>,
    path_of_set: Vec<Option<usize>>,
    more: HashMap<(usize, Constraint), usize>,
}

fn main() {
    let words: Vec<String> = std::env::args().collect();
    let number = |place: usize| words[place].parse::<u64>().unwrap();
    let (agents, bound, nodes) = (number(3) as usize, number(4), number(5));
    let map = read_map(&words[1]);
    let (starts, goals) = read_scenario(&words[2], map.width, agents);
    let tables: Vec<Vec<u32>> = starts.iter().map(|start| distances(&map, *start)).collect();
    let mut known = Known { sets: vec![], paths: vec![], path_of_set: vec![], more: HashMap::new() };
    for agent in 0..agents {
        let path = own_path(&map, &tables[agent], goals[agent], &[], 0, bound as u32);
        let Some(path) = path else { return println!("none {bound}") };
        known.sets.push(vec![]);
        known.path_of_set.push(Some(agent));
        known.paths.push(path);
    }
    let cost: u64 = known.paths.iter().map(|path| path.len() as u64 - 1).sum();
    let mut marks = Marks { cells: vec![(0, 0); map.near.len()], round: 0 };
    let mut waiting: BTreeMap<(u64, usize, u128), Node> = BTreeMap::new();
    if cost <= bound {
        let paths: Vec<&[Cell]> = known.paths.iter().map(|path| &path[..]).collect();
        waiting.insert((cost, 0, 0), Node { change: None, conflict: first_from(&paths, 0, &mut marks) });
    }
    let mut taken = 0;
    while let Some(((cost, depth, name), node)) = waiting.pop_first() {
        if taken == nodes {
            return println!("gave up {nodes} {cost}");
        }
        taken += 1;
        let Some(conflict) = node.conflict else { return println!("plan {agents} {cost}") };
        let mut current: Vec<(usize, usize)> = (0..agents).map(|agent| (agent, agent)).collect();
        let mut is_newest = vec![true; agents];
        let mut change = &node.change;
        while let Some(last) = change {
            if std::mem::take(&mut is_newest[last.agent]) {
                current[last.agent] = (last.set, last.path);
            }
            change = &last.before;
        }
        for (side, agent) in [conflict.first, conflict.second].into_iter().enumerate() {
            let Conflict { time, swaps, from, to, .. } = conflict;
            let constraint = match (swaps, side) {
                (false, _) => Constraint::Vertex(to, time),
                (true, 0) => Constraint::Edge(from, to, time),
                (true, _) => Constraint::Edge(to, from, time),
            };
            let (set, path) = current[agent];
            let least = known.paths[path].len() as u64 - 1;
            let most = bound - (cost - least);
            let set = *known.more.entry((set, constraint)).or_insert_with(|| {
                let mut more = known.sets[set].clone();
                more.insert(more.binary_search(&constraint).unwrap_err(), constraint);
                let found = own_path(&map, &tables[agent], goals[agent], &more, least as u32, bound as u32);
                known.sets.push(more);
                known.path_of_set.push(found.map(|path| {
                    known.paths.push(path);
                    known.paths.len() - 1
                }));
                known.sets.len() - 1
            });
            let Some(path) = known.path_of_set[set] else { continue };
            let (new, old) = (&known.paths[path], &known.paths[current[agent].1]);
            if new.len() as u64 - 1 > most {
                continue;
            }
            let mut paths: Vec<&[Cell]> = current.iter().map(|(_, path)| &known.paths[*path][..]).collect();
            paths[agent] = new;
            let shared = new.iter().zip(old).take_while(|(one, other)| one == other).count();
            let time = time as usize;
            let first = first_with(&paths, agent, shared.min(time), time).or_else(|| first_from(&paths, time, &mut marks));
            let change = Some(Rc::new(Change { before: node.change.clone(), agent, set, path }));
            let name = name | (side as u128) << (127 - depth);
            waiting.insert((cost - least + new.len() as u64 - 1, depth + 1, name), Node { change, conflict: first });
        }
    }
    println!("none {bound}");
}
