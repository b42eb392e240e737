//! A plain search of free choice for an optimum, to be timed beside `mapf solve --any-optimum`: docs/BENCHMARK.md.
//!
//! Usage: plain_optimum MAP SCEN AGENTS [--bound B] [--no-following] [--statistics]. It prints a plan of least cost, or
//! `none B`, as `mapf solve` does, and statistics on standard error. Nothing is proved and no fault told; one thread.
//!
//! It asks what some agents cost together at least, and by which plan, each under demands of its own. A node has for
//! each agent its demands and a path that meets them, and a label: no valid plan that meets them costs less. The node
//! of the least label is taken. Agents that collide become a group, of which the same is asked, with half the effort;
//! what is found is remembered, and its plan takes the place of their paths. If that leaves a conflict, the node
//! branches.
use std::cmp::Reverse;
use std::collections::{BTreeMap, HashMap};
use std::ops::Range;
use std::rc::Rc;
use std::time::Instant;

/// By rows.
type Cell = u32;
/// The cells by time step, up to the path's cost.
type Path = Rc<Vec<Cell>>;
/// By their numbers, which rise.
type Agents = Rc<[usize]>;

/// Stands for any cell, for no place, for no number of steps and for no cost.
const NONE: u32 = u32::MAX;
/// Stands for no agent.
const NOBODY: u16 = u16::MAX;
/// How many agents are in a group, at most.
const MOST_AGENTS: usize = 10;
/// How many nodes the search of a group expands, at most; that of a group in it has half of that.
const EFFORT: usize = 500;
/// How often no plan of a group is found before little effort is made for it.
const MOST_FAILURES: u32 = 2;
/// Little effort.
const LITTLE: usize = 10;
/// How many states are looked at to find a plan of two agents, at most.
const MOST_STATES: usize = 20000;
/// How many cells of layers are remembered, at most: then all are forgotten.
const MOST_CELLS: usize = 3000000;
/// How many times agents choose other paths of the same costs, at most.
const MOST_ROUNDS: usize = 4;

/// The agent may not arrive on the cell then from this one, or from any.
#[derive(Clone, Copy, PartialEq, Eq, Hash, PartialOrd, Ord)]
struct Constraint {
    time: u32,
    to: Cell,
    from: Cell,
}

/// Two agents that collide, and what each would be forbidden: each valid plan obeys one of the sides.
#[derive(Clone, Copy)]
struct Conflict {
    agents: [usize; 2],
    sides: [Constraint; 2],
}

/// An instance. For each cell the free ones among it and its four sides, none where it is blocked; for each agent the
/// steps from each cell to its goal, and its least cost; whose goal each cell is; what a plan may cost; whether one may
/// follow another.
struct World {
    width: usize,
    near: Vec<Vec<Cell>>,
    starts: Vec<Cell>,
    goals: Vec<Cell>,
    steps: Vec<Vec<u32>>,
    least: Vec<u32>,
    owners: Vec<u16>,
    bound: u32,
    may_follow: bool,
}

/// The width, and for each cell the free ones among it and its four sides.
fn read_map(name: &str) -> (usize, Vec<Vec<Cell>>) {
    let text = std::fs::read_to_string(name).unwrap();
    let mut lines = text.lines().skip(1);
    let mut number = || lines.next().unwrap().split(' ').nth(1).unwrap().parse::<usize>().unwrap();
    let (height, width) = (number(), number());
    let free: Vec<bool> = lines.skip(1).take(height).flat_map(str::bytes).map(|sign| b".G".contains(&sign)).collect();
    let near = |cell: usize| {
        let (x, y) = (cell % width, cell / width);
        let around = [(x, y.wrapping_sub(1)), (x.wrapping_sub(1), y), (x, y), (x + 1, y), (x, y + 1)];
        let within = around.into_iter().filter(|(x, y)| *x < width && *y < height).map(|(x, y)| y * width + x);
        within.filter(|side| free[cell] && free[*side]).map(|side| side as Cell).collect()
    };
    (width, (0..free.len()).map(near).collect())
}

/// The starts and the goals of the first agents.
fn read_scenario(name: &str, width: usize, agents: usize) -> (Vec<Cell>, Vec<Cell>) {
    let text = std::fs::read_to_string(name).unwrap();
    let rows = text.lines().skip(1).take(agents).map(|line| {
        let at: Vec<usize> = line.split('\t').skip(4).take(4).map(|field| field.parse().unwrap()).collect();
        ((at[1] * width + at[0]) as Cell, (at[3] * width + at[2]) as Cell)
    });
    rows.unzip()
}

/// For each cell the steps from it to the goal.
fn steps_to(near: &[Vec<Cell>], goal: Cell) -> Vec<u32> {
    let mut table = vec![NONE; near.len()];
    let mut queue = vec![goal];
    table[goal as usize] = 0;
    let mut next = 0;
    while let Some(&cell) = queue.get(next) {
        next += 1;
        for &side in &near[cell as usize] {
            if table[side as usize] == NONE {
                table[side as usize] = table[cell as usize] + 1;
                queue.push(side);
            }
        }
    }
    table
}

impl World {
    /// The instance of these files.
    fn read(map: &str, scenario: &str, agents: usize, bound: u32, may_follow: bool) -> World {
        let (width, near) = read_map(map);
        let (starts, goals) = read_scenario(scenario, width, agents);
        let steps: Vec<Vec<u32>> = goals.iter().map(|goal| steps_to(&near, *goal)).collect();
        let mut owners = vec![NOBODY; near.len()];
        goals.iter().enumerate().for_each(|(agent, goal)| owners[*goal as usize] = agent as u16);
        let least = (0..agents).map(|agent| steps[agent][starts[agent] as usize].min(bound + 1)).collect();
        World { width, near, starts, goals, steps, least, owners, bound, may_follow }
    }

    /// What these agents may cost together, where the others cost their least.
    fn most(&self, agents: &[usize]) -> u32 {
        let all: u64 = self.least.iter().map(|least| *least as u64).sum();
        let some: u64 = agents.iter().map(|agent| self.least[*agent] as u64).sum();
        (self.bound as u64 + some).saturating_sub(all) as u32
    }

    /// Whether two agents collide as they go each from one cell to another.
    fn collide(&self, [from, to]: [Cell; 2], [beside, then]: [Cell; 2]) -> bool {
        match self.may_follow {
            true => to == then || to == beside && then == from,
            false => to == then || to == beside || then == from,
        }
    }
}

/// What is asked of an agent's path: to obey the constraints, which are sorted.
#[derive(Clone, PartialEq, Eq, Hash)]
struct Demands {
    agent: usize,
    constraints: Vec<Constraint>,
}

impl Demands {
    /// The constraints of a time step.
    fn at(&self, time: u32) -> &[Constraint] {
        let begin = self.constraints.partition_point(|each| each.time < time);
        let count = self.constraints[begin..].partition_point(|each| each.time == time);
        &self.constraints[begin..begin + count]
    }

    /// Whether a path of so much may begin at its start and stay on its goal from then on.
    fn may_cost(&self, start: Cell, goal: Cell, cost: u32) -> bool {
        let stays = self.constraints.iter().all(|each| each.to != goal || each.from != NONE || each.time < cost);
        stays && !(cost == 1 && start == goal) && allow(self.at(0), NONE, start)
    }
}

/// Whether the constraints of a time step allow to go there.
fn allow(now: &[Constraint], from: Cell, to: Cell) -> bool {
    now.iter().all(|each| each.to != to || each.from != NONE && each.from != from)
}

/// The paths of an agent that meet its demands and cost so much: for each time step the cells that it reaches, and from
/// which its goal is near enough; where each time step begins; from each place those of the next time step to which it
/// may go; and where these begin. From some it can't go on; from the last one it goes to that.
struct Layers {
    cells: Vec<Cell>,
    begins: Vec<usize>,
    firsts: Vec<u32>,
    moves: Vec<u32>,
}

impl Layers {
    /// What the paths cost.
    fn cost(&self) -> usize {
        self.begins.len() - 2
    }

    /// The places of a time step. The agent stays on its goal after the end.
    fn places(&self, time: usize) -> Range<usize> {
        let time = time.min(self.cost());
        self.begins[time]..self.begins[time + 1]
    }

    /// The places to which the agent may go from a place.
    fn moves(&self, place: usize) -> &[u32] {
        &self.moves[self.firsts[place] as usize..self.firsts[place + 1] as usize]
    }

    /// None if there is no such path. The cost is no less than the steps. In the table a cell may have its place.
    fn of(world: &World, table: &mut [u32], demands: &Demands, cost: u32) -> Option<Layers> {
        let (start, goal) = (world.starts[demands.agent], world.goals[demands.agent]);
        if !demands.may_cost(start, goal, cost) {
            return None;
        }
        let mut layers = Layers { cells: vec![start], begins: vec![0, 1], firsts: vec![0], moves: vec![] };
        for time in 1..=cost {
            layers.add(world, table, demands, time, cost - time);
            if layers.places(time as usize).is_empty() {
                return None;
            }
        }
        layers.moves.push(layers.cells.len() as u32 - 1);
        layers.firsts.push(layers.moves.len() as u32);
        Some(layers)
    }

    /// Adds the cells that the agent reaches at the time step, and from which its goal is near enough for what is left.
    fn add(&mut self, world: &World, table: &mut [u32], demands: &Demands, time: u32, left: u32) {
        let (goal, steps) = (world.goals[demands.agent], &world.steps[demands.agent]);
        let (now, begin) = (demands.at(time), self.cells.len());
        for place in self.places(time as usize - 1) {
            let from = self.cells[place];
            for &to in &world.near[from as usize] {
                if steps[to as usize] <= left && (to != goal || left != 1) && allow(now, from, to) {
                    let known = table[to as usize] as usize;
                    if known < begin || self.cells.get(known) != Some(&to) {
                        table[to as usize] = self.cells.len() as u32;
                        self.cells.push(to);
                    }
                    self.moves.push(table[to as usize]);
                }
            }
            self.firsts.push(self.moves.len() as u32);
        }
        self.begins.push(self.cells.len());
    }
}

/// Demands by number; what the least path that meets them costs, none if no path within the agent's limit does; the
/// layers that were made, by number and cost, and how many cells they have. The table is for making them.
struct Known {
    world: World,
    table: Vec<u32>,
    demands: Vec<Rc<Demands>>,
    numbers: HashMap<Rc<Demands>, usize>,
    costs: Vec<u32>,
    layers: HashMap<(usize, u32), Option<Rc<Layers>>>,
    cells: usize,
}

impl Known {
    /// The number of these demands, where no path that meets them costs less than `from`.
    fn number(&mut self, demands: Demands, from: u32) -> usize {
        if let Some(&number) = self.numbers.get(&demands) {
            return number;
        }
        let (number, demands) = (self.demands.len(), Rc::new(demands));
        self.numbers.insert(demands.clone(), number);
        self.demands.push(demands);
        let cost = self.cost(number, from);
        self.costs.push(cost);
        number
    }

    /// The number of the demands with one constraint more, which isn't among them.
    fn with(&mut self, set: usize, constraint: Constraint) -> usize {
        let mut demands = Demands::clone(&self.demands[set]);
        let place = demands.constraints.binary_search(&constraint).unwrap_err();
        demands.constraints.insert(place, constraint);
        self.number(demands, self.costs[set])
    }

    /// What the cheapest path costs of those that cost so much at least; none if none is within the agent's limit.
    fn cost(&mut self, set: usize, from: u32) -> u32 {
        let Demands { agent, constraints } = &*self.demands[set];
        let last = constraints.last().map_or(0, |each| each.time).max(from);
        let most = self.world.most(&[*agent]).min(last.saturating_add(self.world.near.len() as u32));
        (from..=most).find(|cost| self.layers(set, *cost).is_some()).unwrap_or(NONE)
    }

    /// The layers of the paths that cost so much; none if there are none.
    fn layers(&mut self, set: usize, cost: u32) -> Option<Rc<Layers>> {
        if let Some(layers) = self.layers.get(&(set, cost)) {
            return layers.clone();
        }
        if self.cells > MOST_CELLS {
            self.layers.clear();
            self.cells = 0;
        }
        let layers = Layers::of(&self.world, &mut self.table, &self.demands[set], cost).map(Rc::new);
        self.cells += layers.as_ref().map_or(1, |layers| layers.cells.len());
        self.layers.insert((set, cost), layers.clone());
        layers
    }
}

/// Where the path is at a time step; at its end after that.
fn at(path: &[Cell], time: usize) -> Cell {
    path[time.min(path.len() - 1)]
}

/// The paths of some agents: for each time step and cell a chain of those that are there, until they have arrived.
struct Table {
    cells: usize,
    first: Vec<u16>,
    next: Vec<Vec<u16>>,
    paths: Vec<Option<Path>>,
}

impl Table {
    /// Takes the agent's path out, if it has one.
    fn take(&mut self, agent: usize) {
        let Some(path) = self.paths[agent].take() else { return };
        for (time, &cell) in path.iter().enumerate() {
            let after = self.next[agent][time];
            let first = &mut self.first[time * self.cells + cell as usize];
            let mut before = *first as usize;
            if before == agent {
                *first = after;
                continue;
            }
            while self.next[before][time] as usize != agent {
                before = self.next[before][time] as usize;
            }
            self.next[before][time] = after;
        }
    }

    /// Puts a path of the agent in, which has none.
    fn put(&mut self, agent: usize, path: &Path) {
        self.first.resize(self.first.len().max(path.len() * self.cells), NOBODY);
        self.next[agent].resize(path.len(), NOBODY);
        for (time, &cell) in path.iter().enumerate() {
            let first = &mut self.first[time * self.cells + cell as usize];
            self.next[agent][time] = std::mem::replace(first, agent as u16);
        }
        self.paths[agent] = Some(path.clone());
    }

    /// Gives these agents these paths.
    fn show(&mut self, agents: &[usize], paths: &[Option<Path>]) {
        for &agent in agents {
            if self.paths[agent].as_ref().map(Rc::as_ptr) != paths[agent].as_ref().map(Rc::as_ptr) {
                self.take(agent);
                paths[agent].iter().for_each(|path| self.put(agent, path));
            }
        }
    }

    /// Where an agent is that has a path.
    fn at(&self, agent: usize, time: usize) -> Cell {
        at(self.paths[agent].as_ref().unwrap(), time)
    }

    /// Each agent that is on the cell at the time step.
    fn each_on(&self, world: &World, time: usize, cell: Cell, mut work: impl FnMut(usize)) {
        let mut agent = self.first.get(time * self.cells + cell as usize).copied().unwrap_or(NOBODY);
        while agent != NOBODY {
            work(agent as usize);
            agent = self.next[agent as usize][time];
        }
        let owner = world.owners[cell as usize];
        if owner != NOBODY && self.paths[owner as usize].as_ref().is_some_and(|path| time >= path.len()) {
            work(owner as usize);
        }
    }

    /// Each swapping or following conflict of an agent that isn't in the table, on its way from one cell to another.
    fn each_between(&self, world: &World, time: usize, way: [Cell; 2], mut work: impl FnMut(usize, [Constraint; 2])) {
        let [from, to] = way;
        if from == to {
            return;
        }
        let on = |to: Cell, time: usize| Constraint { time: time as u32, to, from: NONE };
        self.each_on(world, time, from, |other| {
            let before = self.at(other, time - 1);
            if world.may_follow && before == to {
                work(other, [Constraint { from, ..on(to, time) }, Constraint { from: to, ..on(from, time) }]);
            } else if !world.may_follow && before != from {
                work(other, [on(from, time - 1), on(from, time)]);
            }
        });
        if !world.may_follow {
            self.each_on(world, time - 1, to, |other| {
                if self.at(other, time) != to {
                    work(other, [on(to, time), on(to, time - 1)]);
                }
            });
        }
    }

    /// Of the paths in these layers one that meets the fewest others; its agent isn't in the table.
    fn least_met(&self, world: &World, layers: &Layers) -> Path {
        let mut best = vec![(0, 0); layers.cells.len()];
        for time in (0..layers.cost()).rev() {
            for place in layers.places(time + 1) {
                self.each_on(world, time + 1, layers.cells[place], |_| best[place].0 += 1);
            }
            for place in layers.places(time) {
                let after = |to: &u32| {
                    let mut met = best[*to as usize].0;
                    let way = [layers.cells[place], layers.cells[*to as usize]];
                    self.each_between(world, time + 1, way, |_, _| met += 1);
                    (met, *to)
                };
                best[place] = layers.moves(place).iter().map(after).min().unwrap_or((u32::MAX / 2, 0));
            }
        }
        let mut place = 0;
        let mut path = vec![layers.cells[0]];
        for _ in 0..layers.cost() {
            place = best[place].1 as usize;
            path.push(layers.cells[place]);
        }
        Rc::new(path)
    }

    /// All conflicts of an agent that isn't in the table with those that have one of these paths.
    fn conflicts(&self, world: &World, agent: usize, path: &[Cell], paths: &[Option<Path>]) -> Vec<Conflict> {
        let mut found = vec![];
        for time in 0..path.len().max(self.first.len() / self.cells) {
            let (from, to) = (at(path, time.max(1) - 1), at(path, time));
            let side = Constraint { time: time as u32, to, from: NONE };
            let mut add = |other: usize, sides| {
                if paths[other].is_some() {
                    found.push(Conflict { agents: [agent, other], sides });
                }
            };
            self.each_on(world, time, to, |other| add(other, [side, side]));
            self.each_between(world, time, [from, to], add);
        }
        found
    }
}

/// Two paths in these layers without a collision, by the states, a time step and the places in which both may be then,
/// deep first; none if there are none, or so many states were looked at.
fn plan_of_two(world: &World, layers: [&Layers; 2], left: &mut usize) -> Option<Vec<Path>> {
    let end = layers[0].cost().max(layers[1].cost());
    let mut begins = vec![0];
    for time in 0..=end {
        begins.push(begins[time] + layers[0].places(time).len() * layers[1].places(time).len());
    }
    let mut seen = vec![false; begins[end + 1]];
    // Of each state the places, and the number of the one before.
    let mut states = vec![([0, 0], 0)];
    let mut waiting = vec![(0, 0)];
    while let Some((time, before)) = waiting.pop() {
        if time == end {
            return Some(paths_to(&states, layers, before));
        }
        if *left == 0 {
            return None;
        }
        *left -= 1;
        let places: [usize; 2] = states[before].0;
        let [from, beside] = [0, 1].map(|side| layers[side].cells[places[side]]);
        let [ones, others] = layers.map(|layers| layers.places(time + 1));
        for one in layers[0].moves(places[0]).iter().map(|one| *one as usize) {
            let row = begins[time + 1] + (one - ones.start) * others.len();
            for other in layers[1].moves(places[1]).iter().map(|other| *other as usize) {
                let (to, then) = (layers[0].cells[one], layers[1].cells[other]);
                let seen = &mut seen[row + other - others.start];
                if !*seen && !world.collide([from, to], [beside, then]) {
                    *seen = true;
                    waiting.push((time + 1, states.len()));
                    states.push(([one, other], before));
                }
            }
        }
    }
    None
}

/// The paths that end in a state; before the first one comes itself.
fn paths_to(states: &[([usize; 2], usize)], layers: [&Layers; 2], last: usize) -> Vec<Path> {
    let chain = std::iter::successors(Some(last), |state| (*state > 0).then(|| states[*state].1));
    let mut places: Vec<[usize; 2]> = chain.map(|state| states[state].0).collect();
    places.reverse();
    let cell = |side: usize, time: usize| layers[side].cells[places[time][side]];
    [0, 1].map(|side| Rc::new((0..=layers[side].cost()).map(|time| cell(side, time)).collect())).into()
}

/// Agents that were asked for together, and what they cost at least.
#[derive(Clone)]
struct Group {
    agents: Agents,
    least: u32,
}

/// What was found of some agents: what they cost at least, none if no plan is within their limit; and a plan that costs
/// so much.
struct Found {
    least: u32,
    plan: Option<Vec<Path>>,
}

/// A node: of each agent that is searched its demands, by number, and a path that meets them, and no path of others;
/// the groups, of which no two have a common agent; and all conflicts.
#[derive(Clone)]
struct Node {
    sets: Vec<usize>,
    paths: Vec<Option<Path>>,
    groups: Vec<Group>,
    conflicts: Vec<Conflict>,
}

impl Node {
    /// The agents of the group that the agent is in, or it alone.
    fn mates(&self, agent: usize) -> Agents {
        let group = self.groups.iter().find(|group| group.agents.contains(&agent));
        group.map_or([agent].into(), |group| group.agents.clone())
    }

    /// Takes the paths of these agents away.
    fn hide(&mut self, agents: &[usize]) {
        agents.iter().for_each(|agent| self.paths[*agent] = None);
        self.conflicts.retain(|each| each.agents.iter().all(|agent| !agents.contains(agent)));
    }

    /// The fewest agents of two groups that collide: fewer than so many, and not in vain before.
    fn next_group(&self, count: usize, vain: &[Agents]) -> Option<Agents> {
        let groups = self.conflicts.iter().map(|each| each.agents.map(|agent| self.mates(agent)));
        let joined = groups.filter(|[one, other]| one != other).map(|groups| {
            let mut both = groups.concat();
            both.sort();
            Agents::from(both)
        });
        let is_new = |both: &Agents| both.len() < count && both.len() <= MOST_AGENTS && !vain.contains(both);
        joined.filter(is_new).min_by_key(|both| both.len())
    }
}

/// A node that waits, or a child that is made of its parent when it is taken: the agent has other demands.
enum Waiting {
    Node(Node),
    Child(Rc<Node>, usize, usize),
}

/// A search among the plans of some agents: what they may cost; with how much effort groups of them are asked for; and
/// what waits, by label, number of conflicts and age.
struct Tree {
    agents: Agents,
    most: u32,
    effort: usize,
    waiting: BTreeMap<(u32, usize, usize), Waiting>,
    entered: usize,
}

impl Tree {
    /// It waits, if its label is within the limit.
    fn enter(&mut self, label: u32, conflicts: usize, waiting: Waiting) {
        if label <= self.most {
            self.entered += 1;
            self.waiting.insert((label, conflicts, self.entered), waiting);
        }
    }
}

/// What was found, by the agents' demands; how often no plan of some agents was found; into which groups they came at
/// their last root; and how many nodes were expanded.
struct Search {
    known: Known,
    table: Table,
    found: HashMap<Vec<usize>, Rc<Found>>,
    failures: HashMap<Vec<usize>, u32>,
    hints: HashMap<Agents, Vec<Agents>>,
    expanded: usize,
}

impl Search {
    /// Nothing was found yet.
    fn new(world: World) -> Search {
        let (cells, agents) = (world.near.len(), world.starts.len());
        let (table, demands, numbers, costs, layers) = (vec![0; cells], vec![], HashMap::new(), vec![], HashMap::new());
        Search {
            known: Known { world, table, demands, numbers, costs, layers, cells: 0 },
            table: Table { cells, first: vec![], next: vec![vec![]; agents], paths: vec![None; agents] },
            found: HashMap::new(),
            failures: HashMap::new(),
            hints: HashMap::new(),
            expanded: 0,
        }
    }

    /// The paths of a plan that costs least, if there is one within the bound.
    fn optimum(&mut self) -> Option<Vec<Path>> {
        let agents: Vec<usize> = (0..self.known.world.starts.len()).collect();
        let mut sets = vec![];
        for &agent in &agents {
            sets.push(self.known.number(Demands { agent, constraints: vec![] }, self.known.world.least[agent]));
        }
        if sets.iter().any(|set| self.known.costs[*set] == NONE) {
            return None;
        }
        self.search(&agents, &sets, 0, [usize::MAX, EFFORT]).plan
    }

    /// What the agents with these demands cost together, where it is known that they cost so much at least.
    fn ask(&mut self, sets: &[usize], least: u32, effort: usize) -> Rc<Found> {
        if let Some(found) = self.found.get(sets) {
            return found.clone();
        }
        let agents: Vec<usize> = sets.iter().map(|set| self.known.demands[*set].agent).collect();
        let has_failed = self.failures.get(&agents).is_some_and(|failures| *failures >= MOST_FAILURES);
        let (effort, states) = if has_failed { (effort.min(LITTLE), MOST_STATES / 20) } else { (effort, MOST_STATES) };
        let mut found = match sets {
            [one, other] => self.ask_two(&agents, [*one, *other], least, states),
            _ => Found { least, plan: None },
        };
        if found.plan.is_none() && found.least != NONE {
            found = self.search(&agents, sets, found.least, [effort, effort / 2]);
        }
        if found.plan.is_none() && found.least != NONE {
            *self.failures.entry(agents).or_default() += 1;
        }
        let found = Rc::new(found);
        self.found.insert(sets.to_vec(), found.clone());
        found
    }

    /// The same of two agents by the places where both may be, for each way to share what they cost more than alone.
    fn ask_two(&mut self, agents: &[usize], sets: [usize; 2], least: u32, states: usize) -> Found {
        let costs = sets.map(|set| self.known.costs[set]);
        let mut left = states;
        for total in least.max(costs[0] + costs[1])..=self.known.world.most(agents) {
            let extra = total - costs[0] - costs[1];
            for turn in 0..=extra {
                let more = if turn % 2 == 0 { turn / 2 } else { extra - turn / 2 };
                left = left.saturating_sub(1 + total as usize / 8);
                let one = self.known.layers(sets[0], costs[0] + more);
                let other = self.known.layers(sets[1], costs[1] + extra - more);
                let plan = one.zip(other);
                let plan = plan.and_then(|both| plan_of_two(&self.known.world, [&both.0, &both.1], &mut left));
                if plan.is_some() || left == 0 {
                    return Found { least: total, plan };
                }
            }
        }
        Found { least: NONE, plan: None }
    }

    /// The same of any agents by a tree of so many nodes at most, which asks for groups with so much effort.
    fn search(&mut self, agents: &[usize], sets: &[usize], least: u32, [nodes, effort]: [usize; 2]) -> Found {
        let most = self.known.world.most(agents);
        let mut tree = Tree { agents: agents.into(), most, effort, waiting: BTreeMap::new(), entered: 0 };
        let root = self.root(&tree, sets);
        tree.enter(least.max(self.least(agents, &root.groups, &root.sets)), 0, Waiting::Node(root));
        let mut left = nodes;
        while let Some(((label, _, _), waiting)) = tree.waiting.pop_first() {
            let node = self.worked_out(&tree, waiting, label);
            let least = self.least(agents, &node.groups, &node.sets);
            if least > label {
                tree.enter(least, node.conflicts.len(), Waiting::Node(node));
                continue;
            }
            if left == nodes {
                let groups = node.groups.iter().map(|group| group.agents.clone());
                self.hints.insert(agents.into(), groups.collect());
            }
            let plan = || agents.iter().flat_map(|agent| node.paths[*agent].clone()).collect();
            let plan = node.conflicts.is_empty().then(plan);
            if plan.is_some() || left == 0 {
                return Found { least: label, plan };
            }
            left -= 1;
            self.expand(&mut tree, label, node);
        }
        Found { least: NONE, plan: None }
    }

    /// The first node. It has the groups of these agents' last root.
    fn root(&mut self, tree: &Tree, sets: &[usize]) -> Node {
        let count = self.known.world.starts.len();
        let mut node = Node { sets: vec![0; count], paths: vec![None; count], groups: vec![], conflicts: vec![] };
        tree.agents.iter().zip(sets).for_each(|(agent, set)| node.sets[*agent] = *set);
        for agents in self.hints.get(&tree.agents).cloned().unwrap_or_default() {
            self.join(tree, &mut node, &agents);
        }
        let others: Vec<usize> = tree.agents.iter().copied().filter(|agent| node.paths[*agent].is_none()).collect();
        self.give(tree, &mut node, &others, None);
        node
    }

    /// The parent with other demands of the agent, whose group is asked for again.
    fn child(&mut self, tree: &Tree, parent: &Node, agent: usize, set: usize) -> Node {
        let mut node = parent.clone();
        node.sets[agent] = set;
        let agents = node.mates(agent);
        if agents.len() > 1 {
            node.hide(&agents);
            self.join(tree, &mut node, &agents);
        } else {
            self.give(tree, &mut node, &agents, None);
        }
        node
    }

    /// The node with its groups that collide made one, as far as they may be, or until it costs more than the label.
    fn worked_out(&mut self, tree: &Tree, waiting: Waiting, label: u32) -> Node {
        let mut node = match waiting {
            Waiting::Node(node) => node,
            Waiting::Child(parent, agent, set) => self.child(tree, &parent, agent, set),
        };
        let mut vain = vec![];
        while self.least(&tree.agents, &node.groups, &node.sets) <= label {
            let Some(agents) = node.next_group(tree.agents.len(), &vain) else { break };
            if !self.join(tree, &mut node, &agents) {
                vain.push(agents);
            }
        }
        node
    }

    /// Asks for these agents together, and says whether something was found. They get the plan, or else least paths if
    /// they have none.
    fn join(&mut self, tree: &Tree, node: &mut Node, agents: &Agents) -> bool {
        let sets: Vec<usize> = agents.iter().map(|agent| node.sets[*agent]).collect();
        let (least, has_paths) = (self.least(agents, &node.groups, &node.sets), node.paths[agents[0]].is_some());
        self.table.show(&tree.agents, &node.paths);
        let found = self.ask(&sets, least, tree.effort);
        if found.plan.is_none() && has_paths && found.least <= least {
            return false;
        }
        node.groups.retain(|group| !agents.contains(&group.agents[0]));
        node.groups.push(Group { agents: agents.clone(), least: least.max(found.least) });
        if found.plan.is_some() || !has_paths {
            self.give(tree, node, agents, found.plan.as_deref());
        }
        true
    }

    /// What these agents cost at least: each alone, and what the groups among them cost more.
    fn least(&self, agents: &[usize], groups: &[Group], sets: &[usize]) -> u32 {
        let alone = |agents: &[usize]| agents.iter().map(|agent| self.known.costs[sets[*agent]]).sum::<u32>();
        let among = groups.iter().filter(|group| agents.contains(&group.agents[0]));
        among.map(|group| group.least.saturating_sub(alone(&group.agents))).fold(alone(agents), u32::saturating_add)
    }

    /// The agents get the paths of a plan, or least ones that meet few others; then those that collide may change.
    fn give(&mut self, tree: &Tree, node: &mut Node, agents: &[usize], plan: Option<&[Path]>) {
        node.hide(agents);
        self.table.show(&tree.agents, &node.paths);
        for (place, &agent) in agents.iter().enumerate() {
            let path = match plan {
                Some(plan) => plan[place].clone(),
                None => {
                    let layers = self.known.layers(node.sets[agent], self.known.costs[node.sets[agent]]).unwrap();
                    self.table.least_met(&self.known.world, &layers)
                }
            };
            node.conflicts.extend(self.table.conflicts(&self.known.world, agent, &path, &node.paths));
            self.table.put(agent, &path);
            node.paths[agent] = Some(path);
        }
        for _ in 0..MOST_ROUNDS {
            let beside = node.conflicts.iter().filter(|each| each.agents.iter().any(|agent| agents.contains(agent)));
            let mut colliding: Vec<usize> = beside.flat_map(|each| each.agents).collect();
            colliding.sort();
            colliding.dedup();
            if colliding.into_iter().filter(|agent| self.settle(node, *agent)).count() == 0 {
                break;
            }
        }
    }

    /// All paths of the agent that meet its demands and cost what its path does.
    fn layers(&mut self, node: &Node, agent: usize) -> Rc<Layers> {
        let cost = node.paths[agent].as_ref().unwrap().len() as u32 - 1;
        self.known.layers(node.sets[agent], cost).unwrap()
    }

    /// Whether the agent took a path of the same cost that has fewer conflicts, and no more with its group.
    fn settle(&mut self, node: &mut Node, agent: usize) -> bool {
        let layers = self.layers(node, agent);
        if layers.cells.len() == layers.cost() + 1 {
            return false;
        }
        self.table.take(agent);
        let path = self.table.least_met(&self.known.world, &layers);
        let new = self.table.conflicts(&self.known.world, agent, &path, &node.paths);
        let old: Vec<Conflict> = node.conflicts.iter().filter(|each| each.agents.contains(&agent)).copied().collect();
        let mates = node.mates(agent);
        let is_within = |each: &&Conflict| each.agents.iter().all(|agent| mates.contains(agent));
        let within = |conflicts: &[Conflict]| conflicts.iter().filter(is_within).count();
        let is_better = new.len() < old.len() && within(&new) <= within(&old);
        if is_better {
            node.hide(&[agent]);
            node.conflicts.extend(new);
            node.paths[agent] = Some(path);
        }
        self.table.show(&[agent], &node.paths);
        is_better
    }

    /// What a side of a conflict costs its agent more. One that had arrived would have to arrive later.
    fn rise(&mut self, node: &Node, agent: usize, side: Constraint) -> u32 {
        let layers = self.layers(node, agent);
        let cost = layers.cost() as u32;
        if side.from == NONE && cost <= side.time {
            return side.time + 1 - cost;
        }
        let is_held = |time: u32| layers.places(time as usize).len() == 1;
        if !is_held(side.time) || side.from != NONE && !is_held(side.time - 1) {
            return 0;
        }
        let child = self.known.with(node.sets[agent], side);
        let from = self.known.costs[child].max(cost);
        self.known.cost(child, from) - cost
    }

    /// The conflict whose cheaper side costs most; of several that whose other side does, and of these the first.
    fn choice(&mut self, node: &Node) -> Conflict {
        let mut rank = |conflict: &Conflict| {
            let rises = [0, 1].map(|side| self.rise(node, conflict.agents[side], conflict.sides[side]));
            (rises[0].min(rises[1]), rises[0].max(rises[1]), Reverse(conflict.sides[0].time))
        };
        let ranked = node.conflicts.iter().map(|conflict| (rank(conflict), *conflict));
        ranked.max_by_key(|each| each.0).unwrap().1
    }

    /// The node's children wait: in each one agent obeys its side of a conflict.
    fn expand(&mut self, tree: &mut Tree, label: u32, node: Node) {
        self.expanded += 1;
        let Conflict { agents, sides } = self.choice(&node);
        let node = Rc::new(node);
        for side in 0..2 {
            let mut sets = node.sets.clone();
            let set = self.known.with(sets[agents[side]], sides[side]);
            if self.known.costs[set] != NONE {
                sets[agents[side]] = set;
                let least = self.least(&tree.agents, &node.groups, &sets).max(label);
                tree.enter(least, node.conflicts.len(), Waiting::Child(node.clone(), agents[side], set));
            }
        }
    }
}

/// The text of a plan.
fn text(world: &World, paths: &[Path]) -> String {
    let cost: usize = paths.iter().map(|path| path.len() - 1).sum();
    let mut text = format!("plan {} {cost}\n", paths.len());
    for path in paths {
        let at = |cell: &Cell| format!("{},{}", *cell as usize % world.width, *cell as usize / world.width);
        text += &path.iter().map(at).collect::<Vec<String>>().join(" ");
        text.push('\n');
    }
    text
}

/// Prints the answer for an instance.
fn main() {
    let begin = Instant::now();
    let words: Vec<String> = std::env::args().collect();
    let place = |flag: &str| words.iter().position(|word| word == flag);
    let bound = place("--bound").map_or(1000000, |place| words[place + 1].parse().unwrap());
    let world = World::read(&words[1], &words[2], words[3].parse().unwrap(), bound, place("--no-following").is_none());
    let mut search = Search::new(world);
    match search.optimum() {
        Some(paths) => print!("{}", text(&search.known.world, &paths)),
        None => println!("none {bound}"),
    }
    if place("--statistics").is_some() {
        let (micros, expanded, sets) = (begin.elapsed().as_micros(), search.expanded, search.known.demands.len());
        let groups = search.found.len();
        eprintln!("micros={micros} expanded={expanded} sets={sets} groups={groups}");
    }
}
