use mapf_grid::{Cell, NoMemory};
use mapf_plan::{AgentPaths, Conflict, KnownPaths, KnownPlan, Path, Plan, Rule};
use std::alloc::Global;
use std::process::Abort;
use std::sync::Arc;
use std::test::Fail;

/// A cell at which no agent of the tests is.
const ASIDE: u32 = 99;

fn path_of(alloc: Global, cells: [u32; 3]) -> Result<Path, Fail> {
    let [start, middle, end] = cells;
    let cells = vec![in alloc; Cell::of(start), Cell::of(middle), Cell::of(end)]?;
    Ok(Path::of(cells))
}

/// The plan over these cells, but for one agent who stands aside.
fn plan_without(
    rt: &impl Abort,
    alloc: Global,
    paths: &[[u32; 3]],
    agent: usize,
) -> Result<Plan, Fail> {
    let mut plan = Vec::new(alloc);
    for other in 0..paths.len() {
        let cells = if other == agent {
            [ASIDE, ASIDE, ASIDE]
        } else {
            paths[other]
        };
        plan.push(path_of(alloc, cells)?)?;
    }
    assert!(rt; !plan.is_empty() && plan.len() < 100);
    Ok(Plan::of(plan))
}

/// The first conflict of the plan over these cells by each rule, where the path of any one agent is new to a known plan: looked
/// for, and looked up.
pub(crate) fn expect_known(
    rt: &impl Abort,
    alloc: Global,
    paths: &[[u32; 3]],
    rule: Rule,
    wanted: &Option<Conflict>,
) -> Result<(), Fail> {
    for agent in 0..paths.len() {
        let plan = plan_without(rt, alloc, paths, agent)?;
        let path = path_of(alloc, paths[agent])?;
        expect_changed(rt, alloc, &plan, agent, &path, rule, wanted)?;
    }
    Ok(())
}

/// The first conflict of a plan where one agent has another path.
fn expect_changed(
    rt: &impl Abort,
    alloc: Global,
    plan: &Plan,
    agent: usize,
    path: &Path,
    rule: Rule,
    wanted: &Option<Conflict>,
) -> Result<(), Fail> {
    let mut known = KnownPaths::new(alloc, rule);
    let number = known.number(Arc::new(alloc, path.copy(alloc)?)?)?;
    let numbers = numbers_of(alloc, &mut known, plan)?;
    assert!(rt; agent < numbers.len());
    let before = known.plan(&numbers)?;
    expect_after_change(rt, &mut known, before, agent, number, wanted)
}

/// The first conflict of a known plan where one agent has the path of this number: looked for, looked up, and where the agent
/// has that path already.
fn expect_after_change(
    rt: &impl Abort,
    known: &mut KnownPaths,
    before: KnownPlan,
    agent: usize,
    number: usize,
    wanted: &Option<Conflict>,
) -> Result<(), Fail> {
    let found = known.first_conflict_of_changed(&before, agent, number)?;
    assert_eq!(rt; found, *wanted);
    let found = known.first_conflict_of_changed(&before, agent, number)?;
    assert_eq!(rt; found, *wanted);
    let mut plan = before;
    known.set_path(&mut plan, agent, number)?;
    let found = known.first_conflict_of_changed(&plan, agent, number)?;
    assert_eq!(rt; found, *wanted);
    Ok(())
}

/// The numbers of a plan's paths.
fn numbers_of(alloc: Global, known: &mut KnownPaths, plan: &Plan) -> Result<Vec<usize>, NoMemory> {
    let mut numbers = Vec::with_capacity(alloc, plan.agents())?;
    for agent in 0..plan.agents() {
        let path = Arc::new(alloc, plan.path(agent).copy(alloc)?)?;
        let number = known.number(path)?;
        numbers.push(number)?;
    }
    Ok(numbers)
}
