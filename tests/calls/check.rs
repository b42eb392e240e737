use mapf_check::{Verdict, check, check_by, line};
use mapf_grid::{Cell, Instance, Map, Scenario};
use mapf_plan::{Answer, Conflict, Path, Plan, Rule};
use std::alloc::Global;
use std::process::Abort;
use std::test::Fail;

/// On the cells 0 1 2 and 3 4 5, of which 3 and 5 are blocked, agent 0 stays on 1, and agent 1 goes from 0 to 2.
fn two_agents(alloc: Global) -> Result<Instance, Fail> {
    let map = Map::read(alloc, b"type octile\nheight 2\nwidth 3\nmap\n...\n@.@\n")?;
    let rows = Scenario::read(
        alloc,
        b"version 1\n0 m.map 3 2 1 0 1 0 0\n0 m.map 3 2 0 0 2 0 2\n",
    )?;
    Ok(
        Instance::new(alloc, map, &rows, 2)
            .ok()
            .ok_or("no instance")?,
    )
}

/// The plan over these cells, named by their numbers.
fn plan_of(rt: &impl Abort, alloc: Global, paths: &[&[u32]]) -> Result<Plan, Fail> {
    let mut plan = Vec::new(alloc);
    for cells in paths {
        plan.push(path_of(rt, alloc, cells)?)?;
    }
    assert!(rt; !plan.is_empty() && plan.len() < 100);
    Ok(Plan::of(plan))
}

fn path_of(rt: &impl Abort, alloc: Global, cells: &[u32]) -> Result<Path, Fail> {
    let mut path = Vec::new(alloc);
    for number in cells {
        path.push(Cell::of(*number))?;
    }
    assert!(rt; !path.is_empty() && path.len() < 100);
    Ok(Path::of(path))
}

/// Checks a plan for the two agents, stated to cost so much.
fn expect(
    rt: &impl Abort,
    alloc: Global,
    paths: &[&[u32]],
    stated: u64,
    wanted: Verdict,
) -> Result<(), Fail> {
    let instance = two_agents(alloc)?;
    let plan = plan_of(rt, alloc, paths)?;
    let answer = Answer::Plan { plan, stated };
    assert_eq!(rt; check(&instance, &answer), wanted);
    Ok(())
}

/// Checks a plan for the two agents by this rule, stated to cost so much.
fn expect_by(
    rt: &impl Abort,
    alloc: Global,
    rule: Rule,
    paths: &[&[u32]],
    stated: u64,
    wanted: Verdict,
) -> Result<(), Fail> {
    let instance = two_agents(alloc)?;
    let plan = plan_of(rt, alloc, paths)?;
    let answer = Answer::Plan { plan, stated };
    assert_eq!(rt; check_by(&instance, &answer, rule), wanted);
    Ok(())
}

#[test]
fn valid_where_one_agent_makes_way(rt: HostRuntime) -> Result<(), Fail> {
    let valid = Verdict::Valid { cost: 4 };
    expect(&rt, rt.alloc(), &[&[1, 4, 1], &[0, 1, 2]], 4, valid)
}

#[test]
fn no_plan_is_no_fault(rt: HostRuntime) -> Result<(), Fail> {
    let instance = two_agents(rt.alloc())?;
    let none = Answer::None { bound: 4 };
    assert_eq!(rt; check(&instance, &none), Verdict::NoPlanGiven);
    let gave_up = Answer::GaveUp { nodes: 1, least: 3 };
    assert_eq!(rt; check(&instance, &gave_up), Verdict::NoPlanGiven);
    Ok(())
}

#[test]
fn wrong_ends_of_paths(rt: HostRuntime) -> Result<(), Fail> {
    let alloc = rt.alloc();
    let count = Verdict::AgentCount { paths: 1 };
    expect(&rt, alloc, &[&[1]], 0, count)?;
    let start = Verdict::WrongStart { agent: 1 };
    expect(&rt, alloc, &[&[1], &[1, 2]], 1, start)?;
    let end = Verdict::WrongEnd { agent: 0 };
    expect(&rt, alloc, &[&[1, 4], &[0, 1, 2]], 3, end)?;
    let late = Verdict::EndsLate { agent: 1 };
    expect(&rt, alloc, &[&[1, 4, 1], &[0, 1, 2, 2]], 5, late)
}

#[test]
fn bad_steps(rt: HostRuntime) -> Result<(), Fail> {
    let alloc = rt.alloc();
    let onto_wall = Verdict::BadStep { agent: 1, time: 1 };
    expect(&rt, alloc, &[&[1], &[0, 3, 0, 1, 2]], 4, onto_wall)?;
    let over_corner = Verdict::BadStep { agent: 0, time: 2 };
    expect(&rt, alloc, &[&[1, 2, 4, 1], &[0, 1, 2]], 5, over_corner)?;
    let at_the_end = Verdict::BadStep { agent: 1, time: 1 };
    expect(&rt, alloc, &[&[1, 4, 1], &[0, 2]], 3, at_the_end)?;
    let outside = Verdict::BadStep { agent: 0, time: 2 };
    expect(&rt, alloc, &[&[1, 4, 7, 4, 1], &[0, 1, 2]], 6, outside)
}

#[test]
fn conflicts(rt: HostRuntime) -> Result<(), Fail> {
    let alloc = rt.alloc();
    let through_goal = Verdict::Conflict(Conflict::Vertex {
        first: 0,
        second: 1,
        cell: Cell::of(1),
        time: 1,
    });
    expect(&rt, alloc, &[&[1], &[0, 1, 2]], 2, through_goal)?;
    let changed_places = Verdict::Conflict(Conflict::Swapping {
        first: 0,
        second: 1,
        from: Cell::of(1),
        to: Cell::of(0),
        time: 1,
    });
    expect(&rt, alloc, &[&[1, 0, 1], &[0, 1, 2]], 4, changed_places)
}

/// Agent 1 enters cell 1 at the time at which agent 0 leaves it: a conflict by the second rule alone. Where it waits one
/// time step and agent 0 comes back one time step after it went on, there is none.
#[test]
fn following_by_the_second_rule(rt: HostRuntime) -> Result<(), Fail> {
    let alloc = rt.alloc();
    let at_once: &[&[u32]] = &[&[1, 4, 1], &[0, 1, 2]];
    let valid = Verdict::Valid { cost: 4 };
    expect_by(&rt, alloc, Rule::Classical, at_once, 4, valid)?;
    let entered = Verdict::Conflict(Conflict::Following {
        follower: 1,
        leader: 0,
        cell: Cell::of(1),
        time: 1,
    });
    expect_by(&rt, alloc, Rule::NoFollowing, at_once, 4, entered)?;
    let apart: &[&[u32]] = &[&[1, 4, 4, 4, 1], &[0, 0, 1, 2]];
    let valid = Verdict::Valid { cost: 7 };
    expect_by(&rt, alloc, Rule::NoFollowing, apart, 7, valid)
}

#[test]
fn another_cost_is_stated(rt: HostRuntime) -> Result<(), Fail> {
    let cost = Verdict::WrongCost {
        stated: 5,
        found: 4,
    };
    expect(&rt, rt.alloc(), &[&[1, 4, 1], &[0, 1, 2]], 5, cost)
}

fn worded(rt: &impl Abort, alloc: Global, verdict: Verdict, wanted: &str) -> Result<(), Fail> {
    let instance = two_agents(alloc)?;
    let plain = !matches!(verdict, Verdict::Conflict(_));
    assert!(rt; plain);
    let text = line(alloc, &verdict, instance.map())?;
    assert_eq!(rt; text.as_str(), wanted);
    Ok(())
}

#[test]
fn a_line_for_each_verdict(rt: HostRuntime) -> Result<(), Fail> {
    let alloc = rt.alloc();
    worded(&rt, alloc, Verdict::Valid { cost: 4 }, "valid 4\n")?;
    worded(&rt, alloc, Verdict::NoPlanGiven, "no plan given\n")?;
    worded(
        &rt,
        alloc,
        Verdict::AgentCount { paths: 3 },
        "61 agent count 3\n",
    )?;
    worded(
        &rt,
        alloc,
        Verdict::WrongStart { agent: 7 },
        "62 wrong start agent 7\n",
    )?;
    let step = Verdict::BadStep { agent: 0, time: 12 };
    worded(&rt, alloc, step, "63 bad step agent 0 time 12\n")?;
    worded(
        &rt,
        alloc,
        Verdict::WrongEnd { agent: 2 },
        "64 wrong end agent 2\n",
    )?;
    worded(
        &rt,
        alloc,
        Verdict::EndsLate { agent: 1 },
        "65 ends late agent 1\n",
    )?;
    let cost = Verdict::WrongCost {
        stated: 5,
        found: 4,
    };
    worded(&rt, alloc, cost, "67 wrong cost stated 5 found 4\n")
}

#[test]
fn a_line_for_each_conflict(rt: HostRuntime) -> Result<(), Fail> {
    let alloc = rt.alloc();
    let instance = two_agents(alloc)?;
    let map = instance.map();
    let from = map.cell(1, 0).ok_or("no cell")?;
    let to = map.cell(1, 1).ok_or("no cell")?;
    let vertex = Verdict::Conflict(Conflict::Vertex {
        first: 0,
        second: 1,
        cell: from,
        time: 1,
    });
    let text = line(alloc, &vertex, map)?;
    assert_eq!(rt;
        text.as_str(),
        "66 vertex conflict agents 0 1 cell 1,0 time 1\n"
    );
    let swapping = Verdict::Conflict(Conflict::Swapping {
        first: 0,
        second: 1,
        from,
        to,
        time: 3,
    });
    let text = line(alloc, &swapping, map)?;
    assert_eq!(rt;
        text.as_str(),
        "66 swapping conflict agents 0 1 from 1,0 to 1,1 time 3\n"
    );
    let following = Verdict::Conflict(Conflict::Following {
        follower: 1,
        leader: 0,
        cell: from,
        time: 1,
    });
    let text = line(alloc, &following, map)?;
    assert_eq!(rt;
        text.as_str(),
        "66 following conflict agents 1 0 cell 1,0 time 1\n"
    );
    Ok(())
}
