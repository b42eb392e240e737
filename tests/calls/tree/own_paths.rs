//! What own paths remember.

use super::problem_of;
use crate::worked::CHANGE;
use mapf_tree::{Obeyed, OwnPaths, Side, child, root};
use std::test::Fail;

/// A side's own path is asked for until it is searched, or told by the child.
#[test]
fn what_is_searched_or_told_is_known(rt: HostRuntime) -> Result<(), Fail> {
    let alloc = rt.alloc();
    let problem = problem_of(alloc, &CHANGE, 4)?;
    let root = root(alloc, &problem)?.ok_or("no root")?;
    let mut paths = OwnPaths::new(alloc, &problem)?;

    let left = paths.unknown_query(&root, Side::Left)?.ok_or("known")?;
    paths.search(&root, &left);
    assert!(rt; paths.unknown_query(&root, Side::Left)?.is_none());

    let right = paths.unknown_query(&root, Side::Right)?.ok_or("known")?;
    let told = child(alloc, &problem, &root, Side::Right)?;
    paths.learn(&root, &right, &told);
    assert!(rt; paths.unknown_query(&root, Side::Right)?.is_none());
    Ok(())
}

/// Two agents that change places on four cells cost 4: no plan that obeys the root costs 3, and what is shown within 4 costs 4.
#[test]
fn no_plan_below_the_optimum_obeys_the_root(rt: HostRuntime) -> Result<(), Fail> {
    let alloc = rt.alloc();
    let problem = problem_of(alloc, &CHANGE, 4)?;
    let root = root(alloc, &problem)?.ok_or("no root")?;
    let mut paths = OwnPaths::new(alloc, &problem)?;

    let mut work = 1_000;
    assert!(rt; matches!(paths.obeyed_within(&root, 3, &mut work)?, Obeyed::ByNone));
    assert!(rt; work < 1_000);

    let Obeyed::ByPlan(plan) = paths.obeyed_within(&root, 4, &mut work)? else {
        return Err("no plan".into());
    };
    let mut cost = 0;
    for path in &plan {
        cost += path.cost();
    }
    assert_eq!(rt; cost, 4);

    let mut none = 0;
    assert!(rt; matches!(paths.obeyed_within(&root, 3, &mut none)?, Obeyed::Unknown));
    Ok(())
}
