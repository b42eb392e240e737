mod calls;
mod nodes;
mod own_paths;
mod searches;
mod texts;
mod waiting;

use crate::worked::Worked;
use mapf_grid::{Instance, Map, Scenario};
use mapf_tree::Problem;
use std::alloc::Global;
use std::test::Fail;

/// The problem of these files.
fn problem_of(alloc: Global, worked: &Worked, bound: u32) -> Result<Problem, Fail> {
    let map = Map::read(alloc, worked.map)?;
    let scenario = Scenario::read(alloc, worked.scen)?;
    let instance = match Instance::new(alloc, map, &scenario, worked.agents) {
        Ok(instance) => instance,
        Err((_map, fault)) => return Err(Fail::from(fault)),
    };
    match Problem::new(alloc, instance, bound) {
        Ok(problem) => Ok(problem),
        Err((_instance, fault)) => Err(Fail::from(fault)),
    }
}
