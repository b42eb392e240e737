//! Refusals in their order.

use super::answers::answered;
use crate::worked::{BAY, Worked};
use mapf_grid::{InstanceFault, MapFault, ScenFault};
use mapf_solve::Refusal;
use std::alloc::Global;
use std::thread::Threads;

const NOTHING: Worked = Worked {
    map: b"",
    scen: b"",
    agents: 0,
};

/// The corridor with a bay, for so many agents.
fn bay_for(agents: u64) -> Worked {
    Worked {
        map: BAY.map,
        scen: BAY.scen,
        agents,
    }
}

/// Whether these files are refused for this.
fn refused<R: Threads + Sync>(
    rt: &R,
    alloc: Global,
    worked: &Worked,
    bound: u64,
    workers: u64,
    refusal: Refusal,
) -> bool {
    answered(rt, alloc, worked, bound, workers).err() == Some(refusal)
}

#[test]
fn bound_and_workers_before_the_files(rt: HostRuntime) {
    let alloc = rt.alloc();
    assert!(rt; refused(&rt, alloc, &NOTHING, 1_000_001, 0, Refusal::Bound));
    assert!(rt; refused(&rt, alloc, &NOTHING, 5, 65, Refusal::Workers));
    assert!(rt; refused(&rt, alloc, &NOTHING, 5, 0, Refusal::Workers));
}

#[test]
fn the_map_before_the_scenario(rt: HostRuntime) {
    let alloc = rt.alloc();
    let map = Refusal::Map(MapFault::TypeLine);
    assert!(rt; refused(&rt, alloc, &NOTHING, 5, 64, map));
    let map_alone = Worked {
        map: BAY.map,
        scen: b"",
        agents: 0,
    };
    let scenario = Refusal::Scenario(ScenFault::Version);
    assert!(rt; refused(&rt, alloc, &map_alone, 5, 1, scenario));
}

#[test]
fn the_number_of_agents(rt: HostRuntime) {
    let alloc = rt.alloc();
    let count = Refusal::Instance(InstanceFault::AgentCount);
    assert!(rt; refused(&rt, alloc, &bay_for(0), 5, 1, count));
    let count = Refusal::Instance(InstanceFault::AgentCount);
    assert!(rt; refused(&rt, alloc, &bay_for(1001), 5, 1, count));
    let rows = Refusal::Instance(InstanceFault::TooFewRows { rows: 2 });
    assert!(rt; refused(&rt, alloc, &bay_for(3), 5, 1, rows));
}
