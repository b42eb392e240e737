use mapf_grid::{Instance, InstanceFault, Map, Scenario};
use std::alloc::Global;
use std::test::Fail;

const MAP: &str = "type octile\nheight 2\nwidth 3\nmap\n..T\n.G.\n";

/// The agents' starts and goals, as numbers of cells.
fn places_of(alloc: Global, rows: &str, agents: u64) -> Result<Vec<u32>, InstanceFault> {
    let map = Map::read(alloc, MAP.as_bytes()).map_err(|_| InstanceFault::NoMemory)?;
    let scenario = Scenario::read(alloc, rows.as_bytes()).map_err(|_| InstanceFault::NoMemory)?;
    let instance = Instance::new(alloc, map, &scenario, agents).map_err(|(_, fault)| fault)?;
    let mut places = Vec::new(alloc);
    for agent in 0..instance.agents() {
        let place = instance.start(agent).number();
        places.push(place).map_err(|_| InstanceFault::NoMemory)?;
        let place = instance.goal(agent).number();
        places.push(place).map_err(|_| InstanceFault::NoMemory)?;
    }
    Ok(places)
}

#[test]
fn takes_the_first_rows(rt: HostRuntime) -> Result<(), Fail> {
    let rows = "version 1\n0 m 3 2 0 0 2 1 3\n0 m 3 2 1 1 0 0 2\n0 m 9 9 0 0 0 0 0\n";
    assert_eq!(rt;
        places_of(rt.alloc(), rows, 2)?.as_slice(),
        [0, 5, 4, 0].as_slice()
    );
    Ok(())
}

#[test]
fn finds_the_first_fault(rt: HostRuntime) {
    let two = "version 1\n0 m 3 2 0 0 0 1 1\n0 m 3 2 1 0 1 1 1\n";
    let cases = [
        (two, 0, InstanceFault::AgentCount),
        (two, 1001, InstanceFault::AgentCount),
        (two, 3, InstanceFault::TooFewRows { rows: 2 }),
        (
            "version 1\n0 m 4 2 0 0 0 1 1\n",
            1,
            InstanceFault::WrongSize { row: 0 },
        ),
        (
            "version 1\n0 m 3 2 3 0 0 1 1\n",
            1,
            InstanceFault::StartNotFree { row: 0 },
        ),
        (
            "version 1\n0 m 3 2 0 0 2 0 2\n",
            1,
            InstanceFault::GoalNotFree { row: 0 },
        ),
        (
            "version 1\n0 m 3 2 0 0 0 1 1\n0 m 3 2 1 0 1 1 1\n0 m 3 2 2 1 0 1 2\n",
            3,
            InstanceFault::SharedGoal { earlier: 0, row: 2 },
        ),
        (
            "version 1\n0 m 3 2 0 0 0 1 1\n0 m 3 2 1 0 1 1 1\n0 m 3 2 1 0 2 1 2\n",
            3,
            InstanceFault::SharedStart { earlier: 1, row: 2 },
        ),
    ];
    for (rows, agents, wanted) in cases {
        assert_eq!(rt;
            places_of(rt.alloc(), rows, agents).err(),
            Some(wanted),
            "at {rows}"
        );
    }
}
