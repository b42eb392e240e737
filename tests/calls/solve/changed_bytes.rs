//! Two files of which each byte is changed to each other value, one at a time.

use mapf_board::NoGate;
use mapf_check::{Verdict, check};
use mapf_grid::instance_of;
use mapf_plan::{Rule, read_answer};
use mapf_solve::{Ask, Refusal, answer};
use std::alloc::Global;
use std::ops::Range;
use std::process::Abort;
use std::test::Fail;
use std::thread::Threads;

/// A map of 41 bytes, and behind it a scenario of 60: one agent has to leave its goal for the other.
const FILES: &[u8; 101] =
    b"type octile\nheight 2\nwidth 3\nmap\n...\n@.@\nversion 1\n0 row5.map 3 2 1 0 1 0 0\n0 row5.map 3 2 0 0 2 0 2\n";

/// What the plan costs that this text spells, if the checker finds it valid.
pub(super) fn valid_cost(
    alloc: Global,
    map: &[u8],
    scen: &[u8],
    agents: u64,
    text: &[u8],
) -> Result<Option<u64>, Fail> {
    let instance = instance_of(alloc, map, scen, agents)?;
    let answer = read_answer(alloc, text, instance.map())?;
    match check(&instance, &answer) {
        Verdict::Valid { cost } => Ok(Some(cost)),
        _ => Ok(None),
    }
}

/// Whether a valid plan for two agents is answered, or none, or a fault that isn't out of memory.
fn is_sound<R: Threads + Sync>(
    rt: &R,
    alloc: Global,
    map: &[u8],
    scen: &[u8],
) -> Result<bool, Fail> {
    let ask = Ask {
        agents: 2,
        bound: 4,
        workers: 1,
        nodes: None,
        rule: Rule::Classical,
    };
    match answer(rt, alloc, map, scen, ask, &NoGate) {
        Ok(text) => {
            let is_none = text.as_slice() == b"none 4\n".as_slice();
            Ok(is_none || valid_cost(alloc, map, scen, 2, &text)?.is_some())
        }
        Err(refusal) => Ok(refusal != Refusal::NoMemory),
    }
}

/// Asserts that of each change of one byte at these places.
fn change_each<R: Threads + Sync + Abort>(
    rt: &R,
    alloc: Global,
    places: Range<usize>,
) -> Result<(), Fail> {
    let mut files = *FILES;
    for at in places {
        assert!(rt; at < 101);
        for value in 0..=u8::MAX {
            if value != FILES[at] {
                files[at] = value;
                let (map, scen) = files.split_at(41);
                let is_sound = is_sound(rt, alloc, map, scen)?;
                assert!(rt; is_sound, "byte {at} as {value}");
            }
        }
        files[at] = FILES[at];
    }
    Ok(())
}

#[test]
fn each_byte_of_a_map_changed_to_each_other_value(rt: HostRuntime) -> Result<(), Fail> {
    change_each(&rt, rt.alloc(), 0..41)
}

#[test]
fn each_byte_of_a_scenario_changed_to_each_other_value(rt: HostRuntime) -> Result<(), Fail> {
    change_each(&rt, rt.alloc(), 41..101)
}
