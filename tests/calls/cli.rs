mod expected;
mod judged;
mod outputs;
mod solved;

use mapf_check::Verdict;
use mapf_cli::{CheckFault, check_run};
use mapf_plan::{Counted, Rule};
use std::alloc::Global;

const LINE: &[u8] = b"type octile\nheight 1\nwidth 3\nmap\n...\n";

const ALONG: &[u8] = b"version 1\n0 line.map 3 1 0 0 2 0 2\n";

const ALONG_PLAN: &[u8] = b"plan 1 2\n0,0 1,0 2,0\n";

fn checked(alloc: Global) -> Result<Verdict, CheckFault> {
    let mut out = Counted::of(Vec::new(alloc));
    check_run(
        alloc,
        &mut Counted::of(LINE),
        &mut Counted::of(ALONG),
        &mut Counted::of(ALONG_PLAN),
        &mut out,
        1,
        Rule::Classical,
    )
}

#[test]
fn a_verdict_with_ample_memory(rt: HostRuntime) {
    let result = checked(rt.alloc());
    let is_said = matches!(&result, Ok(Verdict::Valid { cost: 2 }));
    assert!(rt; is_said);
}
