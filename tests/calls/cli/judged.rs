//! The lines and statuses of `mapf check`.

use super::expected::{expect, place, printed, refused};
use crate::worked::BAY;
use std::fs;
use std::test::Fail;

/// A plan's text, and what `check` says of it.
const JUDGED: [(&str, u8, &str); 5] = [
    ("plan 2 4\n1,0 1,1 1,0\n0,0 1,0 2,0\n", 0, "valid 4\n"),
    (
        "plan 2 2\n1,0\n0,0 1,0 2,0\n",
        1,
        "66 vertex conflict agents 0 1 cell 1,0 time 1\n",
    ),
    (
        "plan 2 5\n1,0 1,1 1,0\n0,0 1,0 2,0 2,0\n",
        1,
        "65 ends late agent 1\n",
    ),
    (
        "plan 2 5\n1,0 1,1 1,0\n0,0 1,0 2,0\n",
        1,
        "67 wrong cost stated 5 found 4\n",
    ),
    ("none 4\n", 1, "no plan given\n"),
];

/// A text that is no plan's, and its fault.
const UNREADABLE: [(&str, &str); 3] = [
    ("plan 2 04\n", "mapf: 31 head line\n"),
    ("plan 2 4\n1,0", "mapf: 32 bad line 2\n"),
    (
        "plan 2 4\n1,0 3,0\n",
        "mapf: 33 outside at line 2 place 1\n",
    ),
];

#[test]
fn what_check_says(rt: HostRuntime) -> Result<(), Fail> {
    let folder = "lines_of_check";
    place(&rt, folder, &BAY)?;
    let plan = "lines_of_check/plan";
    let rest = "--agents 2 --plan lines_of_check/plan";
    for (text, status, out) in JUDGED {
        fs::write(&rt, plan, text)?;
        expect(&rt, "check", folder, rest, printed(status, out))?;
    }
    for (text, err) in UNREADABLE {
        fs::write(&rt, plan, text)?;
        expect(&rt, "check", folder, rest, refused(err))?;
    }
    fs::write(&rt, plan, JUDGED[0].0)?;
    let said = printed(1, "66 following conflict agents 1 0 cell 1,0 time 1\n");
    let rest = "--agents 2 --no-following --plan lines_of_check/plan";
    expect(&rt, "check", folder, rest, said)?;
    fs::remove_dir_all(&rt, folder)?;
    Ok(())
}
