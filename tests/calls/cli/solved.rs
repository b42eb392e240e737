//! The lines and statuses of `mapf solve`.

use super::expected::{expect, place, printed, refused};
use crate::worked::{BAY, Worked};
use std::fs;
use std::test::Fail;

#[test]
fn what_solve_prints(rt: HostRuntime) -> Result<(), Fail> {
    let folder = "lines_of_solve";
    place(&rt, folder, &BAY)?;
    for (rest, said) in [
        (
            "--agents 2 --bound 4 --workers 2",
            printed(0, "plan 2 4\n1,0 1,1 1,0\n0,0 1,0 2,0\n"),
        ),
        (
            "--agents 2 --bound 7 --workers 1 --no-following",
            printed(0, "plan 2 7\n1,0 1,1 1,1 1,1 1,0\n0,0 0,0 1,0 2,0\n"),
        ),
        ("--agents 2 --bound 3 --workers 1", printed(1, "none 3\n")),
        (
            "--agents 2 --bound 4 --workers 1 --nodes 5",
            printed(6, "gave up 5 4\n"),
        ),
        (
            "--agents 2 --bound 4 --workers 2 --any-optimum",
            printed(0, "plan 2 4\n1,0 1,1 1,0\n0,0 1,0 2,0\n"),
        ),
        (
            "--agents 2 --bound 3 --workers 1 --any-optimum",
            printed(1, "none 3\n"),
        ),
        (
            "--agents 0 --bound 1000001 --workers 0",
            refused("mapf: 41 bound\n"),
        ),
        (
            "--agents 0 --bound 5 --workers 65 --nodes 0",
            refused("mapf: 42 workers\n"),
        ),
        (
            "--agents 0 --bound 5 --workers 1 --nodes 0",
            refused("mapf: 44 nodes\n"),
        ),
        (
            "--agents 1001 --bound 5 --workers 1",
            refused("mapf: 21 agent count\n"),
        ),
        (
            "--agents 3 --bound 5 --workers 1",
            refused("mapf: 22 too few rows: 2\n"),
        ),
    ] {
        expect(&rt, "solve", folder, rest, said)?;
    }
    fs::remove_dir_all(&rt, folder)?;
    Ok(())
}

/// Each file's first fault, and each instance's.
const FAULTY: [(&[u8], &[u8], &str); 15] = [
    (b"", b"", "mapf: 1 type line\n"),
    (
        b"type octile\nheight 0\nwidth 3\nmap\n",
        b"",
        "mapf: 2 height line\n",
    ),
    (
        b"type octile\nheight 2049\n",
        b"",
        "mapf: 9 too large at line 2\n",
    ),
    (
        b"type octile\nheight 2\nwidth 0003 \nmaps\n",
        b"",
        "mapf: 4 map line\n",
    ),
    (
        b"type octile\nheight 2\nwidth three\nmap\n",
        b"",
        "mapf: 3 width line\n",
    ),
    (
        b"type octile\nheight 2\nwidth 3\nmap\n...\n",
        b"",
        "mapf: 5 missing row at line 6\n",
    ),
    (
        b"type octile\nheight 2\nwidth 3\nmap\n...\n@.",
        b"",
        "mapf: 6 row length at line 6\n",
    ),
    (
        b"type octile\nheight 1\nwidth 3\nmap\n.S.\n",
        b"",
        "mapf: 7 bad cell at line 5 column 2 byte 83\n",
    ),
    (
        b"type octile\nheight 1\nwidth 3\nmap\n...\n\nx\n",
        b"",
        "mapf: 8 text after rows at line 7\n",
    ),
    (LINE, b"", "mapf: 11 version line\n"),
    (
        LINE,
        b"version 1\n0 m.map 3 1 0 0 2 0\n",
        "mapf: 12 field count at line 2\n",
    ),
    (
        LINE,
        b"version 1\n0 m.map 3 1 12a 0 2 0 2\n",
        "mapf: 13 bad number at line 2 field 5\n",
    ),
    (
        LINE,
        b"version 1\n0 m.map 4 1 0 0 2 0 2\n",
        "mapf: 23 wrong size in row 0\n",
    ),
    (
        b"type octile\nheight 1\nwidth 3\nmap\n..@\n",
        b"version 1\n0 m.map 3 1 2 0 0 0 2\n",
        "mapf: 24 start not free in row 0\n",
    ),
    (
        b"type octile\nheight 1\nwidth 3\nmap\n..@\n",
        b"version 1\n0 m.map 3 1 0 0 2 0 2\n",
        "mapf: 25 goal not free in row 0\n",
    ),
];

/// Three cells in a row.
const LINE: &[u8] = b"type octile\nheight 1\nwidth 3\nmap\n...\n";

#[test]
fn faults_of_files_and_of_one_agent(rt: HostRuntime) -> Result<(), Fail> {
    let folder = "lines_of_faults";
    for (map, scen, err) in FAULTY {
        let agents = 1;
        place(&rt, folder, &Worked { map, scen, agents })?;
        expect(
            &rt,
            "solve",
            folder,
            "--agents 1 --bound 5 --workers 1",
            refused(err),
        )?;
    }
    fs::remove_dir_all(&rt, folder)?;
    Ok(())
}

/// Rows 0 and 2 share a goal.
const SHARED: Worked = Worked {
    map: b"type octile\nheight 2\nwidth 3\nmap\n..T\n.G.\n",
    scen: b"version 1\n0 m 3 2 0 0 0 1 1\n0 m 3 2 1 0 1 1 1\n0 m 3 2 2 1 0 1 2\n",
    agents: 3,
};

/// The last two rows share a start.
const SHARED_START: Worked = Worked {
    map: b"type octile\nheight 2\nwidth 3\nmap\n..T\n.G.\n",
    scen: b"version 1\n0 m 3 2 0 0 0 1 1\n0 m 3 2 1 0 1 1 1\n0 m 3 2 1 0 2 1 2\n",
    agents: 3,
};

#[test]
fn faults_of_two_agents(rt: HostRuntime) -> Result<(), Fail> {
    let folder = "lines_of_agents";
    let rest = "--agents 3 --bound 5 --workers 1";
    place(&rt, folder, &SHARED)?;
    let said = refused("mapf: 27 shared goal in rows 0 and 2\n");
    expect(&rt, "solve", folder, rest, said)?;
    place(&rt, folder, &SHARED_START)?;
    let said = refused("mapf: 26 shared start in rows 1 and 2\n");
    expect(&rt, "solve", folder, rest, said)?;
    fs::remove_dir_all(&rt, folder)?;
    Ok(())
}
