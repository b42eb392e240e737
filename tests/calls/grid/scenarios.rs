use mapf_grid::{ScenFault, Scenario};
use std::alloc::Global;
use std::test::Fail;

const TRUNCATED: &str = "version 1\n0 row5.map 3 2 1 0 1 0 0\n0 row5.map 3 2 0 0 2 0 2\n";

const TWO_ROWS: &str = "version 1.0\n0 m.map 3 1 0 0 2 0 1.41421356\n5 m.map 3 1 2 0 0 0 abc\n";

fn rows_of(alloc: Global, text: &str) -> Result<usize, ScenFault> {
    Ok(Scenario::read(alloc, text.as_bytes())?.rows().len())
}

#[test]
fn keeps_the_fields(rt: HostRuntime) -> Result<(), Fail> {
    let scenario = Scenario::read(rt.alloc(), TWO_ROWS.as_bytes())?;
    assert_eq!(rt; scenario.rows().len(), 2);
    let row = &scenario.rows()[1];
    assert_eq!(rt; [row.bucket, row.width, row.height], [5, 3, 1]);
    assert_eq!(rt;
        [row.start_x, row.start_y, row.goal_x, row.goal_y],
        [2, 0, 0, 0]
    );
    assert_eq!(rt; row.map_name.as_slice(), b"m.map".as_slice());
    assert_eq!(rt; row.optimal_length.as_slice(), b"abc".as_slice());
    Ok(())
}

#[test]
fn keeps_blanks_in_names(rt: HostRuntime) -> Result<(), Fail> {
    let text = "version 1\n\t0 my \t m.map 3 1 0 0 2 0 2 \r\n";
    let scenario = Scenario::read(rt.alloc(), text.as_bytes())?;
    assert_eq!(rt; scenario.rows().len(), 1);
    assert_eq!(rt;
        scenario.rows()[0].map_name.as_slice(),
        b"my \t m.map".as_slice()
    );
    Ok(())
}

#[test]
fn finds_the_first_fault(rt: HostRuntime) {
    let cases = [
        (TWO_ROWS, Ok(2)),
        ("", Err(ScenFault::Version)),
        ("version 1 0\n", Err(ScenFault::Version)),
        (" version\t1 \n \n\n", Ok(0)),
        (
            "version 1\n0 m.map 3 1 0 0 2 0\n",
            Err(ScenFault::FieldCount { line: 2 }),
        ),
        (
            "version 1\n0 m.map 3 1 12a 0 2 0 2\n",
            Err(ScenFault::Number { line: 2, field: 5 }),
        ),
        (
            "version 1\n0 m.map 3 1 0 0 2 0000000000 x\n",
            Err(ScenFault::Number { line: 2, field: 8 }),
        ),
        (
            "version 1\n0 m.map 3 1 0 0 2 0 2\n\n0 m.map\n",
            Err(ScenFault::FieldCount { line: 3 }),
        ),
    ];
    for (text, wanted) in cases {
        assert_eq!(rt; rows_of(rt.alloc(), text), wanted, "at {text}");
    }
}

#[test]
fn reads_each_front_of_a_file(rt: HostRuntime) {
    let file = TRUNCATED.as_bytes();
    assert_eq!(rt; file.len(), 60);
    for length in 0..61 {
        let wanted = match length {
            0..=8 => Err(ScenFault::Version),
            9 | 10 => Ok(0),
            11..=33 => Err(ScenFault::FieldCount { line: 2 }),
            34 | 35 => Ok(1),
            36..=58 => Err(ScenFault::FieldCount { line: 3 }),
            _ => Ok(2),
        };
        let found = Scenario::read(rt.alloc(), &file[..length]).map(|scenario| scenario
            .rows()
            .len());
        assert_eq!(rt; found, wanted, "at {length}");
    }
}
