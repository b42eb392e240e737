use mapf_grid::{Map, MapFault};
use std::alloc::Global;
use std::test::Fail;

/// A map file of three columns and two rows.
const FILE: &[u8] = b"type octile\nheight 2\nwidth 3\nmap\n...\n@.@\n";

/// The fault of these bytes; `None` where they are accepted.
fn fault(rt: &HostRuntime, bytes: &[u8]) -> Option<MapFault> {
    match Map::read(rt.alloc(), bytes) {
        Ok(_map) => None,
        Err(fault) => Some(fault),
    }
}

/// The rows of a map: a point for each free cell, and `@` for each other one.
fn rows(alloc: Global, map: &Map) -> Result<String, Fail> {
    let mut text = String::new(alloc);
    for y in 0..map.height() {
        for x in 0..map.width() {
            let cell = map.cell(x, y).ok_or("outside")?;
            text.push(if map.is_free(cell) { '.' } else { '@' })?;
        }
        text.push('\n')?;
    }
    Ok(text)
}

#[test]
fn reads_cells(rt: HostRuntime) -> Result<(), Fail> {
    let map = Map::read(rt.alloc(), FILE)?;
    assert_eq!(rt; map.width(), 3);
    assert_eq!(rt; map.height(), 2);
    assert_eq!(rt; rows(rt.alloc(), &map)?.as_str(), "...\n@.@\n");
    Ok(())
}

/// Files of which two are accepted, and the others have a fault.
const FILES: [&[u8]; 14] = [
    b"type octile\nheight 1\nwidth 3\nmap\n.S.\n",
    b"type octile\nheight 2049\nwidth 3\nmap\n...\n",
    b"type octile\nheight 0\nwidth 3\nmap\n",
    b"type octile\nheight 2\nwidth 3\nmap\n...\n@.",
    b"type octile\nheight 2\nwidth 3\nmap\n...\n",
    b"",
    b"type octile\r\nheight 2\r\nwidth 3\r\nmap\r\n...\r\n@.@\r\n\r\n\r\n",
    b"type octile\nheight 1\nwidth 1000000000\nmap\n",
    b"type octile\nheight 1\nwidth 999999999\nmap\n",
    b"type octile\nheight 1\nwidth 1\nmaps\n.\n",
    b" type\t octile \n\theight 1\nwidth 002\nmap \nTG\n \t\n",
    b"type octile\nheight 1\nwidth 2\nmap\n..W\n",
    b"type octile\nheight 1\nwidth 2\nmap\n.W.\n",
    b"type octile\nheight 1\nwidth 2\nmap\n..\n\n.\n",
];

/// What is read of them, a line for each.
const FAULTS: &str = "7 bad cell at line 5 column 2 byte 83
9 too large at line 2
2 height line
6 row length at line 6
5 missing row at line 6
1 type line
accepted
3 width line
9 too large at line 3
4 map line
accepted
6 row length at line 5
7 bad cell at line 5 column 2 byte 87
8 text after rows at line 7
";

#[test]
fn names_the_first_fault(rt: HostRuntime) -> Result<(), Fail> {
    let mut text = String::new(rt.alloc());
    for file in FILES {
        match fault(&rt, file) {
            Some(fault) => write!(text, "{fault}\n")?,
            None => text.push_str("accepted\n")?,
        }
    }
    assert_eq!(rt; text.as_str(), FAULTS);
    Ok(())
}

#[test]
fn names_where_a_file_ends_too_soon(rt: HostRuntime) {
    let cases: [(usize, usize, Option<MapFault>); 9] = [
        (0, 10, Some(MapFault::TypeLine)),
        (11, 19, Some(MapFault::Height)),
        (20, 27, Some(MapFault::Width)),
        (28, 31, Some(MapFault::MapLine)),
        (32, 33, Some(MapFault::MissingRow { line: 5 })),
        (34, 35, Some(MapFault::RowLength { line: 5 })),
        (36, 37, Some(MapFault::MissingRow { line: 6 })),
        (38, 39, Some(MapFault::RowLength { line: 6 })),
        (40, 41, None),
    ];
    assert_eq!(rt; FILE.len(), 41);
    for (first, last, expected) in cases {
        for end in first..=last {
            assert!(rt; end <= FILE.len());
            assert_eq!(rt; fault(&rt, &FILE[..end]), expected, "after {end} bytes");
        }
    }
}
