use crate::numbers::push_cells;
use mapf_grid::Map;
use mapf_plan::{Answer, TextFault, read_answer, write};
use std::alloc::Global;
use std::process::Abort;
use std::test::Fail;

const LINE: &[u8] = b"type octile\nheight 1\nwidth 3\nmap\n...\n";

const BAY: &[u8] = b"type octile\nheight 2\nwidth 3\nmap\n...\n@.@\n";

/// What an answer says: its cost and each path's cells by their numbers, or its bound, or its nodes and least cost.
fn said(alloc: Global, answer: &Answer) -> Result<String, Fail> {
    let mut text = String::new(alloc);
    match answer {
        Answer::Plan { plan, stated } => {
            write!(&mut text, "plan {stated}:")?;
            for path in plan.paths() {
                push_cells(&mut text, path.cells())?;
                text.push(';')?;
            }
        }
        Answer::None { bound } => write!(&mut text, "none {bound}")?,
        Answer::GaveUp { nodes, least } => write!(&mut text, "gave up {nodes}, least {least}")?,
    }
    Ok(text)
}

/// On this map the text says this, and is what is written for it.
fn expect(
    rt: &impl Abort,
    alloc: Global,
    map: &[u8],
    text: &[u8],
    words: &str,
) -> Result<(), Fail> {
    let map = Map::read(alloc, map)?;
    let answer = read_answer(alloc, text, &map)?;
    assert_eq!(rt; said(alloc, &answer)?.as_str(), words);
    assert_eq!(rt; write(alloc, &answer, &map)?.as_slice(), text);
    Ok(())
}

#[test]
fn a_plan_of_one_agent(rt: HostRuntime) -> Result<(), Fail> {
    let text = b"plan 1 2\n0,0 1,0 2,0\n";
    expect(&rt, rt.alloc(), LINE, text, "plan 2: 0 1 2;")
}

#[test]
fn a_plan_of_one_cell(rt: HostRuntime) -> Result<(), Fail> {
    expect(&rt, rt.alloc(), LINE, b"plan 1 0\n1,0\n", "plan 0: 1;")
}

#[test]
fn a_line_for_each_agent(rt: HostRuntime) -> Result<(), Fail> {
    let text = b"plan 2 4\n1,0 1,1 1,0\n0,0 1,0 2,0\n";
    expect(&rt, rt.alloc(), BAY, text, "plan 4: 1 4 1; 0 1 2;")
}

#[test]
fn no_plan(rt: HostRuntime) -> Result<(), Fail> {
    expect(&rt, rt.alloc(), LINE, b"none 1\n", "none 1")?;
    expect(&rt, rt.alloc(), LINE, b"none 1000000\n", "none 1000000")
}

#[test]
fn a_search_that_gave_up(rt: HostRuntime) -> Result<(), Fail> {
    for (text, words) in [
        ("gave up 5 4\n", "gave up 5, least 4"),
        ("gave up 1 0\n", "gave up 1, least 0"),
        (
            "gave up 1000000 1000000\n",
            "gave up 1000000, least 1000000",
        ),
    ] {
        expect(&rt, rt.alloc(), LINE, text.as_bytes(), words)?;
    }
    Ok(())
}

/// The fault of these bytes on this map, if they have one.
fn fault_of(alloc: Global, map: &[u8], bytes: &[u8]) -> Result<Option<TextFault>, Fail> {
    let map = Map::read(alloc, map)?;
    Ok(read_answer(alloc, bytes, &map).err())
}

#[test]
fn tells_the_first_fault(rt: HostRuntime) -> Result<(), Fail> {
    for (text, fault) in [
        ("plan 1 2\n0,0 1,0 2,0\n", None),
        ("plan 1 2\n0,0 1,0 2,0", Some(TextFault::Line { line: 2 })),
        ("plan 1 02\n0,0\n", Some(TextFault::Head)),
        (
            "plan 1 2\n0,0 3,0\n",
            Some(TextFault::Outside { line: 2, place: 1 }),
        ),
        ("plan 1 2\n0,0 3,0 \n", Some(TextFault::Line { line: 2 })),
        (
            "plan 1 2\n0,0 1000000000,0\n",
            Some(TextFault::Line { line: 2 }),
        ),
        (
            "plan 2 2\n0,1\n\n",
            Some(TextFault::Outside { line: 2, place: 0 }),
        ),
        ("plan 1001 2\n", Some(TextFault::Head)),
        ("plan 0 0\n", Some(TextFault::Head)),
        ("plan 1 1000000001\n0,0\n", Some(TextFault::Head)),
        ("plan 1 1000000000\n0,0\n", None),
        ("plan 1 0\n0,0\n ", Some(TextFault::Line { line: 3 })),
        ("none 6\n\n", Some(TextFault::Line { line: 2 })),
        ("none 0\n", None),
        ("none \n", Some(TextFault::Head)),
        ("none 1000001\n", Some(TextFault::Head)),
        ("none 1000000\n", None),
        ("gave up 5 4\n", None),
        ("gave up 5 4", Some(TextFault::Head)),
        ("gave up 5 4\n ", Some(TextFault::Line { line: 2 })),
        ("gave up 0 4\n", Some(TextFault::Head)),
        ("gave up 1000001 4\n", Some(TextFault::Head)),
        ("gave up 5 1000001\n", Some(TextFault::Head)),
        ("gave up 05 4\n", Some(TextFault::Head)),
        ("gave up 5\n", Some(TextFault::Head)),
        ("", Some(TextFault::Head)),
    ] {
        assert_eq!(rt;
            fault_of(rt.alloc(), LINE, text.as_bytes())?,
            fault,
            "{text:?}"
        );
    }
    Ok(())
}

/// A letter for a fault: the line's digit, `h` for the head, and a point where there is none.
fn letter(fault: Option<TextFault>) -> char {
    match fault {
        None => '.',
        Some(TextFault::Head) => 'h',
        Some(TextFault::Line { line: 2 }) => '2',
        Some(TextFault::Line { line: 3 }) => '3',
        Some(_) => '?',
    }
}

#[test]
fn tells_where_a_text_is_cut_off(rt: HostRuntime) -> Result<(), Fail> {
    let text = b"plan 2 4\n1,0 1,1 1,0\n0,0 1,0 2,0\n";
    let mut faults = String::new(rt.alloc());
    for length in 0..=text.len() {
        faults.push(letter(fault_of(rt.alloc(), BAY, &text[..length])?))?;
    }
    assert_eq!(rt; faults.as_str(), "hhhhhhhhh222222222222333333333333.");
    Ok(())
}
