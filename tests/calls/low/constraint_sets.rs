use mapf_grid::Cell;
use mapf_low::{Constraint, Constraints};
use std::alloc::Global;
use std::test::Fail;

/// What a set forbids on the cells 0 and 1 and between them, up to the time 4.
fn forbidden(alloc: Global, set: &Constraints) -> Result<String, Fail> {
    let mut text = String::new(alloc);
    for time in 0..5 {
        for to in 0..2 {
            if !set.allows_at(Cell::of(to), time) {
                write!(&mut text, "on {to} at {time};")?;
            }
            for from in 0..2 {
                if !set.allows_step(Cell::of(from), Cell::of(to), time) {
                    write!(&mut text, "from {from} to {to} at {time};")?;
                }
            }
        }
    }
    Ok(text)
}

fn vertex(cell: u32, time: u32) -> Constraint {
    Constraint::Vertex {
        cell: Cell::of(cell),
        time,
    }
}

fn edge(from: u32, to: u32, time: u32) -> Constraint {
    Constraint::Edge {
        from: Cell::of(from),
        to: Cell::of(to),
        time,
    }
}

#[test]
fn a_set_forbids_what_it_holds_and_no_more(rt: HostRuntime) -> Result<(), Fail> {
    let alloc = rt.alloc();
    let set = Constraints::new(alloc)
        .with(vertex(1, 3))?
        .with(edge(0, 1, 2))?;
    assert_eq!(rt;
        forbidden(alloc, &set)?.as_str(),
        "from 0 to 1 at 2;on 1 at 3;"
    );
    Ok(())
}

#[test]
fn a_constraint_more_leaves_the_old_set(rt: HostRuntime) -> Result<(), Fail> {
    let alloc = rt.alloc();
    let old = Constraints::new(alloc).with(vertex(0, 0))?;
    let more = old.with(edge(1, 0, 1))?;
    let again = more.with(vertex(0, 0))?;
    let copy = more.copy()?;
    assert_eq!(rt; forbidden(alloc, &old)?.as_str(), "on 0 at 0;");
    let both = "on 0 at 0;from 1 to 0 at 1;";
    assert_eq!(rt; forbidden(alloc, &more)?.as_str(), both);
    assert_eq!(rt; forbidden(alloc, &again)?.as_str(), both);
    assert_eq!(rt; forbidden(alloc, &copy)?.as_str(), both);
    Ok(())
}
