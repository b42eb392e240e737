use mapf_grid::Cell;
use mapf_plan::{Conflict, Path, Plan};
use std::alloc::Global;
use std::test::Fail;

fn path(alloc: Global, start: u32, end: u32) -> Result<Path, Fail> {
    Ok(Path::of(vec![in alloc; Cell::of(start), Cell::of(end)]?))
}

#[test]
fn a_copy_has_the_same_cells(rt: HostRuntime) -> Result<(), Fail> {
    let alloc = rt.alloc();
    let copy = path(alloc, 2, 3)?.copy(alloc)?;
    assert_eq!(rt; copy.cost(), 1);
    assert_eq!(rt; copy.at(0), Cell::of(2));
    assert_eq!(rt; copy.at(1), Cell::of(3));
    Ok(())
}

/// The first conflict of two paths of three cells each.
fn of_two(alloc: Global, a: [u32; 3], b: [u32; 3]) -> Result<Option<Conflict>, Fail> {
    let first = vec![in alloc; Cell::of(a[0]), Cell::of(a[1]), Cell::of(a[2])]?;
    let second = vec![in alloc; Cell::of(b[0]), Cell::of(b[1]), Cell::of(b[2])]?;
    let plan = Plan::of(vec![in alloc; Path::of(first), Path::of(second)]?);
    Ok(plan.first_conflict())
}

/// The nodes L and LLL of the tree of a corridor with a bay, and two agents that meet after both moved.
#[test]
fn finds_the_first_conflict(rt: HostRuntime) -> Result<(), Fail> {
    let swapping = Conflict::Swapping {
        first: 0,
        second: 1,
        from: Cell::of(1),
        to: Cell::of(0),
        time: 1,
    };
    assert_eq!(rt; of_two(rt.alloc(), [1, 0, 1], [0, 1, 2])?, Some(swapping));
    assert_eq!(rt; of_two(rt.alloc(), [1, 4, 1], [0, 1, 2])?, None);
    let vertex = Conflict::Vertex {
        first: 0,
        second: 1,
        cell: Cell::of(1),
        time: 2,
    };
    assert_eq!(rt; of_two(rt.alloc(), [4, 4, 1], [2, 2, 1])?, Some(vertex));
    Ok(())
}

/// A conflict isn't before itself.
#[test]
fn orders_conflicts(rt: HostRuntime) -> Result<(), Fail> {
    let first = of_two(rt.alloc(), [1, 0, 1], [0, 1, 2])?.ok_or("no conflict")?;
    let second = of_two(rt.alloc(), [4, 4, 1], [2, 2, 1])?.ok_or("no conflict")?;
    assert!(rt; first.is_before(&second));
    assert!(rt; !second.is_before(&first));
    assert!(rt; !first.is_before(&first));
    Ok(())
}
