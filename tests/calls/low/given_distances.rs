use super::map_files::ROOM;
use mapf_grid::{Cell, Map};
use mapf_low::Distances;
use std::alloc::Global;
use std::test::Fail;

/// The distances of the first so many cells, and a stroke where there is none.
fn first_distances(alloc: Global, distances: &Distances, cells: u32) -> Result<String, Fail> {
    let mut text = String::new(alloc);
    for cell in 0..cells {
        match distances.get(Cell::of(cell)) {
            Some(distance) => write!(&mut text, " {distance}")?,
            None => text.push_str(" -")?,
        }
    }
    Ok(text)
}

#[test]
fn distances_go_round_blocked_cells(rt: HostRuntime) -> Result<(), Fail> {
    let alloc = rt.alloc();
    let map = Map::read(alloc, ROOM)?;
    let goal = map.cell(2, 0).ok_or("outside")?;
    assert!(rt; map.is_free(goal));
    let distances = Distances::to(alloc, &map, goal)?;
    // The map has six cells: there is no seventh.
    assert_eq!(rt;
        first_distances(alloc, &distances, 7)?.as_str(),
        " 2 1 0 - 2 - -"
    );
    Ok(())
}
