//! Cells as text, by their numbers.

use mapf_grid::Cell;
use std::alloc::AllocError;

/// A blank and the number of each cell.
pub(crate) fn push_cells(text: &mut String, cells: &[Cell]) -> Result<(), AllocError> {
    for cell in cells {
        write!(text, " {}", cell.number())?;
    }
    Ok(())
}
