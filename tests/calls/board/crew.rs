// Taking workers' seats, and putting them back.

use super::squares::Squares;
use mapf_board::{Live, WorkerSeat};
use std::alloc::AllocError;

/// The last seat, which is taken from the others.
pub(super) fn take_seat(
    live: &Live<Squares>,
    workers: &mut Vec<WorkerSeat<Squares>>,
) -> WorkerSeat<Squares> {
    workers.pop().unwrap()
}

/// The seat goes back, as the last.
pub(super) fn put_back(
    live: &Live<Squares>,
    workers: &mut Vec<WorkerSeat<Squares>>,
    seat: WorkerSeat<Squares>,
) -> Result<(), AllocError> {
    workers.push(seat)?;
    Ok(())
}
