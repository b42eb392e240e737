// Workers that draw numbers, do the jobs of these, and give back their seats and their pairs.

use super::rows::{Rows, place_of};
use mapf_board::{NoMemory, Pair, TicketSeat, Tickets, Work};
use std::alloc::{AllocError, Global};
use std::thread;
use std::thread::Threads;

/// A worker's seat, and the pairs that it made.
pub(super) type Made<'m> = (TicketSeat, Vec<Pair<Rows<'m>>>);

/// Draws until no number is left.
fn worker<'m>(
    alloc: Global,
    tickets: &Tickets,
    row: &'m [u32],
    mut seat: TicketSeat,
) -> Result<Made<'m>, AllocError> {
    let work = Rows::new();
    let mut pairs = Vec::new(alloc);
    while let Some(n) = tickets.draw(&mut seat) {
        if let Ok(pair) = work.perform(place_of(row, n)) {
            pairs.push(pair)?;
        }
    }
    Ok((seat, pairs))
}

/// The seats and the pairs of all workers.
fn gathered<'m>(
    alloc: Global,
    made: Vec<Result<Made<'m>, AllocError>>,
    tickets: &Tickets,
) -> Result<(Vec<TicketSeat>, Vec<Pair<Rows<'m>>>), AllocError> {
    let mut seats = Vec::with_capacity(alloc, made.len())?;
    let mut pairs = Vec::new(alloc);
    for one in made {
        let (seat, some) = one?;
        seats.push(seat)?;
        pairs.extend(some)?;
    }
    Ok((seats, pairs))
}

/// The answers for all places of a row, by so many workers in threads, and how many numbers were drawn.
pub(super) fn all_pairs<'m, R: Threads + Sync>(
    rt: &R,
    alloc: Global,
    row: &'m [u32],
    workers: usize,
) -> Result<(usize, Vec<Pair<Rows<'m>>>), NoMemory> {
    let (tickets, seats) = Tickets::new(alloc, row.len(), workers)?;
    let made = thread::map_vec(rt, seats, &|seat| worker(alloc, &tickets, row, seat))?;
    let (seats, pairs) = gathered(alloc, made, &tickets)?;
    Ok((tickets.close(seats), pairs))
}

/// A pair of any work, by way of another thread.
pub(super) fn sent<W: Work, R: Threads>(rt: &R, pair: Pair<W>) -> Pair<W> {
    let (back, _) = thread::join(rt, || pair, || {});
    back
}
