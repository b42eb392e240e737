// A Work whose jobs borrow what they are about.
ghost use Rattle.std.specs.Prelude.{◌≡◌};

use mapf_board::{Pair, Task, Work};
use std::marker::PhantomData;

/// A place in a row of numbers.
#[derive(Clone, Copy)]
pub(super) struct Place<'m> {
    row: &'m [u32],
    at: usize,
}

impl<'m> Place<'m> {
    pub(super) fn at(&self) -> usize {
        self.at
    }
}

pub(super) fn place_of<'m>(row: &'m [u32], at: usize) -> Place<'m> {
    Place { row, at }
}

/// What number stands there?
#[derive(Clone, Copy)]
pub(super) struct Rows<'m> {
    marker: PhantomData<&'m u32>,
}

impl<'m> Rows<'m> {
    pub(super) fn new() -> Rows<'m> {
        Rows {
            marker: PhantomData,
        }
    }
}

impl<'m> Task for Rows<'m> {
    type Job = Place<'m>;

    type Answer = Option<u32>;

    ghost use Rattle.std.specs.Prelude.{◌≡◌, slice_get};

    ghost fits = { λ job answer. answer ≡ slice_get job.row.now job.at };
}

impl<'m> Work for Rows<'m> {
    fn number(&self, job: &Place<'m>) -> u64 {
        job.at as u64
    }

    fn perform(&self, job: Place<'m>) -> Result<Pair<Rows<'m>>, Place<'m>> {
        let answer = job.row.get(job.at).copied();
        Ok(Pair::of(job, answer))
    }
}
