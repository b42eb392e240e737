// A Work of numbers.
ghost use Rattle.std.specs.Prelude.{◌≡◌, ◌*◌};

use mapf_board::{Left, Pair, Task, Work};

/// What is the square of a number?
#[derive(Clone, Copy)]
pub(super) struct Squares;

impl Task for Squares {
    type Job = u32;

    type Answer = u64;

    ghost fits = { λ n square. square ≡ n * n };
}

impl Work for Squares {
    fn number(&self, job: &u32) -> u64 {
        u64::from(*job)
    }

    fn perform(&self, job: u32) -> Result<Pair<Squares>, u32> {
        Ok(Pair::of(job, u64::from(job) * u64::from(job)))
    }
}

/// The number and its square, where it was answered.
pub(super) fn answer_in(left: Left<Pair<Squares>, u32>) -> Option<(u32, u64)> {
    match left {
        Left::Answer(pair) => Some(pair.parts()),
        Left::Job(_) => None,
    }
}
