//! A gate that counts how often jobs are entered and left, and at which one job waits for another.

use mapf_board::Gate;
use std::sync::atomic::{AtomicU64, Ordering};

/// How many jobs are counted one by one: more than there are in any of these problems.
const JOBS: usize = 10;

/// How long a job waits for another at most, in looks.
pub(super) const MOST_LOOKS: u64 = 1_000_000_000;

/// How often each of the first jobs was entered and left, and how often others were.
#[derive(Drop)]
pub(super) struct Counts {
    entered: [AtomicU64; JOBS],
    left: [AtomicU64; JOBS],
    pub(super) others: AtomicU64,
    /// The job that waits for another to be left.
    waiter: u64,
    awaited: usize,
    /// How long it waits at most, in looks.
    patience: u64,
    pub(super) impatient: AtomicU64,
}

impl Counts {
    /// No job waits.
    pub(super) fn new() -> Counts {
        Counts::waiting(0, 0, 0)
    }

    /// A job waits for another to be left, so many looks at most.
    pub(super) fn waiting(waiter: u64, awaited: usize, patience: u64) -> Counts {
        Counts {
            entered: zeros(),
            left: zeros(),
            others: AtomicU64::new(0),
            waiter,
            awaited,
            patience,
            impatient: AtomicU64::new(0),
        }
    }

    fn count(&self, jobs: &[AtomicU64], n: u64) {
        match jobs.get(n as usize) {
            Some(job) => job.fetch_add(1, Ordering::SeqCst),
            None => self.others.fetch_add(1, Ordering::SeqCst),
        };
    }

    fn wait_for_the_awaited(&self) {
        for _ in 0..self.patience {
            if self.is_left(self.awaited) {
                return;
            }
        }
        if self.patience > 0 {
            self.impatient.fetch_add(1, Ordering::SeqCst);
        }
    }

    fn is_left(&self, n: usize) -> bool {
        match self.left.get(n) {
            Some(job) => job.load(Ordering::SeqCst) > 0,
            None => false,
        }
    }

    /// Whether each of the first so many jobs was entered and left once, and no other was.
    pub(super) fn is_each_once(&self, first: usize) -> bool {
        is_once(&self.entered, first)
            && is_once(&self.left, first)
            && self.others.load(Ordering::SeqCst) == 0
    }

    /// How often this one of the first jobs was entered.
    pub(super) fn entries_of(&self, n: u64) -> u64 {
        match self.entered.get(n as usize) {
            Some(job) => job.load(Ordering::SeqCst),
            None => 0,
        }
    }

    /// How often one of the first jobs was entered.
    pub(super) fn entries(&self) -> u64 {
        let mut entries = 0_u64;
        for job in &self.entered {
            entries = entries.saturating_add(job.load(Ordering::SeqCst));
        }
        entries
    }
}

/// A count for each job.
fn zeros() -> [AtomicU64; JOBS] {
    [
        AtomicU64::new(0),
        AtomicU64::new(0),
        AtomicU64::new(0),
        AtomicU64::new(0),
        AtomicU64::new(0),
        AtomicU64::new(0),
        AtomicU64::new(0),
        AtomicU64::new(0),
        AtomicU64::new(0),
        AtomicU64::new(0),
    ]
}

/// Whether each of the first so many is 1, and each other is 0.
fn is_once(jobs: &[AtomicU64], first: usize) -> bool {
    let is = |job: &AtomicU64, count: u64| job.load(Ordering::SeqCst) == count;
    jobs.iter().take(first).all(|job| is(job, 1)) && jobs.iter().skip(first).all(|job| is(job, 0))
}

impl Gate for Counts {
    fn enter(&self, n: u64) {
        self.count(&self.entered, n);
        if n == self.waiter {
            self.wait_for_the_awaited();
        }
    }

    fn leave(&self, n: u64) {
        self.count(&self.left, n);
    }
}
