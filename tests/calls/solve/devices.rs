//! Runs over readers and writers that fail.

use crate::worked::ALONG;
use mapf_plan::{Counted, DeviceFault, FileName, Rule};
use mapf_solve::{Ask, RunFault, run};
use std::alloc::Global;
use std::io;
use std::io::{Error, ErrorKind, Read, Write};
use std::thread::Threads;

/// The text of the answer with a bound of 2.
const TEXT: &[u8; 21] = b"plan 1 2\n0,0 1,0 2,0\n";

/// Gives these bytes, one a read, and then fails.
#[derive(Drop)]
struct Broken {
    bytes: &'static [u8],
}

impl Read for Broken {
    fn read(&mut self, buf: &mut [u8]) -> io::Result<usize> {
        if self.bytes.is_empty() {
            return Err(Error::from(ErrorKind::Interrupted));
        }
        let most = buf.len().min(1);
        self.bytes.read(&mut buf[..most])
    }
}

/// Takes at most `most` bytes a call as long as it has room; then each call fails, or it takes none.
#[derive(Drop)]
struct Narrow {
    bytes: Vec<u8>,
    room: usize,
    most: usize,
    fails: bool,
}

impl Narrow {
    /// A writer that has room for so many bytes, and then fails.
    fn new(alloc: Global, room: usize) -> Narrow {
        Narrow {
            bytes: Vec::new(alloc),
            room,
            most: 100,
            fails: true,
        }
    }

    /// The fault of a writer that fails where it has no room.
    fn find_room(&self) -> io::Result<()> {
        if self.room == 0 && self.fails {
            return Err(Error::from(ErrorKind::StorageFull));
        }
        Ok(())
    }
}

impl Write for Narrow {
    fn write(&mut self, buf: &[u8]) -> io::Result<usize> {
        self.find_room()?;
        let count = buf.len().min(self.most).min(self.room);
        self.room -= count;
        self.bytes.extend_from_slice(&buf[..count])?;
        Ok(count)
    }

    fn flush(&mut self) -> io::Result<()> {
        self.find_room()
    }
}

/// The run with these readers, for the one agent.
fn run_over<R: Threads + Sync, M: Read, S: Read>(
    rt: &R,
    alloc: Global,
    map: &mut M,
    scen: &mut S,
    out: &mut Narrow,
    bound: u64,
) -> Result<(), RunFault> {
    let ask = Ask {
        agents: 1,
        bound,
        workers: 1,
        nodes: None,
        rule: Rule::Classical,
    };
    run(
        rt,
        alloc,
        &mut Counted::of(map),
        &mut Counted::of(scen),
        &mut Counted::of(out),
        ask,
    )
}

/// The run of the one agent that goes along three cells.
fn run_along<R: Threads + Sync>(
    rt: &R,
    alloc: Global,
    out: &mut Narrow,
    bound: u64,
) -> Result<(), RunFault> {
    let mut map = ALONG.map;
    let mut scen = ALONG.scen;
    run_over(rt, alloc, &mut map, &mut scen, out, bound)
}

/// The fault of a write that fails after so many bytes.
fn write_failed(taken: usize) -> Result<(), RunFault> {
    Err(RunFault::Device(DeviceFault::WriteFailed { taken }))
}

#[test]
fn a_writer_that_takes_five_bytes(rt: HostRuntime) {
    let mut out = Narrow::new(rt.alloc(), 5);
    assert_eq!(rt; run_along(&rt, rt.alloc(), &mut out, 1), write_failed(5));
    assert_eq!(rt; out.bytes.as_slice(), b"none ".as_slice());
}

#[test]
fn a_writer_or_its_flush_fails_after_each_byte(rt: HostRuntime) {
    for room in 0..=TEXT.len() {
        let mut out = Narrow::new(rt.alloc(), room);
        let result = run_along(&rt, rt.alloc(), &mut out, 2);
        assert_eq!(rt; result, write_failed(room), "room for {room}");
        assert_eq!(rt; out.bytes.as_slice(), &TEXT[..room], "room for {room}");
    }
}

#[test]
fn a_writer_that_takes_one_byte_a_call(rt: HostRuntime) {
    let mut out = Narrow::new(rt.alloc(), 22);
    out.most = 1;
    assert_eq!(rt; run_along(&rt, rt.alloc(), &mut out, 2), Ok(()));
    assert_eq!(rt; out.bytes.as_slice(), TEXT.as_slice());
}

#[test]
fn a_writer_that_takes_none_after_five_bytes(rt: HostRuntime) {
    let mut out = Narrow::new(rt.alloc(), 5);
    out.fails = false;
    assert_eq!(rt; run_along(&rt, rt.alloc(), &mut out, 2), write_failed(5));
    assert_eq!(rt; out.bytes.as_slice(), b"plan ".as_slice());
}

#[test]
fn a_failed_read_before_anything_is_written(rt: HostRuntime) {
    for given in 0..3 {
        let mut out = Narrow::new(rt.alloc(), 22);
        let mut broken = Broken {
            bytes: &ALONG.map[..given],
        };
        let mut scen = ALONG.scen;
        let result = run_over(&rt, rt.alloc(), &mut broken, &mut scen, &mut out, 2);
        let failed = RunFault::Device(DeviceFault::ReadFailed(FileName::Map));
        assert_eq!(rt; result, Err(failed), "{given} bytes of the map");
        let mut map = ALONG.map;
        let mut broken = Broken {
            bytes: &ALONG.scen[..given],
        };
        let result = run_over(&rt, rt.alloc(), &mut map, &mut broken, &mut out, 2);
        let failed = RunFault::Device(DeviceFault::ReadFailed(FileName::Scenario));
        assert_eq!(rt; result, Err(failed), "{given} bytes of the scenario");
        assert!(rt; out.bytes.is_empty());
    }
}

#[test]
fn a_failed_read_before_a_bound_that_is_too_large(rt: HostRuntime) {
    let mut out = Narrow::new(rt.alloc(), 22);
    let mut broken = Broken { bytes: b"" };
    let mut scen = ALONG.scen;
    let result = run_over(&rt, rt.alloc(), &mut broken, &mut scen, &mut out, 1_000_001);
    let failed = RunFault::Device(DeviceFault::ReadFailed(FileName::Map));
    assert_eq!(rt; result, Err(failed));
    assert!(rt; out.bytes.is_empty());
}
