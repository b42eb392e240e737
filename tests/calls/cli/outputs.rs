//! Files that are not there, outputs that fail, and command lines that are refused.

use super::expected::{Said, expect, place, words_of};
use crate::worked::{ALONG, BAY};
use mapf_cli::call;
use mapf_plan::Counted;
use std::io::{Error, ErrorKind, Write};
use std::test::Fail;
use std::{fs, io};

/// The line of a file that couldn't be opened.
fn missing(err: &'static str) -> Said {
    Said {
        status: 5,
        out: "",
        err,
    }
}

#[test]
fn files_that_are_not_there(rt: HostRuntime) -> Result<(), Fail> {
    let rest = "--agents 1 --bound 5 --workers 1";
    expect(
        &rt,
        "solve",
        "lines_of_nothing",
        rest,
        missing("mapf: 50 cannot open map\n"),
    )?;
    let folder = "lines_of_no_file";
    place(&rt, folder, &ALONG)?;
    let rest = "--agents 1 --plan lines_of_no_file/plan";
    expect(
        &rt,
        "check",
        folder,
        rest,
        missing("mapf: 50 cannot open plan\n"),
    )?;
    fs::remove_file(&rt, "lines_of_no_file/scen")?;
    expect(
        &rt,
        "check",
        folder,
        rest,
        missing("mapf: 50 cannot open scenario\n"),
    )?;
    fs::remove_file(&rt, "lines_of_no_file/map")?;
    expect(
        &rt,
        "check",
        folder,
        rest,
        missing("mapf: 50 cannot open map\n"),
    )?;
    fs::remove_dir_all(&rt, folder)?;
    Ok(())
}

/// A writer that has no room.
#[derive(Drop)]
struct Full;

impl Write for Full {
    fn write(&mut self, _buf: &[u8]) -> io::Result<usize> {
        Err(Error::from(ErrorKind::StorageFull))
    }

    fn flush(&mut self) -> io::Result<()> {
        Err(Error::from(ErrorKind::StorageFull))
    }
}

/// A fault of the output has a line and a status; one of the other output has neither.
#[test]
fn outputs_that_take_nothing(rt: HostRuntime) -> Result<(), Fail> {
    let alloc = rt.alloc();
    let folder = "lines_of_no_room";
    place(&rt, folder, &ALONG)?;
    let words = words_of(alloc, "solve", folder, "--agents 1 --bound 2 --workers 1")?;
    let mut err = Vec::new(alloc);
    let mut out = Counted::of(Full);
    let status = call(&rt, alloc, words, &mut out, &mut Counted::of(&mut err));
    assert_eq!(rt;
        err.as_slice(),
        b"mapf: 52 write failed after 0 bytes\n".as_slice()
    );
    assert_eq!(rt; status, 5);
    let words = words_of(alloc, "solve", folder, "--agents 0 --bound 2 --workers 1")?;
    let mut out = Vec::new(alloc);
    let mut err = Counted::of(Full);
    let status = call(&rt, alloc, words, &mut Counted::of(&mut out), &mut err);
    assert!(rt; out.is_empty());
    assert_eq!(rt; status, 3);
    let words = words_of(
        alloc,
        "solve",
        folder,
        "--agents 1 --bound 2 --workers 1 --progress",
    )?;
    let mut err = Counted::of(Full);
    let status = call(&rt, alloc, words, &mut Counted::of(&mut out), &mut err);
    assert_eq!(rt; out.as_slice(), b"plan 1 2\n0,0 1,0 2,0\n".as_slice());
    assert_eq!(rt; status, 0);
    fs::remove_dir_all(&rt, folder)?;
    Ok(())
}

/// A writer that takes one byte a call.
#[derive(Drop)]
struct ByteByByte {
    taken: Vec<u8>,
}

impl Write for ByteByByte {
    fn write(&mut self, buf: &[u8]) -> io::Result<usize> {
        let Some(byte) = buf.first() else {
            return Ok(0);
        };
        match self.taken.push(*byte) {
            Ok(()) => Ok(1),
            Err(_) => Err(Error::from(ErrorKind::OutOfMemory)),
        }
    }

    fn flush(&mut self) -> io::Result<()> {
        Ok(())
    }
}

/// The status is that of the text's first byte, also where the text is taken byte by byte.
#[test]
fn outputs_that_take_one_byte(rt: HostRuntime) -> Result<(), Fail> {
    let alloc = rt.alloc();
    let folder = "lines_byte_by_byte";
    place(&rt, folder, &BAY)?;
    for (rest, wanted, text) in [
        (
            "--agents 2 --bound 4 --workers 1",
            0,
            "plan 2 4\n1,0 1,1 1,0\n0,0 1,0 2,0\n",
        ),
        ("--agents 2 --bound 3 --workers 1", 1, "none 3\n"),
        (
            "--agents 2 --bound 4 --workers 1 --nodes 5",
            6,
            "gave up 5 4\n",
        ),
    ] {
        let words = words_of(alloc, "solve", folder, rest)?;
        let mut out = ByteByByte {
            taken: Vec::new(alloc),
        };
        let mut err = Vec::new(alloc);
        let status = call(
            &rt,
            alloc,
            words,
            &mut Counted::of(&mut out),
            &mut Counted::of(&mut err),
        );
        assert_eq!(rt; out.taken.as_slice(), text.as_bytes(), "{rest}");
        assert_eq!(rt; status, wanted, "{rest}");
        assert!(rt; err.is_empty(), "{rest}");
    }
    fs::remove_dir_all(&rt, folder)?;
    Ok(())
}

/// Whether there is something on the one output and nothing on the other, for each of these command lines; and the status.
#[test]
fn help_and_command_lines_that_are_refused(rt: HostRuntime) -> Result<(), Fail> {
    let alloc = rt.alloc();
    for (line, wanted) in [
        ("mapf --help", 0),
        ("mapf solve --help", 0),
        ("mapf", 2),
        ("mapf solve --map m --scen s --agents 1 --bound 2", 2),
        (
            "mapf solve --map m --scen s --agents 1 --bound 2 --workers -1",
            2,
        ),
        ("mapf check --map m --map m --scen s --plan p --agents 1", 2),
        (
            "mapf solve --map m --scen s --agents 1 --bound 2 --workers 1 --progress --progress",
            2,
        ),
        (
            "mapf solve --map m --scen s --agents 1 --bound 2 --workers 1 --progress=1",
            2,
        ),
        (
            "mapf check --map m --scen s --plan p --agents 1 --progress",
            2,
        ),
    ] {
        let mut words = Vec::new(alloc);
        for word in line.split(' ') {
            words.push(String::from_str(alloc, word)?)?;
        }
        let mut out = Vec::new(alloc);
        let mut err = Vec::new(alloc);
        let status = call(
            &rt,
            alloc,
            words,
            &mut Counted::of(&mut out),
            &mut Counted::of(&mut err),
        );
        assert_eq!(rt; status, wanted, "{line}");
        assert!(rt; out.is_empty() == (wanted == 2), "{line}");
        assert!(rt; err.is_empty() == (wanted == 0), "{line}");
    }
    Ok(())
}
