//! A command on two files, what it is to print and its status.

use crate::worked::Worked;
use mapf_cli::call;
use mapf_plan::Counted;
use std::alloc::{AllocError, Global};
use std::fs;
use std::process::Abort;
use std::rt::Files;
use std::test::Fail;
use std::thread::Threads;
use std::time::Clock;

/// Writes the files `map` and `scen` into a folder that holds nothing else.
pub(super) fn place<R: Files + AllocGlobal>(
    rt: &R,
    folder: &str,
    worked: &Worked,
) -> Result<(), Fail> {
    let alloc = rt.alloc();
    let _ = fs::remove_dir_all(rt, folder);
    fs::create_dir(rt, folder)?;
    fs::write(rt, format!(in alloc; "{folder}/map")?.as_str(), worked.map)?;
    fs::write(
        rt,
        format!(in alloc; "{folder}/scen")?.as_str(),
        worked.scen,
    )?;
    Ok(())
}

/// The words of a command on a folder's files; `rest` is parted by single spaces.
pub(super) fn words_of(
    alloc: Global,
    command: &str,
    folder: &str,
    rest: &str,
) -> Result<Vec<String>, AllocError> {
    let line = format!(in alloc; "mapf {command} --map {folder}/map --scen {folder}/scen {rest}")?;
    let mut words = Vec::new(alloc);
    for word in line.split(' ') {
        words.push(String::from_str(alloc, word)?)?;
    }
    Ok(words)
}

/// What the call is to end with and to print.
#[derive(Clone, Copy, Drop)]
pub(super) struct Said {
    pub(super) status: u8,
    pub(super) out: &'static str,
    pub(super) err: &'static str,
}

/// A line on the output, with a status.
pub(super) fn printed(status: u8, out: &'static str) -> Said {
    Said {
        status,
        out,
        err: "",
    }
}

/// A refusal's line, with the status of bytes and numbers.
pub(super) fn refused(err: &'static str) -> Said {
    Said {
        status: 3,
        out: "",
        err,
    }
}

/// A command on a folder's files ends so.
pub(super) fn expect<R: Files + Threads + Clock + Sync + Abort + AllocGlobal>(
    rt: &R,
    command: &str,
    folder: &str,
    rest: &str,
    said: Said,
) -> Result<(), Fail> {
    let alloc = rt.alloc();
    let words = words_of(alloc, command, folder, rest)?;
    let mut out = Vec::new(alloc);
    let mut err = Vec::new(alloc);
    let status = call(
        rt,
        alloc,
        words,
        &mut Counted::of(&mut out),
        &mut Counted::of(&mut err),
    );
    assert_eq!(rt; out.as_slice(), said.out.as_bytes(), "{folder} {rest}");
    assert_eq!(rt; err.as_slice(), said.err.as_bytes(), "{folder} {rest}");
    assert_eq!(rt; status, said.status, "{folder} {rest}");
    Ok(())
}
