use mapf_plan::{Counted, ReadFault, Sink, Source, WriteFailed, read_whole, write_whole};
use std::alloc::Global;
use std::io;
use std::io::{Error, ErrorKind, Read, Write};
use std::test::Fail;

/// Gives the byte 7 so many times, at most `most` a call, and fails from the call number `fails_at` on.
#[derive(Drop)]
struct Reader {
    left: usize,
    most: usize,
    fails_at: u64,
}

impl Read for Reader {
    fn read(&mut self, buf: &mut [u8]) -> io::Result<usize> {
        if self.fails_at == 0 {
            return Err(Error::from(ErrorKind::Interrupted));
        }
        self.fails_at -= 1;
        let given = self.left.min(self.most).min(buf.len());
        for byte in &mut buf[..given] {
            *byte = 7;
        }
        self.left -= given;
        Ok(given)
    }
}

/// Takes at most `most` bytes a call, and fails from the call number `fails_at` on, a flush among them.
#[derive(Drop)]
struct Writer {
    taken: Vec<u8>,
    most: usize,
    fails_at: u64,
}

impl Writer {
    fn count_call(&mut self) -> io::Result<()> {
        if self.fails_at == 0 {
            return Err(Error::from(ErrorKind::BrokenPipe));
        }
        self.fails_at -= 1;
        Ok(())
    }
}

impl Write for Writer {
    fn write(&mut self, buf: &[u8]) -> io::Result<usize> {
        self.count_call()?;
        let count = buf.len().min(self.most);
        self.taken.extend_from_slice(&buf[..count])?;
        Ok(count)
    }

    fn flush(&mut self) -> io::Result<()> {
        self.count_call()
    }
}

fn read_sevens(
    alloc: Global,
    left: usize,
    most: usize,
    fails_at: u64,
    limit: usize,
) -> (Result<usize, ReadFault>, u64) {
    let mut source = Counted::of(Reader {
        left,
        most,
        fails_at,
    });
    let read = read_whole(alloc, &mut source, limit);
    let count = read.map(|bytes| bytes.iter().filter(|byte| **byte == 7).count());
    (count, source.failures())
}

#[test]
fn reads_to_the_end(rt: HostRuntime) {
    for (left, most, limit) in [(0, 9, 0), (5, 1, 5), (200_000, 70_000, 200_000)] {
        let outcome = read_sevens(rt.alloc(), left, most, 1_000_000, limit);
        assert_eq!(rt; outcome, (Ok(left), 0), "{left} bytes");
    }
}

#[test]
fn refuses_a_byte_past_the_limit(rt: HostRuntime) {
    for (left, most, limit) in [(1, 9, 0), (6, 1, 5), (200_001, 70_000, 200_000)] {
        let outcome = read_sevens(rt.alloc(), left, most, 1_000_000, limit);
        assert_eq!(rt; outcome, (Err(ReadFault::TooLong), 0), "{left} bytes");
    }
}

#[test]
fn ends_at_the_first_failed_read(rt: HostRuntime) {
    // The last one fails where the end was to be found.
    for fails_at in [0, 1, 3, 5] {
        let outcome = read_sevens(rt.alloc(), 5, 1, fails_at, 9);
        assert_eq!(rt; outcome, (Err(ReadFault::Failed), 1), "call {fails_at}");
    }
}

#[test]
fn ends_at_the_first_failed_write(rt: HostRuntime) -> Result<(), Fail> {
    // The third call is the flush, or a fourth.
    for (most, fails_at, result, taken, failures) in [
        (9, 2, Ok(()), b"text".as_slice(), 0),
        (2, 3, Ok(()), b"text".as_slice(), 0),
        (3, 0, Err(WriteFailed { taken: 0 }), b"".as_slice(), 1),
        (3, 1, Err(WriteFailed { taken: 3 }), b"tex".as_slice(), 1),
        (3, 2, Err(WriteFailed { taken: 4 }), b"text".as_slice(), 1),
        (0, 9, Err(WriteFailed { taken: 0 }), b"".as_slice(), 1),
    ] {
        let mut writer = Writer {
            taken: Vec::new(rt.alloc()),
            most,
            fails_at,
        };
        let mut sink = Counted::of(&mut writer);
        assert_eq!(rt;
            write_whole(&mut sink, b"text"),
            result,
            "{most} {fails_at}"
        );
        assert_eq!(rt; sink.failures(), failures, "{most} {fails_at}");
        assert_eq!(rt; writer.taken.as_slice(), taken, "{most} {fails_at}");
    }
    Ok(())
}

#[test]
fn counts_each_failed_call(rt: HostRuntime) -> Result<(), Fail> {
    let mut sink = Counted::of(Writer {
        taken: Vec::new(rt.alloc()),
        most: 0,
        fails_at: 2,
    });
    assert_eq!(rt; sink.failures(), 0);
    assert_eq!(rt; sink.write(b"")?, 0);
    assert_eq!(rt; sink.failures(), 0, "no byte was offered");
    assert_eq!(rt; sink.write(b"a")?, 0);
    assert_eq!(rt; sink.failures(), 1, "a byte was offered");
    assert!(rt; sink.write(b"a").is_err());
    assert!(rt; sink.flush().is_err());
    assert_eq!(rt; sink.failures(), 3);
    Ok(())
}

#[test]
fn passes_bytes_through(rt: HostRuntime) -> Result<(), Fail> {
    let mut source = Counted::of(b"abc".as_slice());
    let bytes = read_whole(rt.alloc(), &mut source, 3)?;
    let mut copy = Vec::new(rt.alloc());
    write_whole(&mut Counted::of(&mut copy), &bytes)?;
    assert_eq!(rt; copy.as_slice(), b"abc".as_slice());
    Ok(())
}
