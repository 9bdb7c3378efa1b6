// Buffered sinks of every small size, before a writer that takes little and fails often.
ghost use Rattle.std.specs.Prelude.{◌<◌};

use cs_tree::{BufferedSink, IoFault, Sink, StdSink};
use std::alloc::{AllocError, Global};
use std::io;
use std::io::Write;
use std::test::*;

/// A writer that takes at most three bytes of a write, and fails at each third call.
#[derive(Drop)]
struct Stingy {
    taken: Vec<u8>,
    calls: u32,
}

impl Write for Stingy {
    fn write(&mut self, buf: &[u8]) -> io::Result<usize> {
        self.calls = self.calls.saturating_add(1);
        if self.calls % 3 == 0 {
            return Err(io::Error::from(io::ErrorKind::BrokenPipe));
        }
        let n = buf.len().min(3);
        self.taken.extend_from_slice(&buf[..n])?;
        Ok(n)
    }

    fn flush(&mut self) -> io::Result<()> {
        Ok(())
    }
}

/// Writes the text in pieces of this length, and again what was refused.
fn write_pieces<O: Sink>(out: &mut O, text: &[u8], piece: usize)
    requires { 0 < piece }
{
    for part in text.chunks(piece) {
        let mut rest = part;
        for _attempt in 0..100 {
            if let Ok(n) = out.write(rest) {
                rest = &rest[n..];
            }
        }
    }
}

/// What the writer has after all pieces were written and flushed, through a buffer of this size.
fn through_a_buffer(
    alloc: Global,
    size: usize,
    text: &[u8],
    piece: usize,
) -> Result<Vec<u8>, AllocError>
    requires { 0 < piece }
{
    let mut writer = Stingy {
        taken: Vec::new(alloc),
        calls: 0,
    };
    let mut sink = BufferedSink::new(alloc, size, StdSink::new(&mut writer))?;
    write_pieces(&mut sink, text, piece);
    for _attempt in 0..100 {
        if sink.flush() == Ok(()) {
            break;
        }
    }
    drop(sink);
    Ok(writer.taken)
}

#[test]
fn buffered_sinks_keep_all_bytes_in_order(rt: HostRuntime) -> Result<(), Fail> {
    let text = b"abcdefghijklmnopqrstuvwxyz0123456789";
    for size in 0..40 {
        for piece in 1..20 {
            let taken = through_a_buffer(rt.alloc(), size, text, piece)?;
            assert!(rt; taken.as_slice() == text.as_slice(), "{size} and {piece}");
        }
    }
    Ok(())
}

/// Whether a write that the writer refuses is counted, and a flush then succeeds.
fn counts_a_refused_write(alloc: Global) -> Result<bool, AllocError> {
    let mut writer = Stingy {
        taken: Vec::new(alloc),
        calls: 2,
    };
    let mut sink = BufferedSink::new(alloc, 4, StdSink::new(&mut writer))?;
    Ok(
        sink.write(b"abc") == Ok(3)
            && sink.write(b"de") == Err(IoFault::Failed)
            && sink.failures() == 1
            && sink.flush() == Ok(()),
    )
}

#[test]
fn a_refused_write_is_counted_and_kept(rt: HostRuntime) {
    assert_eq!(rt; counts_a_refused_write(rt.alloc()), Ok(true));
}
