// Runs of cgrep over failing inputs and with failing outputs.
use crate::desk::have;
use crate::fixtures::files::run;
use cs_args::ToolFault;
use cs_search::Status;
use cs_tree::{IoFault, MemSink, Sink};
use std::alloc::Global;
use std::test::Fail;

const FAILED: &str = "cgrep: <standard input>: cannot be read\n";

/// Arguments of matching searches, the output, and the lines on standard error.
const ROWS: &[(&str, &str, &str)] = &[
    (
        "two /t/x /t/d /t /t/c /t/p",
        "/t/c:two\n/t/p:two\n",
        "cgrep: /t/x: no such file\ncgrep: /t/d: permission denied\ncgrep: /t: cannot be read\ncgrep: /t/c: cannot be read\n",
    ),
    ("-c one /t/c", "", "cgrep: /t/c: cannot be read\n"),
    ("-l one /t/c", "/t/c\n", ""),
    ("on", "<standard input>:one\n", FAILED),
    ("-c on", "", FAILED),
    ("-l on", "<standard input>\n", ""),
];

/// Whether such a search prints this.
fn prints(alloc: Global, args: &str, lines: &str, faults: &str) -> Result<bool, Fail> {
    let mut out = MemSink::new(alloc, 1000);
    let mut err = MemSink::new(alloc, 1000);
    let status = run(alloc, args, &mut out, &mut err)?;
    Ok(status == Ok(Status::Matched) && have(&out, lines, &err, faults))
}

#[test]
fn what_fails_leaves_the_others(rt: HostRuntime) -> Result<(), Fail> {
    for (args, lines, faults) in ROWS {
        assert!(rt; prints(rt.alloc(), *args, *lines, *faults)?, "{args}");
    }
    Ok(())
}

/// An output that accepts all bytes, and fails at its flush.
#[derive(Drop)]
struct Stuck {
    written: Vec<u8>,
    failed: u64,
}

impl Sink for Stuck {
    ghost failed = { λ s. s.failed };

    fn write(&mut self, buf: &[u8]) -> Result<usize, IoFault> {
        match self.written.extend_from_slice(buf) {
            Ok(()) => Ok(buf.len()),
            Err(_) => Err(IoFault::Memory),
        }
    }

    fn flush(&mut self) -> Result<(), IoFault> {
        self.failed = self.failed.saturating_add(1);
        Err(IoFault::Failed)
    }

    fn failures(&self) -> u64 {
        self.failed
    }
}

/// An empty sink.
fn unflushed(alloc: Global) -> Stuck {
    Stuck {
        written: Vec::new(alloc),
        failed: 0,
    }
}

/// The output of a search that fails at a flush.
const LINES: &[u8] = b"/t/p:one\n/t/p:one\n";

/// Whether a search fails if its output is not flushed.
fn needs_its_output(alloc: Global) -> Result<bool, Fail> {
    let mut out = unflushed(alloc);
    let mut err = MemSink::new(alloc, 1000);
    let status = run(alloc, "one /t/p", &mut out, &mut err)?;
    Ok(status == Err(ToolFault::Write) && out.written.as_slice() == LINES)
}

/// Whether a search fails if its error lines are not flushed.
fn needs_its_fault_lines(alloc: Global) -> Result<bool, Fail> {
    let mut out = MemSink::new(alloc, 1000);
    let mut err = unflushed(alloc);
    let status = run(alloc, "one /t/p", &mut out, &mut err)?;
    Ok(status == Err(ToolFault::Write) && out.bytes() == LINES)
}

#[test]
fn cgrep_whose_outputs_are_not_flushed(rt: HostRuntime) -> Result<(), Fail> {
    assert!(rt; needs_its_output(rt.alloc())? && needs_its_fault_lines(rt.alloc())?);
    Ok(())
}
