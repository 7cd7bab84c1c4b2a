//! Runs a command whose standard output doesn't wait for its reader, and reads it late: a little at first, and the rest once
//! the command has ended. A write that finds no place then fails. What was read goes to standard output.
//!
//!     slow-reader COMMAND [ARGUMENT ..]

use std::io::{copy, stdout, Read, Result, Write};
use std::os::fd::OwnedFd;
use std::os::unix::net::UnixStream;
use std::process::{exit, Command, Stdio};

fn main() -> Result<()> {
    let words: Vec<String> = std::env::args().skip(1).collect();
    let Some((program, arguments)) = words.split_first() else {
        eprintln!("usage: slow-reader COMMAND [ARGUMENT ..]");
        exit(2);
    };
    let (mut reader, writer) = UnixStream::pair()?;
    writer.set_nonblocking(true)?;
    // The command's own copy of the writing end goes with this statement, so that the reader meets the end.
    let mut child = Command::new(program).args(arguments).stdout(Stdio::from(OwnedFd::from(writer))).spawn()?;

    let mut first = [0u8; 1000];
    let got = reader.read(&mut first)?;
    stdout().write_all(&first[..got])?;
    child.wait()?;
    copy(&mut reader, &mut stdout())?;
    Ok(())
}
