//! Another maker's program under way: a line goes in, a line comes out, in bounded time.

use std::ffi::OsString;
use std::io::{self, BufRead, BufReader, Read, Write};
use std::process::{Child, Command, Stdio};
use std::sync::mpsc::{channel, Receiver, RecvTimeoutError, Sender};
use std::thread;
use std::time::Duration;

/// A reply has at most so many bytes.
const LONGEST: u64 = 1 << 20;

/// A program that answers lines.
pub struct Program {
    child: Child,
    lines: Sender<String>,
    replies: Receiver<io::Result<Vec<u8>>>,
}

impl Program {
    /// Starts it. What it says on standard error goes where ours goes.
    pub fn start(words: &[OsString]) -> io::Result<Self> {
        let mut child = Command::new(&words[0])
            .args(&words[1..])
            .stdin(Stdio::piped())
            .stdout(Stdio::piped())
            .spawn()?;
        let (mut input, output) = (
            child.stdin.take().expect("a pipe"),
            child.stdout.take().expect("a pipe"),
        );
        let (lines, to_write) = channel::<String>();
        let (to_us, replies) = channel();
        // A program that does not read, or does not write, makes its own thread wait and not us.
        thread::spawn(move || {
            for line in to_write {
                if input
                    .write_all(line.as_bytes())
                    .and_then(|()| input.flush())
                    .is_err()
                {
                    break;
                }
            }
        });
        thread::spawn(move || {
            let mut output = BufReader::new(output);
            loop {
                let mut line = Vec::new();
                let read = (&mut output).take(LONGEST).read_until(b'\n', &mut line);
                let ended = !matches!(read, Ok(len) if len > 0);
                if to_us.send(read.map(|_| line)).is_err() || ended {
                    break;
                }
            }
        });
        Ok(Self {
            child,
            lines,
            replies,
        })
    }

    /// Its reply to a line, or why there is none.
    pub fn ask(&self, line: &str, limit: Duration) -> Result<Vec<u8>, String> {
        // Where it has ended, the reply tells.
        let _ = self.lines.send(format!("{line}\n"));
        match self.replies.recv_timeout(limit) {
            Ok(Ok(reply)) if reply.last() == Some(&b'\n') => Ok(reply),
            Ok(Ok(reply)) if reply.is_empty() => Err("the program ended without a reply".into()),
            Ok(Ok(_)) => Err("the reply has no end: a line of at most a million bytes".into()),
            Ok(Err(error)) => Err(format!("its reply cannot be read: {error}")),
            Err(RecvTimeoutError::Timeout) => {
                Err(format!("no reply within {} seconds", limit.as_secs()))
            }
            Err(RecvTimeoutError::Disconnected) => Err("the program ended".into()),
        }
    }
}

/// Ends it, whatever it is at.
impl Drop for Program {
    fn drop(&mut self) {
        let _ = self.child.kill();
        let _ = self.child.wait();
    }
}
