//! Another maker's program: started, asked line by line, watched, started again where it ended.

use std::fmt;
use std::io::{self, BufRead, BufReader, Read, Write};
use std::process::{Child, ChildStdin, ChildStdout, Command, Stdio};
use std::sync::mpsc::{channel, sync_channel, Receiver, RecvTimeoutError, Sender, SyncSender};
use std::thread;
use std::time::{Duration, Instant};

/// The longest line that is read: many times what any reply needs.
const LONGEST: usize = 1 << 26;

/// How many lines that nobody asked for are kept before the program has to wait.
const AHEAD: usize = 16;

/// How long a program that closed its output may take to end.
const GRACE: Duration = Duration::from_secs(5);

/// How long to sleep between two looks at whether the program has ended.
const PAUSE: Duration = Duration::from_millis(2);

/// What the program says to a call.
#[derive(Clone, Debug, PartialEq, Eq)]
pub enum Heard {
    Line(String),
    /// It doesn't know the call.
    Unknown,
    /// It ended, or closed its output; how.
    Ended(String),
    /// It said nothing for so long.
    Silent(Duration),
    /// Its line did not end.
    TooLong,
}

impl fmt::Display for Heard {
    fn fmt(&self, to: &mut fmt::Formatter) -> fmt::Result {
        match self {
            Heard::Line(line) => to.write_str(line),
            Heard::Unknown => to.write_str("unknown"),
            Heard::Ended(how) => write!(to, "ended: {how}"),
            Heard::Silent(time) => write!(to, "nothing for {} s", time.as_secs_f64()),
            Heard::TooLong => to.write_str("a line that does not end"),
        }
    }
}

/// A program and how it is started.
pub struct Program {
    words: Vec<String>,
    timeout: Duration,
    /// Whether what it writes to standard error is thrown away.
    quiet: bool,
    running: Option<Running>,
}

struct Running {
    child: Child,
    lines: Sender<String>,
    heard: Receiver<Option<String>>,
}

/// Writes lines to the program until there are no more or it takes none.
fn write_lines(mut to: ChildStdin, lines: &Receiver<String>) {
    for mut line in lines {
        line.push('\n');
        if to.write_all(line.as_bytes()).and_then(|()| to.flush()).is_err() {
            return;
        }
    }
}

/// Reads lines from the program until it has no more; none stands for a line that is too long.
fn read_lines(from: ChildStdout, heard: &SyncSender<Option<String>>) {
    let mut from = BufReader::new(from);
    loop {
        let mut line = Vec::new();
        let read = from.by_ref().take(LONGEST as u64).read_until(b'\n', &mut line);
        if !matches!(read, Ok(1..)) {
            return;
        }
        let whole = line.len() < LONGEST || line.ends_with(b"\n");
        let said = whole.then(|| String::from_utf8_lossy(&line).trim_end().to_string());
        if heard.send(said).is_err() || !whole {
            return;
        }
    }
}

impl Running {
    fn start(words: &[String], quiet: bool) -> io::Result<Running> {
        let (first, rest) = words.split_first().ok_or(io::ErrorKind::InvalidInput)?;
        let stderr = if quiet { Stdio::null() } else { Stdio::inherit() };
        let mut child = Command::new(first)
            .args(rest)
            .stdin(Stdio::piped())
            .stdout(Stdio::piped())
            .stderr(stderr)
            .spawn()?;
        let (lines, to_write) = channel();
        let (to_hear, heard) = sync_channel(AHEAD);
        if let (Some(stdin), Some(stdout)) = (child.stdin.take(), child.stdout.take()) {
            thread::spawn(move || write_lines(stdin, &to_write));
            thread::spawn(move || read_lines(stdout, &to_hear));
        }
        Ok(Running { child, lines, heard })
    }

    /// How it ended, if it does within this time.
    fn ended(&mut self, within: Duration) -> Option<String> {
        let start = Instant::now();
        loop {
            match self.child.try_wait() {
                Ok(Some(status)) => return Some(status.to_string()),
                Ok(None) if start.elapsed() < within => thread::sleep(PAUSE),
                _ => return None,
            }
        }
    }
}

/// No program outlives the one that started it.
impl Drop for Running {
    fn drop(&mut self) {
        // Either fails only for a program that has ended already.
        let _ = self.child.kill();
        let _ = self.child.wait();
    }
}

impl Program {
    /// Starts a program; each call may take it so long.
    pub fn start(words: Vec<String>, timeout: Duration, quiet: bool) -> io::Result<Program> {
        let running = Some(Running::start(&words, quiet)?);
        Ok(Program { words, timeout, quiet, running })
    }

    /// What the program says to a line. If it has ended, it is started again first.
    pub fn ask(&mut self, line: String) -> Heard {
        let running = match self.running.take().map_or_else(|| Running::start(&self.words, self.quiet), Ok) {
            Ok(running) => self.running.insert(running),
            Err(fault) => return Heard::Ended(fault.to_string()),
        };
        // A program that ended takes no line; that it ended is heard below.
        let _ = running.lines.send(line);
        let heard = match running.heard.recv_timeout(self.timeout) {
            Ok(Some(line)) if line == "unknown" => return Heard::Unknown,
            Ok(Some(line)) => return Heard::Line(line),
            Ok(None) => Heard::TooLong,
            Err(RecvTimeoutError::Timeout) => Heard::Silent(self.timeout),
            Err(RecvTimeoutError::Disconnected) => {
                let status = running.ended(GRACE);
                Heard::Ended(status.unwrap_or_else(|| "it closed its output".into()))
            }
        };
        self.running = None;
        heard
    }

    /// Closes the program's input and gives it time to end.
    pub fn finish(mut self) {
        if let Some(mut running) = self.running.take() {
            running.lines = channel().0;
            running.ended(self.timeout);
        }
    }
}
