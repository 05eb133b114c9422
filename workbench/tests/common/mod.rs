//! The program run as a user runs it, in a folder of its own.
#![allow(dead_code)]

use std::fs;
use std::io::Write;
use std::path::{Path, PathBuf};
use std::process::{Command, Output, Stdio};

/// Document 01's example.
pub const EXAMPLE: &str = include_str!("../../examples/example.sheet");

/// A folder for one test, with the example in it.
pub struct Folder(pub PathBuf);

/// What a run gave.
#[derive(Debug, PartialEq, Eq)]
pub struct Ran {
    pub status: i32,
    pub stdout: String,
    pub stderr: String,
}

impl Folder {
    pub fn new(name: &str) -> Folder {
        let folder = Path::new(env!("CARGO_TARGET_TMPDIR")).join(name);
        let _ = fs::remove_dir_all(&folder);
        fs::create_dir_all(&folder).expect("a folder");
        let folder = Folder(folder);
        folder.write("example.sheet", EXAMPLE);
        folder
    }

    pub fn write(&self, name: &str, content: impl AsRef<[u8]>) {
        fs::write(self.0.join(name), content).expect("a file");
    }

    pub fn read(&self, name: &str) -> Vec<u8> {
        fs::read(self.0.join(name)).expect("a file")
    }

    /// Runs `vt` with these words and this standard input, not as a terminal would.
    pub fn output(&self, words: &[&str], input: &[u8]) -> Output {
        let mut child = Command::new(env!("CARGO_BIN_EXE_vt"))
            .args(words)
            .current_dir(&self.0)
            .env_remove("CLICOLOR_FORCE")
            .stdin(Stdio::piped())
            .stdout(Stdio::piped())
            .stderr(Stdio::piped())
            .spawn()
            .expect("vt starts");
        // A command that reads nothing may have ended before.
        let _ = child.stdin.take().expect("its input").write_all(input);
        child.wait_with_output().expect("vt ends")
    }

    pub fn run(&self, words: &[&str]) -> Ran {
        self.run_with(words, b"")
    }

    pub fn run_with(&self, words: &[&str], input: &[u8]) -> Ran {
        let output = self.output(words, input);
        Ran {
            status: output.status.code().expect("a status"),
            stdout: String::from_utf8(output.stdout).expect("text"),
            stderr: String::from_utf8(output.stderr).expect("text"),
        }
    }

    /// Runs `vt`, which must go well and complain about nothing; gives what it says.
    #[track_caller]
    pub fn says(&self, words: &[&str]) -> String {
        let ran = self.run(words);
        assert_eq!((ran.status, ran.stderr.as_str()), (0, ""), "{words:?}");
        ran.stdout
    }

    /// Runs `vt`, which must end with this status and say nothing but this on standard error.
    #[track_caller]
    pub fn complains(&self, words: &[&str], status: i32, stderr: &str) {
        let ran = self.run(words);
        assert_eq!(ran.stderr, stderr, "{words:?}");
        assert_eq!((ran.status, ran.stdout.as_str()), (status, ""), "{words:?}");
    }
}
