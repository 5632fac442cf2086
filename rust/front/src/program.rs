//! The program `routes`, run on a stream: what it prints.
use std::io::Write;
use std::path::{Path, PathBuf};
use std::process::{Command, Stdio};

pub trait Program: Sync {
    fn run(&self, stream: &[u8]) -> String;
}

/// The compiled program. Its input is handed over in pieces of so many bytes, or whole.
pub struct Compiled {
    file: PathBuf,
    pieces: Option<usize>,
}

/// How a run ended: what it printed, and what went wrong, if it ended otherwise than it should.
pub struct Ended {
    pub printed: String,
    pub failure: Option<String>,
}

impl Compiled {
    pub fn at(file: &Path) -> Compiled {
        Compiled { file: file.to_path_buf(), pieces: None }
    }

    pub fn in_pieces(&self, bytes: usize) -> Compiled {
        Compiled { file: self.file.clone(), pieces: Some(bytes) }
    }

    /// Runs it. It ends with status 0 and says nothing on standard error, whatever the stream.
    pub fn ended(&self, stream: &[u8]) -> Ended {
        let mut child = Command::new(&self.file)
            .stdin(Stdio::piped())
            .stdout(Stdio::piped())
            .stderr(Stdio::piped())
            .spawn()
            .unwrap_or_else(|why| panic!("{} doesn't start: {why}", self.file.display()));
        let pipe = child.stdin.take().expect("a pipe");
        let ended = std::thread::scope(|threads| {
            threads.spawn(|| hand_over(pipe, stream, self.pieces));
            child.wait_with_output().expect("what it prints")
        });
        let well = ended.status.success() && ended.stderr.is_empty();
        let failure = (!well).then(|| format!("{}; {}", ended.status, String::from_utf8_lossy(&ended.stderr)));
        Ended { printed: String::from_utf8_lossy(&ended.stdout).into_owned(), failure }
    }
}

// Hands the stream over. A program that stops reading early has closed the pipe, which is its own affair.
fn hand_over(mut pipe: impl Write, stream: &[u8], pieces: Option<usize>) {
    let Some(bytes) = pieces else {
        let _ = pipe.write_all(stream);
        return;
    };
    for piece in stream.chunks(bytes) {
        if pipe.write_all(piece).is_err() {
            return;
        }
        std::thread::yield_now();
    }
}

/// What it prints, and behind that what went wrong.
impl Program for Compiled {
    fn run(&self, stream: &[u8]) -> String {
        let Ended { printed, failure } = self.ended(stream);
        failure.into_iter().fold(printed, |printed, why| format!("{printed}({why})\n"))
    }
}
