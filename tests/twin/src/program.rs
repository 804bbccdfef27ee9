//! Another program, run on bytes of our making.

use std::io::{self, Read, Write};
use std::path::Path;
use std::process::{Child, Command, Stdio};
use std::sync::mpsc;
use std::thread;
use std::time::Duration;

/// How long a program may take over one stream.
const PATIENCE: Duration = Duration::from_secs(60);

/// A program and the words that go with it, as in `path/twin bench`.
#[derive(Clone, Debug)]
pub struct Program {
    words: Vec<String>,
}

/// What a program printed, and whether it ended well.
#[derive(Debug)]
pub struct Printed {
    pub output: Vec<u8>,
    pub success: bool,
}

impl Program {
    /// Words are parted by spaces. The path is made whole, so that it holds in any folder.
    pub fn new(command: &str) -> io::Result<Program> {
        let mut words: Vec<String> = command.split_whitespace().map(String::from).collect();
        let Some(path) = words.first_mut() else {
            return Err(io::Error::other("no program named"));
        };
        *path = std::fs::canonicalize(&*path)?.to_string_lossy().into_owned();
        Ok(Program { words })
    }

    /// Runs it in a folder with some more words, on this input.
    pub fn run(&self, folder: &Path, more: &[&str], input: &[u8]) -> io::Result<Printed> {
        let mut child = Command::new(&self.words[0])
            .args(&self.words[1..])
            .args(more)
            .current_dir(folder)
            .stdin(Stdio::piped())
            .stdout(Stdio::piped())
            .spawn()?;
        let output = feed(&mut child, input);
        if output.is_err() {
            child.kill()?;
        }
        let success = child.wait()?.success();
        Ok(Printed { output: output?, success })
    }
}

/// Writes and reads at the same time, so that neither side waits for the other.
fn feed(child: &mut Child, input: &[u8]) -> io::Result<Vec<u8>> {
    let (Some(mut stdin), Some(mut stdout)) = (child.stdin.take(), child.stdout.take()) else {
        return Err(io::Error::other("no pipe"));
    };
    let input = input.to_vec();
    // A program may end before it has read all, so a broken pipe is no fault.
    thread::spawn(move || stdin.write_all(&input));
    let (sender, receiver) = mpsc::channel();
    thread::spawn(move || {
        let mut output = Vec::new();
        let read = stdout.read_to_end(&mut output);
        sender.send(read.map(|_| output))
    });
    receiver.recv_timeout(PATIENCE).map_err(|_| io::Error::other("the program does not end"))?
}
