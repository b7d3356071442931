//! The program, run over a journal.

use std::fs::File;
use std::io::{self, Read, Write};
use std::os::unix::io::AsRawFd;
use std::process::{Child, ChildStdin, Command, ExitStatus, Stdio};
use std::sync::atomic::{AtomicBool, Ordering};
use std::sync::mpsc;
use std::thread;
use std::time::Duration;

use notes::texts::Random;

/// No run takes so long, under an emulator too.
const LIMIT: Duration = Duration::from_secs(60);

/// How long the writer sleeps before it looks again whether its chunk was read.
const PAUSE: Duration = Duration::from_micros(30);

/// Chunks of chosen sizes, behind a first one of any; the rest follows in the largest ones.
const CHUNKS: usize = 200;

const LARGEST: usize = 200_000;

/// Of Linux: how many bytes a pipe holds that were not read yet.
const FIONREAD: u64 = 0x541B;

extern "C" {
    fn ioctl(file: i32, request: u64, answer: &mut i32) -> i32;
}

/// How a journal comes to the program: as a file, or through a pipe in chunks of these sizes, each
/// written when the one before was read.
#[derive(Debug)]
pub enum Feed {
    File,
    Pipe(Vec<usize>),
}

impl Feed {
    pub fn any(random: &mut Random, len: usize) -> Feed {
        if random.below(4) == 0 {
            return Feed::File;
        }
        let most = random.pick(&[1, 2, 8, 100, 3_000, 65_536, 65_537, LARGEST]);
        let any = random.below(len + 1);
        let first = random.pick(&[0, 0, any]);
        let mut sizes = vec![first];
        let mut left = len - first;
        while left > 0 {
            let size = match sizes.len() <= CHUNKS {
                true => 1 + random.below(most),
                false => LARGEST,
            };
            sizes.push(size.min(left));
            left -= size.min(left);
        }
        Feed::Pipe(sizes)
    }
}

/// What a run of the program wrote to its output and to its errors, and how it ended.
pub struct Wrote {
    pub out: Vec<u8>,
    pub said: Vec<u8>,
    pub end: ExitStatus,
}

/// A command: the emulator, where there is one, and the program.
pub struct Program {
    pub words: Vec<String>,
}

impl Program {
    fn start(&self, input: Stdio, output: Stdio) -> io::Result<Child> {
        let mut command = Command::new(&self.words[0]);
        command.args(&self.words[1..]);
        command.stdin(input).stdout(output).stderr(Stdio::piped());
        command.spawn()
    }

    /// Runs over a journal, which lies in a file too. More output than so many bytes is not read.
    pub fn run(
        &self,
        journal: &[u8],
        file: &str,
        feed: &Feed,
        most: usize,
    ) -> Result<Wrote, String> {
        let input = match feed {
            Feed::File => Stdio::from(File::open(file).map_err(|e| e.to_string())?),
            Feed::Pipe(_) => Stdio::piped(),
        };
        let child = self.start(input, Stdio::piped());
        let mut child = child.map_err(|e| e.to_string())?;
        let (pipe, output) = (child.stdin.take(), child.stdout.take());
        let output = output.expect("piped").take(most as u64);
        let is_over = &AtomicBool::new(false);
        let out = thread::scope(|scope| {
            if let (Some(pipe), Feed::Pipe(sizes)) = (pipe, feed) {
                scope.spawn(move || write(pipe, journal, sizes, is_over));
            }
            let (sender, receiver) = mpsc::channel();
            scope.spawn(move || sender.send(read(output, is_over)));
            receiver.recv_timeout(LIMIT).or_else(|_| {
                child.kill().map_err(|e| e.to_string())?;
                Err("the program does not end".to_string())
            })
        })?;
        let (said, end) = ended(child)?;
        Ok(Wrote { out, said, end })
    }

    /// Runs with an input and an output that are not read or written here: what it says.
    pub fn said(&self, input: File, output: File) -> Result<Vec<u8>, String> {
        let child = self.start(Stdio::from(input), Stdio::from(output));
        Ok(ended(child.map_err(|e| e.to_string())?)?.0)
    }
}

/// Waits for the end: what the program said, and how it ended.
fn ended(child: Child) -> Result<(Vec<u8>, ExitStatus), String> {
    let output = child.wait_with_output().map_err(|e| e.to_string())?;
    Ok((output.stderr, output.status))
}

/// A program that has ended leaves the rest unread.
fn write(mut pipe: ChildStdin, journal: &[u8], sizes: &[usize], is_over: &AtomicBool) {
    let mut at = 0;
    for size in sizes {
        if pipe.write_all(&journal[at..at + size]).is_err() {
            return;
        }
        at += size;
        while unread(&pipe) > 0 && !is_over.load(Ordering::Relaxed) {
            thread::sleep(PAUSE);
        }
    }
}

fn unread(pipe: &ChildStdin) -> i32 {
    let mut count = 0;
    // Sound: the request writes one number.
    let failed = unsafe { ioctl(pipe.as_raw_fd(), FIONREAD, &mut count) };
    assert_eq!(failed, 0, "a pipe tells how many bytes it holds");
    count
}

/// What cannot be read counts as not written.
fn read(mut output: impl Read, is_over: &AtomicBool) -> Vec<u8> {
    let mut out = Vec::new();
    let _ = output.read_to_end(&mut out);
    is_over.store(true, Ordering::Relaxed);
    out
}
