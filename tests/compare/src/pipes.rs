//! The proved programs, started as processes and spoken to through pipes.

use std::io::{Read, Write};
use std::path::Path;
use std::process::{Child, Command, Stdio};
use std::sync::mpsc::{channel, Receiver};
use std::thread;
use std::time::Duration;

use crate::calls::Call;
use crate::program::RECORD;

/// How long an answer may take. Under an emulator a search on a full hall takes a second or two.
const PATIENCE: Duration = Duration::from_secs(60);

/// A running program. What it writes is taken by a thread, so that neither side waits for the other with a full pipe.
struct Running {
    child: Child,
    pieces: Receiver<Vec<u8>>,
    /// what was taken and not yet asked for
    waiting: Vec<u8>,
}

impl Running {
    /// `start` is how a program is started here: nothing, or an emulator and a loader with its words.
    fn start(start: &[String], program: &[&str], folder: &Path) -> Running {
        let mut words = start.to_vec();
        words.extend(program.iter().map(|word| word.to_string()));
        let mut child = Command::new(&words[0])
            .args(&words[1..])
            .current_dir(folder)
            .stdin(Stdio::piped())
            .stdout(Stdio::piped())
            .spawn()
            .unwrap_or_else(|error| panic!("{} cannot be started: {}", program[0], error));
        let mut output = child.stdout.take().expect("its output is a pipe");
        let (sender, pieces) = channel();
        thread::spawn(move || {
            let mut room = vec![0; 65536];
            while let Ok(length) = output.read(&mut room) {
                if length == 0 || sender.send(room[..length].to_vec()).is_err() {
                    return;
                }
            }
        });
        Running {
            child,
            pieces,
            waiting: Vec::new(),
        }
    }

    /// False if the program no longer reads.
    fn send(&mut self, bytes: &[u8]) -> bool {
        let input = self.child.stdin.as_mut().expect("its input is open");
        input.write_all(bytes).and_then(|_| input.flush()).is_ok()
    }

    /// The next `length` bytes, or fewer if the program ends or is silent for too long.
    fn take(&mut self, length: usize) -> Vec<u8> {
        while self.waiting.len() < length {
            match self.pieces.recv_timeout(PATIENCE) {
                Ok(piece) => self.waiting.extend(piece),
                Err(_) => break,
            }
        }
        let length = length.min(self.waiting.len());
        self.waiting.drain(..length).collect()
    }

    /// Ends the input and gives the rest of the output.
    fn finish(mut self) -> Vec<u8> {
        drop(self.child.stdin.take());
        let rest = self.take(usize::MAX);
        let _ = self.child.kill();
        let _ = self.child.wait();
        rest
    }
}

/// The word that gives the program `calls` the rooms of full halls.
const HALL: &str = "hall";

/// The longest text that it then takes. The text of a full hall is shorter, but not with CR before each LF.
pub const LONGEST_TEXT: usize = 1_050_000;

/// The program `calls`: one process that answers call after call.
pub struct Calls {
    start: Vec<String>,
    program: String,
    running: Option<Running>,
}

impl Calls {
    pub fn new(start: &[String], program: &str) -> Calls {
        Calls {
            start: start.to_vec(),
            program: program.to_string(),
            running: None,
        }
    }

    /// The reply; it is too short if the program ended or is silent. The program reads a whole call before it writes.
    pub fn ask(&mut self, call: &Call) -> Vec<u8> {
        let mut running = match self.running.take() {
            Some(running) => running,
            None => Running::start(&self.start, &[&self.program, HALL], Path::new(".")),
        };
        running.send(&call.request());
        let reply = running.take(call.reply_length());
        if reply.len() == call.reply_length() {
            self.running = Some(running);
        } else {
            running.finish();
        }
        reply
    }

    /// Ends the program. What it wrote beyond its replies is given.
    pub fn finish(&mut self) -> Vec<u8> {
        match self.running.take() {
            Some(running) => running.finish(),
            None => Vec::new(),
        }
    }
}

/// How the questions are sent to the planner.
#[derive(Clone, Debug)]
pub enum Sending {
    /// in pieces of these sizes, in turn, without waiting
    Pieces(Vec<usize>),
    /// record by record, each only when the one before it is answered
    OneByOne,
}

/// Runs the program `planner` in `folder`, where `floor.map` is, and gives its whole output.
pub fn run_planner(
    start: &[String],
    program: &str,
    folder: &Path,
    input: &[u8],
    sending: &Sending,
) -> Vec<u8> {
    let mut running = Running::start(start, &[program], folder);
    let mut output = Vec::new();
    match sending {
        Sending::Pieces(sizes) => {
            let mut rest = input;
            let mut turn = 0;
            while !rest.is_empty() {
                let size = sizes[turn % sizes.len()].min(rest.len());
                if !running.send(&rest[..size]) {
                    break;
                }
                rest = &rest[size..];
                turn += 1;
            }
        }
        Sending::OneByOne => {
            for record in input.chunks(RECORD) {
                if !running.send(record) {
                    break;
                }
                if record.len() == RECORD {
                    let answer = running.take(RECORD);
                    let whole = answer.len() == RECORD;
                    output.extend(answer);
                    if !whole {
                        break;
                    }
                }
            }
        }
    }
    output.extend(running.finish());
    output
}
