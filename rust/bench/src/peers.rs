//! Other solvers, each a child process that is handed the same matrices: scipy where a python3 has it, dlib where a C++ compiler
//! finds its header.

use std::io::{BufRead, BufReader, Write};
use std::path::Path;
use std::process::{Child, ChildStdin, ChildStdout, Command, Stdio};
use std::time::Duration;

/// A peer at work.
pub struct Peer {
    /// Its name and version, as it says them.
    pub version: String,
    /// The largest side that it is handed.
    pub largest: usize,
    child: Child,
    input: Option<ChildStdin>,
    output: BufReader<ChildStdout>,
}

impl Peer {
    /// Starts a peer; `None` where it cannot be started or says nothing.
    fn start(command: &mut Command, largest: usize) -> Option<Self> {
        let mut child = command.stdin(Stdio::piped()).stdout(Stdio::piped()).stderr(Stdio::null()).spawn().ok()?;
        let (input, output) = (child.stdin.take(), BufReader::new(child.stdout.take()?));
        let mut peer = Peer { version: String::new(), largest, child, input, output };
        peer.output.read_line(&mut peer.version).ok()?;
        peer.version = peer.version.trim().to_string();
        if peer.version.is_empty() {
            return None;
        }
        Some(peer)
    }

    /// scipy, by the python3 of the PATH or the system's own.
    pub fn scipy() -> Option<Self> {
        let script = concat!(env!("CARGO_MANIFEST_DIR"), "/peers/scipy_peer.py");
        ["python3", "/usr/bin/python3"]
            .into_iter()
            .find_map(|python| Peer::start(Command::new(python).arg(script), usize::MAX))
    }

    /// dlib, compiled here, to side 1,024: past that it takes minutes.
    pub fn dlib() -> Option<Self> {
        let source = concat!(env!("CARGO_MANIFEST_DIR"), "/peers/dlib_peer.cpp");
        let program = Path::new(env!("OUT_DIR")).join("dlib");
        let mut compiler = Command::new("c++");
        compiler.args(["-O3", "-DNDEBUG", "-std=c++17", source, "-o"]).arg(&program);
        let compiled = compiler.stdout(Stdio::null()).stderr(Stdio::null()).status().ok()?;
        if !compiled.success() {
            return None;
        }
        Peer::start(&mut Command::new(program), 1024)
    }

    /// The total that the peer finds, and its time in each round.
    pub fn solve(&mut self, n: usize, costs: &[i32], rounds: u64) -> Result<(i64, Vec<Duration>), String> {
        let failed = |_| format!("{} has stopped", self.version);
        let mut bytes = Vec::with_capacity(8 + 4 * costs.len());
        bytes.extend((n as u32).to_le_bytes());
        bytes.extend((rounds as u32).to_le_bytes());
        costs.iter().for_each(|cost| bytes.extend(cost.to_le_bytes()));
        self.input.as_mut().expect("open while it is at work").write_all(&bytes).map_err(failed)?;
        let mut line = String::new();
        self.output.read_line(&mut line).map_err(failed)?;
        let mut numbers = line.split_whitespace().map(|word| word.parse::<i64>());
        let total = numbers.next().and_then(Result::ok).ok_or_else(|| format!("{} has stopped", self.version))?;
        let times = numbers.map(|time| time.map(|time| Duration::from_nanos(time as u64)));
        let times = times.collect::<Result<_, _>>().map_err(|_| format!("{} answers no times", self.version))?;
        Ok((total, times))
    }
}

impl Drop for Peer {
    fn drop(&mut self) {
        self.input.take();
        let _ = self.child.wait();
    }
}
