//! The proved judge in a process of its own, which reads a job at a time, so that its peak memory is that of the judge, of
//! one job and of the Rust program around them.

use crate::families::Job;
use crate::{clock, hex, proved};
use std::io::{BufRead, BufReader, Read, Write};
use std::process::{Command, Stdio};
use std::sync::mpsc::channel;
use std::time::{Duration, Instant};

pub struct Done {
    pub time: Duration,
    pub verdict: String,
    /// The most memory of the process until then, in KiB.
    pub peak: u64,
}

/// What the process did until it ended, or until the time was over.
pub struct Ran {
    /// The most memory before the first job was read.
    pub before: u64,
    /// The processor time that it had had when the time was over.
    pub spent: Duration,
    pub done: Vec<Done>,
}

/// The most memory that this process has had, in KiB.
fn peak_kib() -> Result<u64, String> {
    let status = std::fs::read_to_string("/proc/self/status").map_err(|error| error.to_string())?;
    let line = status.lines().find_map(|line| line.strip_prefix("VmHWM:")).ok_or("no VmHWM")?;
    line.trim().trim_end_matches(" kB").parse().map_err(|_| format!("VmHWM is {line}"))
}

/// The processor time of the first thread of a process, the one that judges there.
fn spent_by(process: u32) -> Result<Duration, String> {
    let times = std::fs::read_to_string(format!("/proc/{process}/schedstat")).map_err(|error| error.to_string())?;
    let nanos = times.split(' ').next().and_then(|nanos| nanos.parse().ok());
    nanos.map(Duration::from_nanos).ok_or(format!("the times of a process are {times}"))
}

/// The process itself.
pub fn serve() -> Result<(), String> {
    let mut input = std::io::stdin().lock();
    let mut length = [0; 4];
    println!("0 - {}", peak_kib()?);
    while input.read_exact(&mut length).is_ok() {
        let mut job = vec![0; u32::from_le_bytes(length) as usize];
        input.read_exact(&mut job).map_err(|error| error.to_string())?;
        let start = clock::spent();
        let verdict = proved::verdict(&job);
        println!("{} {} {}", (clock::spent() - start).as_nanos(), hex(&verdict), peak_kib()?);
    }
    Ok(())
}

fn read(line: &str) -> Option<Done> {
    let words: Vec<&str> = line.split(' ').collect();
    let [nanos, verdict, peak] = words[..] else { return None };
    let time = Duration::from_nanos(nanos.parse().ok()?);
    Some(Done { time, verdict: verdict.to_owned(), peak: peak.parse().ok()? })
}

/// Has a process put each job to the proved judge once, until the time is over.
pub fn run(jobs: &[Job], limit: Duration) -> Result<Ran, String> {
    let failed = |error: std::io::Error| error.to_string();
    let program = std::env::current_exe().map_err(failed)?;
    let mut child = Command::new(program)
        .arg("proved-alone")
        .stdin(Stdio::piped())
        .stdout(Stdio::piped())
        .spawn()
        .map_err(failed)?;
    let mut input = child.stdin.take().ok_or("no pipe")?;
    let output = BufReader::new(child.stdout.take().ok_or("no pipe")?);
    let (sender, receiver) = channel();
    let mut lines = Vec::new();
    let mut spent = Duration::ZERO;
    std::thread::scope(|scope| {
        // both threads end with the process, the first one by a broken pipe
        scope.spawn(move || {
            let write = |job: &Job| {
                input.write_all(&(job.input.len() as u32).to_le_bytes()).and_then(|()| input.write_all(&job.input))
            };
            jobs.iter().try_for_each(write)
        });
        scope.spawn(move || output.lines().map_while(Result::ok).try_for_each(|line| sender.send(line)));
        let end = Instant::now() + limit;
        while let Ok(line) = receiver.recv_timeout(end.saturating_duration_since(Instant::now())) {
            lines.push(line);
        }
        let is_over = Instant::now() >= end;
        if is_over {
            let time = spent_by(child.id());
            child.kill().map_err(failed)?;
            spent = time?;
        }
        let status = child.wait().map_err(failed)?;
        if is_over || status.success() { Ok(()) } else { Err(format!("the proved judge's process ended: {status}")) }
    })?;
    let mut done = lines.iter().map(|line| read(line).ok_or(format!("the proved judge's process said {line}")));
    let before = done.next().ok_or("the proved judge's process did not begin")??.peak;
    Ok(Ran { before, spent, done: done.collect::<Result<_, _>>()? })
}
