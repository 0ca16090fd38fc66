//! Runs a program: its input through a pipe, in pieces, or from a file; its output as it comes.

use std::ffi::{c_int, c_ulong};
use std::fs::{self, File};
use std::io::{ErrorKind, Read, Write};
use std::os::fd::AsRawFd;
use std::path::Path;
use std::process::{ChildStdin, ChildStdout, Command, Stdio};
use std::sync::atomic::{AtomicBool, Ordering};
use std::sync::mpsc;
use std::thread;
use std::time::Duration;

/// How long one run may take.
const LIMIT: Duration = Duration::from_secs(120);

/// Runs a program to its end, while one function writes its input and another reads its output.
fn run<W: Send, R: Send>(
    program: &Path,
    input: Stdio,
    write: impl FnOnce(Option<ChildStdin>, u32) -> Result<W, String> + Send,
    read: impl FnOnce(ChildStdout) -> Result<R, String> + Send,
) -> Result<(W, R), String> {
    let mut command = Command::new(program);
    let child = command.stdin(input).stdout(Stdio::piped()).spawn();
    let mut child = child.map_err(|error| format!("{}: {error}", program.display()))?;
    let (input, process) = (child.stdin.take(), child.id());
    let output = child.stdout.take().expect("the output is a pipe");
    thread::scope(|scope| {
        let writer = scope.spawn(move || write(input, process));
        let (sender, answer) = mpsc::channel();
        scope.spawn(move || sender.send(read(output)));
        let answer = answer.recv_timeout(LIMIT);
        if answer.is_err() {
            child.kill().map_err(|error| error.to_string())?;
        }
        let status = child.wait().map_err(|error| error.to_string())?;
        let written = writer.join().expect("the writer does not panic");
        let read = answer.map_err(|_| format!("no end within {} s", LIMIT.as_secs()))??;
        if !status.success() {
            return Err(format!("the program ended with {status}"));
        }
        Ok((written?, read))
    })
}

fn read_all(mut output: ChildStdout) -> Result<Vec<u8>, String> {
    let mut bytes = Vec::new();
    let read = output.read_to_end(&mut bytes);
    read.map_err(|error| format!("the output: {error}"))?;
    Ok(bytes)
}

extern "C" {
    fn ioctl(file: c_int, request: c_ulong, ...) -> c_int;
}

/// Linux: how many bytes of a pipe are not read yet.
const FIONREAD: c_ulong = 0x541B;

fn unread(pipe: &ChildStdin) -> Result<c_int, String> {
    let mut bytes: c_int = 0;
    match unsafe { ioctl(pipe.as_raw_fd(), FIONREAD, &mut bytes) } {
        0 => Ok(bytes),
        _ => Err("the pipe does not tell how many bytes are unread".to_string()),
    }
}

/// Writes to a program; false where it has ended and reads no more.
fn write(pipe: &mut ChildStdin, bytes: &[u8]) -> Result<bool, String> {
    match pipe.write_all(bytes) {
        Ok(()) => Ok(true),
        Err(error) if error.kind() == ErrorKind::BrokenPipe => Ok(false),
        Err(error) => Err(format!("the input: {error}")),
    }
}

/// The output for an input in pieces, each written once the program has read the one before it.
pub fn with_pieces(program: &Path, pieces: &[&[u8]]) -> Result<Vec<u8>, String> {
    let ended = &AtomicBool::new(false);
    let write_pieces = move |pipe: Option<ChildStdin>, _| {
        let mut pipe = pipe.expect("the input is a pipe");
        for (number, piece) in pieces.iter().enumerate() {
            while number > 0 && unread(&pipe)? > 0 && !ended.load(Ordering::Relaxed) {
                thread::sleep(Duration::from_micros(20));
            }
            if !write(&mut pipe, piece)? {
                break;
            }
        }
        Ok(())
    };
    let read = move |output| {
        let bytes = read_all(output);
        ended.store(true, Ordering::Relaxed);
        bytes
    };
    let ((), bytes) = run(program, Stdio::piped(), write_pieces, read)?;
    Ok(bytes)
}

/// The output for an input from a file, so that each read fills the program's buffer.
pub fn with_file(program: &Path, bytes: &[u8]) -> Result<Vec<u8>, String> {
    let path = std::env::temp_dir().join(format!("input-{}", std::process::id()));
    let file = fs::write(&path, bytes).and_then(|()| File::open(&path));
    let file = file.map_err(|error| format!("{}: {error}", path.display()))?;
    fs::remove_file(&path).map_err(|error| format!("{}: {error}", path.display()))?;
    let ((), output) = run(program, file.into(), |_, _| Ok(()), read_all)?;
    Ok(output)
}

/// Runs a program over a long input, which is written block by block while the output is read; the most memory that
/// the program had, in KiB.
pub fn with_blocks<'a>(
    program: &Path,
    blocks: impl Iterator<Item = &'a [u8]> + Send,
    read: impl FnOnce(ChildStdout) -> Result<(), String> + Send,
) -> Result<usize, String> {
    let write_blocks = move |pipe: Option<ChildStdin>, process| {
        let mut pipe = pipe.expect("the input is a pipe");
        for block in blocks {
            if !write(&mut pipe, block)? {
                return Err("the program ended before its input".to_string());
            }
        }
        peak_memory(process)
    };
    let (memory, ()) = run(program, Stdio::piped(), write_blocks, read)?;
    Ok(memory)
}

/// The most memory that a running program has had, in KiB.
fn peak_memory(process: u32) -> Result<usize, String> {
    let status = fs::read_to_string(format!("/proc/{process}/status"));
    let status = status.map_err(|error| format!("the program's memory: {error}"))?;
    let field = status.lines().find_map(|line| line.strip_prefix("VmHWM:"));
    field
        .and_then(|field| field.trim().trim_end_matches(" kB").parse().ok())
        .ok_or("the program's memory is not known".to_string())
}

/// Both outputs of a program that runs in a folder, for an input in pieces, each written once the program has read the one
/// before it.
pub fn streams(
    program: &Path,
    folder: &Path,
    pieces: &[&[u8]],
) -> Result<(Vec<u8>, Vec<u8>), String> {
    let mut command = Command::new(program);
    let command = command.current_dir(folder).stdin(Stdio::piped());
    let child = command
        .stdout(Stdio::piped())
        .stderr(Stdio::piped())
        .spawn();
    let mut child = child.map_err(|error| format!("{}: {error}", program.display()))?;
    let mut pipe = child.stdin.take().expect("the input is a pipe");
    let output = child.stdout.take().expect("the output is a pipe");
    let mut report = child.stderr.take().expect("the report is a pipe");
    thread::scope(|scope| {
        let output = scope.spawn(move || read_all(output));
        let report = scope.spawn(move || {
            let mut bytes = Vec::new();
            let read = report.read_to_end(&mut bytes);
            read.map(|_| bytes)
                .map_err(|error| format!("the report: {error}"))
        });
        for (number, piece) in pieces.iter().enumerate() {
            while number > 0 && unread(&pipe)? > 0 && !output.is_finished() {
                thread::sleep(Duration::from_micros(20));
            }
            if !write(&mut pipe, piece)? {
                break;
            }
        }
        drop(pipe);
        let output = output.join().expect("the reader does not panic")?;
        let report = report.join().expect("the reader does not panic")?;
        let status = child.wait().map_err(|error| error.to_string())?;
        if !status.success() {
            return Err(format!("the program ended with {status}"));
        }
        Ok((output, report))
    })
}
