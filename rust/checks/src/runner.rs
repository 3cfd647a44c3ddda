//! Runs of the built programs, and of the tools that look at the archive from outside.

use std::io::{ErrorKind, Read, Write};
use std::path::{Path, PathBuf};
use std::process::{ChildStdin, Command, Stdio};
use std::sync::mpsc;
use std::thread;
use std::time::Duration;

/// Far more than any run takes: a program still running then does not end.
const LIMIT: Duration = Duration::from_secs(20);

/// Long enough for the program to read what is there before more arrives.
const PAUSE: Duration = Duration::from_millis(5);

/// A path that is given from the repository's root.
pub fn in_repository(path: &str) -> PathBuf {
    Path::new(env!("CARGO_MANIFEST_DIR")).join("../..").join(path)
}

/// The path of the proved archive.
pub fn archive() -> PathBuf {
    in_repository("crates/sciambrunola/out/libsciambrunola.a")
}

/// The path of a proved program, `status`, `why` or `make_map`.
pub fn program(name: &str) -> PathBuf {
    let program = in_repository("crates").join(name).join("out").join(name);
    assert!(program.is_file(), "{} is missing: build it before these tests", program.display());
    program
}

/// Runs any program on its standard input, and gives what it printed, of which nothing is on
/// standard error.
pub fn run(path: &Path, input: &[&[u8]]) -> Vec<u8> {
    let [output, errors] = streams(path, input);
    assert!(errors.is_empty(), "printed to standard error: {}", String::from_utf8_lossy(&errors));
    output
}

/// Runs any program on its standard input, and gives what it printed to standard output and to
/// standard error. Pieces arrive with a pause between them, so that the program meets reads that
/// bring less than it asked for. Fails the test if the program does not start, does not end, or
/// ends with a status other than 0. Input and output go through threads of their own, so that
/// neither a full pipe nor a program that stops reading early can block the run.
pub fn streams(path: &Path, input: &[&[u8]]) -> [Vec<u8>; 2] {
    let mut command = Command::new(path);
    command.stdin(Stdio::piped()).stdout(Stdio::piped()).stderr(Stdio::piped());
    let mut child = command.spawn().unwrap_or_else(|error| panic!("{}: {error}", path.display()));
    let stdin = child.stdin.take().expect("standard input is a pipe");
    let (sender, receiver) = mpsc::channel();
    let mut streams = (child.stdout.take(), child.stderr.take());
    let printed = thread::scope(|scope| {
        scope.spawn(move || feed(stdin, input));
        scope.spawn(move || sender.send([read_all(&mut streams.0), read_all(&mut streams.1)]));
        let printed = receiver.recv_timeout(LIMIT);
        if printed.is_err() {
            child.kill().expect("the program can be stopped");
        }
        printed
    });
    let exit = child.wait().expect("the program's exit status can be read");
    let printed = printed.unwrap_or_else(|_| panic!("no end within {LIMIT:?} on {input:02X?}"));
    assert!(exit.success(), "{exit} on {input:02X?}");
    printed
}

/// Writes the input piece by piece, then closes the pipe. A program that
/// refuses early need not read the rest, so a broken pipe is no fault.
fn feed(mut stdin: ChildStdin, input: &[&[u8]]) {
    for (number, piece) in input.iter().enumerate() {
        if number > 0 {
            thread::sleep(PAUSE);
        }
        if let Err(error) = stdin.write_all(piece) {
            assert_eq!(error.kind(), ErrorKind::BrokenPipe, "the input cannot be written: {error}");
            return;
        }
    }
}

fn read_all(stream: &mut Option<impl Read>) -> Vec<u8> {
    let mut bytes = Vec::new();
    let stream = stream.as_mut().expect("the stream is a pipe");
    stream.read_to_end(&mut bytes).expect("the stream can be read");
    bytes
}

/// Compiles a C program of the repository from its sources, with every warning an error, and
/// links it with the archive. Gives its path in that directory, named after the sources.
pub fn compiled(sources: &[&str], directory: &Path) -> PathBuf {
    let program = directory.join(sources.join("_").replace(['/', '.'], "_"));
    let mut compiler = Command::new("cc");
    compiler.args(["-std=c99", "-Wall", "-Wextra", "-Wpedantic", "-Werror", "-I"]);
    compiler.arg(in_repository("include")).args(sources.iter().map(|source| in_repository(source)));
    printed(compiler.arg(archive()).arg("-o").arg(&program));
    program
}

/// Runs a tool and gives what it printed. Fails the test if it does not start,
/// or ends with a status other than 0.
pub fn printed(tool: &mut Command) -> String {
    let output = tool.output().unwrap_or_else(|error| panic!("{tool:?} does not start: {error}"));
    let errors = String::from_utf8_lossy(&output.stderr);
    assert!(output.status.success(), "{tool:?}: {}\n{errors}", output.status);
    String::from_utf8(output.stdout).expect("the tool prints text")
}
