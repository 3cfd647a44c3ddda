//! The programs where their input cannot be read or their output cannot be written: they say so on
//! standard error. Where the input fails, nothing is on standard output; where the output fails,
//! part of it may be, so a table, a line or an image counts only with nothing on standard error.
//! They have no exit status of their own to give.

use checks::runner::{in_repository, program};
use std::fs::{self, File, OpenOptions};
use std::io::{Seek, SeekFrom, Write};
use std::process::{Command, Output, Stdio};

/// The programs, each with an input that it accepts, and with what an empty one gives on standard
/// output and on standard error.
const PROGRAMS: [(&str, &str, [&str; 2]); 3] = [
    ("status", "crates/status/stdin", ["refused 2\n", ""]),
    ("why", "crates/status/stdin", ["refused 2\n", ""]),
    ("make_map", "crates/make_map/stdin", ["", "refused 16\n"]),
];

/// What they say after their name.
const UNREAD: &str = ": standard input cannot be read\n";
const UNWRITTEN: &str = ": standard output cannot be written\n";

/// A program, started by these words of the shell.
fn started(name: &str, words: &str) -> Command {
    let mut command = Command::new("sh");
    command.args(["-c", words]).arg(program(name));
    command.stdin(Stdio::null()).stdout(Stdio::piped()).stderr(Stdio::piped());
    command
}

/// A file of the repository, from a file's beginning.
fn open(path: &str) -> File {
    File::open(in_repository(path)).expect("it can be opened")
}

/// Runs a program to its own end, and checks that it printed nothing and told this after its name.
fn check(name: &str, command: &mut Command, told: &str) {
    tells(name, &command.output().expect("the program starts"), told);
}

fn tells(name: &str, run: &Output, told: &str) {
    is(run, ["", &format!("{name}{told}")]);
}

/// Checks the two streams of a run, and that it ended well.
fn is(run: &Output, expected: [&str; 2]) {
    let text = [&run.stdout, &run.stderr].map(|bytes| String::from_utf8_lossy(bytes));
    assert!(run.status.success(), "{}", run.status);
    assert_eq!(text, expected);
}

/// This process's memory, from `count` bytes before a place where there is none: a file
/// whose first read brings that many bytes, and whose next one fails.
fn fails_after(count: u64) -> File {
    let maps = fs::read_to_string("/proc/self/maps").expect("the mappings can be read");
    let number = |text| u64::from_str_radix(text, 16).expect("an address");
    let mappings: Vec<(u64, u64, bool)> = maps
        .lines()
        .filter_map(|line| line.split_once(' '))
        .filter_map(|(range, rest)| Some((range.split_once('-')?, rest.starts_with('r'))))
        .map(|((start, end), readable)| (number(start), number(end), readable))
        .collect();
    let gap = mappings.windows(2).find(|pair| pair[0].2 && pair[0].1 < pair[1].0);
    let place = gap.expect("some mapping ends before the next begins")[0].1 - count;
    let mut memory = File::open("/proc/self/mem").expect("a process can read its memory");
    memory.seek(SeekFrom::Start(place)).expect("the place can be sought");
    memory
}

#[test]
fn input_that_cannot_be_read_is_told_apart_from_an_empty_one() {
    for (name, _, of_empty) in PROGRAMS {
        let start = |words| started(name, words);
        is(&start("exec \"$0\"").output().expect("the program starts"), of_empty);
        check(name, &mut start("exec \"$0\" <&-"), UNREAD);
        check(name, start("exec \"$0\"").stdin(open("drives")), UNREAD);
        for count in [0, 1, 100] {
            check(name, start("exec \"$0\"").stdin(fails_after(count)), UNREAD);
        }
    }
}

#[test]
fn output_that_cannot_be_written_is_told() {
    for (name, accepted, _) in PROGRAMS {
        let full = OpenOptions::new().write(true).open("/dev/full").expect("the device is there");
        check(name, started(name, "exec \"$0\"").stdin(open(accepted)).stdout(full), UNWRITTEN);
        check(name, started(name, "exec \"$0\" >&-").stdin(open(accepted)), UNWRITTEN);
    }
}

/// Whether the signal of such a pipe is ignored or not: a program itself ignores it from its start.
#[test]
fn a_pipe_that_nobody_reads_is_told() {
    let unread = |name, accepted, words| {
        let mut command = started(name, words);
        let mut child = command.stdin(Stdio::piped()).spawn().expect("the program starts");
        drop(child.stdout.take());
        let input = fs::read(in_repository(accepted)).expect("an input to write");
        let mut stdin = child.stdin.take().expect("standard input is a pipe");
        stdin.write_all(&input).expect("the program reads its input");
        drop(stdin);
        child.wait_with_output().expect("the program ends")
    };
    for (name, accepted, _) in PROGRAMS {
        for words in ["trap '' PIPE; exec \"$0\"", "exec \"$0\""] {
            tells(name, &unread(name, accepted, words), UNWRITTEN);
        }
    }
}
