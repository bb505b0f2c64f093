//! The commands over named files and folders, run as processes.

use std::ffi::{OsStr, OsString};
use std::fs;
use std::os::unix::ffi::OsStrExt;
use std::path::{Path, PathBuf};
use std::process::{Command, Output, Stdio};

use crate::models::{held, model_a};
use independent::file::write;
use independent::generate::{case, limits};
use independent::program::{answer, Room};
use independent::tables::MAX_BRANCHES;

/// A folder that goes when the test ends.
struct Folder(PathBuf);

impl Folder {
    fn new(test: &str) -> Folder {
        let name = format!("independent-{}-{test}", std::process::id());
        let path = std::env::temp_dir().join(name);
        fs::create_dir(&path).unwrap();
        Folder(path)
    }

    /// Puts a file there and gives its name.
    fn file(&self, name: impl AsRef<Path>, bytes: &[u8]) -> OsString {
        let path = self.0.join(name);
        fs::write(&path, bytes).unwrap();
        path.into_os_string()
    }
}

impl Drop for Folder {
    fn drop(&mut self) {
        let _ = fs::remove_dir_all(&self.0);
    }
}

fn independent() -> Command {
    Command::new(env!("CARGO_BIN_EXE_independent"))
}

/// Runs `whole` with a file as standard input.
fn whole_with_input(names: &[&OsStr], input: &OsStr) -> Output {
    let input = fs::File::open(input).unwrap();
    let mut command = independent();
    command.arg("whole").args(names).stdin(input);
    command.output().unwrap()
}

fn whole(names: &[&OsStr]) -> Output {
    whole_with_input(names, OsStr::new("/dev/null"))
}

fn assert_output(output: Output, status: i32, printed: impl AsRef<[u8]>, errors: usize) {
    let complaints = String::from_utf8(output.stderr).unwrap();
    let printed = String::from_utf8_lossy(printed.as_ref());
    assert_eq!(String::from_utf8_lossy(&output.stdout), printed);
    assert_eq!(complaints.lines().count(), errors, "{complaints}");
    assert_eq!(output.status.code(), Some(status), "{complaints}");
}

fn violated() -> Vec<u8> {
    write(&model_a(1, [3, 0, 8], &[]))
}

#[test]
fn one_file_is_answered_without_its_name() {
    let folder = Folder::new("one");
    let accepted = folder.file("accepted", &write(&held(4)));
    let violated = folder.file("violated", &violated());
    let refused = folder.file("refused", &[]);
    assert_output(whole(&[&accepted]), 0, "accepted 1\n0 0\n1 2\n2 -\n", 0);
    assert_output(whole(&[&violated]), 1, "violated 22 0 0\n", 0);
    assert_output(whole(&[&refused]), 2, "refused 31 0\n", 0);
}

#[test]
fn several_files_have_their_names_before_their_answers() {
    let folder = Folder::new("several");
    // A name is bytes, in no particular encoding.
    let first = folder.file(OsStr::from_bytes(b"first \xff"), &write(&held(1)));
    let second = folder.file("second", &violated());
    let third = folder.file("third", &[0; 26]);
    let named =
        |name: &OsString, answer: &str| [name.as_bytes(), b"\n", answer.as_bytes()].concat();
    let accepted = named(&first, "accepted 0\n");
    let violated = named(&second, "violated 22 0 0\n");
    let refused = named(&third, "refused 31 0\n");
    let twice = [&accepted[..], &accepted].concat();
    assert_output(whole(&[&first, &first]), 0, twice, 0);
    let two = [&violated[..], &accepted].concat();
    assert_output(whole(&[&second, &first]), 1, two, 0);
    let three = [&refused[..], &violated, &accepted].concat();
    assert_output(whole(&[&third, &second, &first]), 2, three, 0);
}

#[test]
fn what_cannot_be_read_gets_a_line_among_the_errors() {
    let folder = Folder::new("unusable");
    let accepted = folder.file("accepted", &write(&held(1)));
    let absent = folder.0.join("two\nlines").into_os_string();
    let itself = folder.0.as_os_str();
    assert_output(whole(&[&absent]), 2, "", 1);
    assert_output(whole(&[itself]), 2, "", 1);
    let output = whole(&[&absent, &accepted, itself]);
    let printed = [accepted.as_bytes(), b"\naccepted 0\n"].concat();
    assert_output(output, 2, printed, 2);
}

#[test]
fn standard_input_has_a_name_too() {
    let folder = Folder::new("input");
    let accepted = folder.file("accepted", &write(&held(1)));
    let violated = folder.file("violated", &violated());
    let dash = OsStr::new("-");
    assert_output(whole_with_input(&[dash], &accepted), 0, "accepted 0\n", 0);
    let output = whole_with_input(&[dash, &violated], &accepted);
    let name = violated.to_str().unwrap();
    let printed = format!("-\naccepted 0\n{name}\nviolated 22 0 0\n");
    assert_output(output, 1, printed, 0);
}

#[test]
fn full_size_files_are_answered() {
    let folder = Folder::new("full");
    let bytes = write(&limits::accepted(8, MAX_BRANCHES));
    let fitting = folder.file("fitting", &bytes);
    let printed = answer(&bytes, Room::WHOLE).to_string();
    assert_eq!(printed.lines().count(), 20_001);
    assert_output(whole(&[&fitting]), 0, &printed, 0);
    let longer = folder.file("longer", &[&bytes[..], &[0]].concat());
    assert_output(whole(&[&longer]), 2, "refused 33 0\n", 0);
    // Input without end: no length is known, and no more is read than needed.
    assert_output(whole(&[OsStr::new("/dev/zero")]), 2, "refused 33 0\n", 0);
    // Through a pipe the length is not known either.
    let mut limits = independent()
        .args(["limits", "8"])
        .stdout(Stdio::piped())
        .spawn()
        .unwrap();
    let mut command = independent();
    command
        .args(["whole", "-"])
        .stdin(limits.stdout.take().unwrap());
    assert_output(command.output().unwrap(), 0, printed, 0);
    assert!(limits.wait().unwrap().success());
}

#[test]
fn an_answer_that_cannot_be_written_is_no_answer() {
    let folder = Folder::new("unwritten");
    let accepted = folder.file("accepted", &write(&held(1)));
    let full = fs::File::options().write(true).open("/dev/full").unwrap();
    let mut command = independent();
    command.arg("whole").arg(&accepted).stdout(full);
    assert_output(command.output().unwrap(), 2, "", 1);
}

#[test]
fn bad_usage() {
    let words: [&[&str]; 8] = [
        &[],
        &["whole"],
        &["limits"],
        &["limits", "0"],
        &["limits", "9"],
        &["limits", "one"],
        &["split"],
        &["split", "a", "b"],
    ];
    for words in words {
        let output = independent().args(words).output().unwrap();
        assert_output(output, 2, "", 1);
    }
}

#[test]
fn a_stream_is_split_and_put_together() {
    let folder = Folder::new("split");
    let cases: Vec<Vec<u8>> = (0..12).map(|index| case(6, index)).collect();
    let names: Vec<OsString> = (0..)
        .zip(&cases)
        .map(|(index, case)| folder.file(format!("case {index}"), case))
        .collect();
    let streamed = |names: &[OsString]| {
        let output = independent().arg("stream").args(names).output().unwrap();
        output.stdout
    };
    let stream = folder.file("stream", &streamed(&names));
    let parts = folder.0.join("parts");
    let split = || {
        let input = fs::File::open(&stream).unwrap();
        let mut command = independent();
        command.arg("split").arg(&parts).stdin(input);
        command.output().unwrap()
    };
    assert_output(split(), 1, "", 1);
    fs::create_dir(&parts).unwrap();
    assert_output(split(), 0, "", 0);
    let written = |index: usize| parts.join(format!("{index:05}.cert"));
    for (index, case) in cases.iter().enumerate() {
        assert_eq!(&fs::read(written(index)).unwrap(), case);
    }
    assert_eq!(fs::read_dir(&parts).unwrap().count(), cases.len());
}
