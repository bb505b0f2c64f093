//! The front door as a user meets it: `./vartrymoy`, run on files good and bad, and held to the table of the examples and to the
//! independent program.

use std::collections::BTreeMap;
use std::fs::{self, File};
use std::io::Write;
use std::path::{Path, PathBuf};
use std::process::{Command, Output, Stdio};
use std::sync::OnceLock;

const ACCEPTED: i32 = 0;
const VIOLATED: i32 = 1;
const REFUSED: i32 = 2;

fn root() -> &'static Path {
    Path::new(concat!(env!("CARGO_MANIFEST_DIR"), "/.."))
}

fn example(name: &str) -> PathBuf {
    root().join("examples").join(name)
}

/// `./vartrymoy` with these words. It is built once before, so that what it says then stands in no test's way.
fn front_door<W: AsRef<std::ffi::OsStr>>(words: &[W]) -> Command {
    static BUILT: OnceLock<()> = OnceLock::new();
    BUILT.get_or_init(|| {
        let built = Command::new(root().join("native/build"))
            .arg("front")
            .status();
        assert!(built.expect("native/build runs").success());
    });
    let mut command = Command::new(root().join("vartrymoy"));
    command.args(words);
    command
}

fn check(names: &[PathBuf]) -> Output {
    front_door(&["check"])
        .args(names)
        .output()
        .expect("the front door runs")
}

/// The independent program, built once.
fn independent() -> Command {
    static BUILT: OnceLock<()> = OnceLock::new();
    BUILT.get_or_init(|| {
        let built = Command::new(env!("CARGO"))
            .args(["build", "--quiet", "--release", "--manifest-path"])
            .arg(root().join("independent/Cargo.toml"))
            .status();
        assert!(built.expect("cargo runs").success());
    });
    Command::new(root().join("independent/target/release/independent"))
}

/// A folder of its own for a test, empty at first.
fn folder(name: &str) -> PathBuf {
    let folder = Path::new(env!("CARGO_TARGET_TMPDIR")).join(name);
    let _ = fs::remove_dir_all(&folder);
    fs::create_dir_all(&folder).expect("a folder can be made");
    folder
}

fn file_of(folder: &Path, name: &str, bytes: &[u8]) -> PathBuf {
    let path = folder.join(name);
    fs::write(&path, bytes).expect("a file can be written");
    path
}

fn text(bytes: &[u8]) -> &str {
    std::str::from_utf8(bytes).expect("letters and digits")
}

#[track_caller]
fn expect(output: &Output, printed: &str, status: i32) {
    assert_eq!(text(&output.stdout), printed);
    assert_eq!(output.status.code(), Some(status));
}

/// Both programs print the same for the files and end with the same status.
#[track_caller]
fn expect_agreement(files: &[PathBuf]) -> i32 {
    let ours = check(files);
    let theirs = independent()
        .arg("whole")
        .args(files)
        .output()
        .expect("the independent program runs");
    assert!(
        ours.stdout == theirs.stdout,
        "the two programs print something else"
    );
    assert_eq!(ours.status.code(), theirs.status.code());
    ours.status.code().expect("it ends by itself")
}

fn sorted(folder: &Path) -> Vec<PathBuf> {
    let mut files: Vec<PathBuf> = fs::read_dir(folder)
        .expect("the folder can be read")
        .map(|entry| entry.expect("an entry").path())
        .filter(|path| path.extension().is_some_and(|end| end == "cert"))
        .collect();
    files.sort();
    files
}

/// The table in examples/README.md: what is printed for each file.
fn table() -> BTreeMap<String, String> {
    let page = fs::read_to_string(example("README.md")).expect("the page can be read");
    page.lines()
        .filter_map(|line| {
            let cells: Vec<&str> = line.split('|').map(str::trim).collect();
            let [_, file, _, printed, _] = cells[..] else {
                return None;
            };
            let lines = printed.split('`').skip(1).step_by(2);
            file.ends_with(".cert")
                .then(|| (file.to_string(), lines.map(|l| format!("{l}\n")).collect()))
        })
        .collect()
}

fn status_of(printed: &str) -> i32 {
    match printed.split(' ').next() {
        Some("accepted") => ACCEPTED,
        Some("violated") => VIOLATED,
        _ => REFUSED,
    }
}

#[test]
fn the_examples_print_what_their_table_says() {
    let table = table();
    let files = sorted(&root().join("examples"));
    let names: Vec<&str> = files
        .iter()
        .map(|path| path.file_name().expect("a name").to_str().expect("ASCII"))
        .collect();
    assert_eq!(names, table.keys().collect::<Vec<_>>());
    for (file, printed) in &table {
        expect(&check(&[example(file)]), printed, status_of(printed));
    }
}

#[test]
fn several_files_have_their_names_before_them() {
    let files = [
        example("a1-accepted.cert"),
        example("a1-22.cert"),
        example("a4-accepted.cert"),
    ];
    let [first, second, third] = [0, 1, 2].map(|i| files[i].display());
    let printed = format!(
        "{first}\naccepted 0\n{second}\nviolated 22 0 0\n{third}\naccepted 1\n0 0\n1 2\n2 -\n"
    );
    expect(&check(&files), &printed, VIOLATED);
}

#[test]
fn the_status_is_the_worst() {
    let [accepted, violated, refused] =
        ["a1-accepted.cert", "a1-22.cert", "refused-11.cert"].map(example);
    let status = |files: &[&PathBuf]| {
        let files: Vec<PathBuf> = files.iter().map(|&file| file.clone()).collect();
        check(&files).status.code()
    };
    assert_eq!(status(&[&accepted, &accepted]), Some(ACCEPTED));
    assert_eq!(status(&[&violated, &accepted]), Some(VIOLATED));
    assert_eq!(status(&[&refused, &violated, &accepted]), Some(REFUSED));
}

/// One line on standard error that names the file, and the other file answered.
#[track_caller]
fn expect_unusable(path: PathBuf) {
    let good = example("a1-accepted.cert");
    let alone = check(std::slice::from_ref(&path));
    let both = check(&[path.clone(), good.clone()]);
    for output in [&alone, &both] {
        let said = text(&output.stderr);
        assert_eq!(said.lines().count(), 1, "{said}");
        assert!(said.starts_with("vartrymoy: ") && said.contains(path.to_str().expect("ASCII")));
    }
    expect(&alone, "", REFUSED);
    expect(&both, &format!("{}\naccepted 0\n", good.display()), REFUSED);
}

#[test]
fn a_missing_file_and_a_folder_get_one_line_each() {
    let folder = folder("unusable");
    expect_unusable(folder.join("missing.cert"));
    expect_unusable(folder);
}

#[test]
fn an_empty_file_is_too_short() {
    let empty = file_of(&folder("empty"), "empty.cert", &[]);
    expect(&check(&[empty]), "refused 31 0\n", REFUSED);
}

#[test]
fn input_over_the_longest_file_is_refused_before_all_else() {
    let folder = folder("long");
    let longest = 8_820_034;
    // A length field that is right, so that only the length itself decides between 33 and 32.
    let with_length = |length: usize| {
        let mut bytes = vec![0; length];
        bytes[..4].copy_from_slice(&(length as u32 - 4).to_be_bytes());
        bytes
    };
    let exact = file_of(&folder, "exact.cert", &with_length(longest));
    let over = file_of(&folder, "over.cert", &with_length(longest + 1));
    let far_over = file_of(&folder, "far-over.cert", &vec![0; 9_000_000]);
    expect(&check(&[exact]), "refused 32 0\n", REFUSED);
    expect(&check(&[over]), "refused 33 0\n", REFUSED);
    expect(&check(&[far_over]), "refused 33 0\n", REFUSED);
}

#[test]
fn a_dash_is_standard_input() {
    let from = |path: PathBuf, words: &[&str]| {
        front_door(words)
            .stdin(File::open(path).expect("the example can be opened"))
            .output()
            .expect("the front door runs")
    };
    let alone = from(example("a4-accepted.cert"), &["check", "-"]);
    expect(&alone, "accepted 1\n0 0\n1 2\n2 -\n", ACCEPTED);
    let named = example("a1-22.cert");
    let both = from(
        example("a1-accepted.cert"),
        &["check", named.to_str().expect("ASCII"), "-"],
    );
    let printed = format!("{}\nviolated 22 0 0\n-\naccepted 0\n", named.display());
    expect(&both, &printed, VIOLATED);
}

#[test]
fn a_pipe_of_any_pace_is_read_to_its_end() {
    let bytes = fs::read(example("a4-accepted.cert")).expect("the example can be read");
    let mut child = front_door(&["check", "-"])
        .stdin(Stdio::piped())
        .stdout(Stdio::piped())
        .spawn()
        .expect("the front door runs");
    let mut pipe = child.stdin.take().expect("a pipe");
    for byte in bytes {
        pipe.write_all(&[byte]).expect("the pipe takes a byte");
        pipe.flush().expect("the pipe takes a byte");
    }
    drop(pipe);
    let output = child.wait_with_output().expect("it ends");
    expect(&output, "accepted 1\n0 0\n1 2\n2 -\n", ACCEPTED);
}

#[test]
fn damaged_files_get_the_independent_answer() {
    let folder = folder("damaged");
    let whole = fs::read(example("a8-accepted.cert")).expect("the example can be read");
    let mut files = Vec::new();
    for length in 0..whole.len() {
        files.push(file_of(
            &folder,
            &format!("cut-{length:03}.cert"),
            &whole[..length],
        ));
    }
    for at in 0..whole.len() {
        let mut damaged = whole.clone();
        damaged[at] ^= 1 << (at % 8);
        files.push(file_of(&folder, &format!("bit-{at:03}.cert"), &damaged));
    }
    assert_eq!(expect_agreement(&files), REFUSED);
}

#[test]
fn the_vectors_get_the_independent_answer() {
    let folder = folder("vectors");
    let stream =
        File::open(root().join("crates/vectors/stdin")).expect("the vectors can be opened");
    let split = independent()
        .arg("split")
        .arg(&folder)
        .stdin(stream)
        .status();
    assert!(split.expect("the independent program runs").success());
    let files = sorted(&folder);
    assert!(files.len() > 2_000);
    assert_eq!(expect_agreement(&files), REFUSED);
}

#[test]
fn files_at_all_limits_are_accepted() {
    let folder = folder("limits");
    let files: Vec<PathBuf> = (1..=8)
        .map(|kind| {
            let path = folder.join(format!("{kind}.cert"));
            let made = independent()
                .args(["limits", &kind.to_string()])
                .stdout(File::create(&path).expect("a file can be made"))
                .status();
            assert!(made.expect("the independent program runs").success());
            path
        })
        .collect();
    assert_eq!(expect_agreement(&files), ACCEPTED);
}

#[test]
fn help_fits_a_screen_and_a_bad_word_gets_one_line() {
    let ask = |words: &[&str]| front_door(words).output().expect("the front door runs");
    let help = ask(&["--help"]);
    assert_eq!(help.status.code(), Some(0));
    assert!(text(&help.stdout).lines().count() <= 24);
    let alone = ask(&[]);
    assert_eq!(alone.status.code(), Some(2));
    assert_eq!(alone.stdout, help.stdout);
    for words in [&["judge"][..], &["check"]] {
        let output = ask(words);
        assert_eq!(output.status.code(), Some(2));
        assert_eq!(text(&output.stderr).lines().count(), 1);
    }
}
