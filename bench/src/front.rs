//! The front door `./vartrymoy check` beside `independent whole`, each as a whole process, on a file at all limits of each kind.

use std::env;
use std::fs;
use std::path::{Path, PathBuf};
use std::process::{self, Command, Stdio};

use independent::file::write;

use crate::{tables, timed, MOST_BRANCHES, RUNS};

const ROOT: &str = concat!(env!("CARGO_MANIFEST_DIR"), "/..");
const KINDS: u32 = 8;

/// Both are built before: `independent` for release, and the front door by its first use, here if need be.
pub fn measure() {
    let ours = Program {
        path: format!("{ROOT}/vartrymoy"),
        command: "check",
    };
    let theirs = Program {
        path: format!("{ROOT}/independent/target/release/independent"),
        command: "whole",
    };
    let folder = Folder::new();
    println!(
        "{:<12} {:>8} {:>12} {:>6}  of medians",
        "milliseconds", "ours", "independent", "ratio"
    );
    let mut sums = [0.0; 2];
    for kind in 1..=KINDS {
        let file = folder.file_of_kind(kind);
        assert!(
            ours.printed(&file) == theirs.printed(&file),
            "what is printed of kind {kind} differs"
        );
        let [[best, median], [their_best, their_median]] = in_turns(&ours, &theirs, &file);
        let ratios = [best / their_best, median / their_median];
        let label = format!("kind {kind}");
        let [best, their_best] = [best, their_best].map(|time| time * 1e3);
        print_row(&label, &format!("{best:8.2} {their_best:12.2}"), ratios);
        sums = [sums[0] + ratios[0], sums[1] + ratios[1]];
    }
    print_row("mean", "", sums.map(|sum| sum / f64::from(KINDS)));
}

fn print_row(label: &str, times: &str, [of_bests, of_medians]: [f64; 2]) {
    println!("{label:<12} {times:21} {of_bests:6.2} {of_medians:11.2}");
}

/// What answers files, started anew for each.
struct Program {
    path: String,
    command: &'static str,
}

impl Program {
    fn on(&self, file: &Path) -> Command {
        let mut command = Command::new(&self.path);
        command.arg(self.command).arg(file).stdin(Stdio::null());
        command
    }

    /// What it prints of a file that it accepts.
    fn printed(&self, file: &Path) -> Vec<u8> {
        let output = self.on(file).stderr(Stdio::inherit()).output();
        let output = output.unwrap_or_else(|error| panic!("{:?}: {error}", self.path));
        assert!(
            output.status.success() && output.stdout.starts_with(b"accepted "),
            "{:?} does not accept {file:?}: {}",
            self.path,
            output.status
        );
        output.stdout
    }

    fn run(&self, file: &Path) {
        let status = self.on(file).stdout(Stdio::null()).status();
        let status = status.expect("it ran before");
        assert!(status.success(), "{:?} stopped: {status}", self.path);
    }
}

/// Best and median of each.
fn in_turns(ours: &Program, theirs: &Program, file: &Path) -> [[f64; 2]; 2] {
    let mut times = [Vec::new(), Vec::new()];
    for _ in 0..RUNS {
        times[0].push(timed(&mut || ours.run(file)));
        times[1].push(timed(&mut || theirs.run(file)));
    }
    times.map(best_and_median)
}

/// Of an even number of times.
fn best_and_median(mut times: Vec<f64>) -> [f64; 2] {
    times.sort_by(f64::total_cmp);
    let half = times.len() / 2;
    [times[0], (times[half - 1] + times[half]) / 2.0]
}

/// A temporary folder that goes at the end.
struct Folder(PathBuf);

impl Folder {
    fn new() -> Folder {
        let path = env::temp_dir().join(format!("vartrymoy-front-{}", process::id()));
        fs::create_dir(&path).expect("a temporary folder");
        Folder(path)
    }

    fn file_of_kind(&self, kind: u32) -> PathBuf {
        let path = self.0.join(format!("kind-{kind}.cert"));
        let file = write(&tables::accepted(kind, MOST_BRANCHES));
        fs::write(&path, file).expect("room for a file");
        path
    }
}

impl Drop for Folder {
    fn drop(&mut self) {
        let _ = fs::remove_dir_all(&self.0);
    }
}
