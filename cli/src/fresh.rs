//! Whether the program is still what the sources beside it make.

use std::env;
use std::fs;
use std::io;
use std::os::unix::fs::MetadataExt;
use std::path::{Path, PathBuf};

/// What the program is made of, below the folder of the repository, beside the crates.
const SOURCES: [&str; 5] = [
    "crates.txt",
    "native",
    "cli/Cargo.toml",
    "cli/build.rs",
    "cli/src",
];

/// What is read of a crate, as far as it has it. Beside these stands what the toolchain makes of it, and the crate's folder
/// changes with that.
const PARTS: [&str; 3] = ["src", "specs", "proofs"];

/// Seconds and nanoseconds.
type Time = (i64, i64);

/// Whether a source has changed since the program was built, by the time that the file system keeps and nobody sets.
pub fn outdated() -> bool {
    let Some((root, built)) = home() else {
        return false;
    };
    SOURCES
        .iter()
        .any(|source| changed(&root.join(source), built).unwrap_or(true))
        || changed_crate(&root.join("crates"), built).unwrap_or(true)
}

/// The repository in whose target/native/PROCESSOR/ the program stands, and the time at which its build began. A program
/// that stands elsewhere has nothing to compare with.
fn home() -> Option<(PathBuf, Time)> {
    let program = env::current_exe().ok()?;
    let built = fs::metadata(&program).ok()?;
    let native = program.parent()?.parent()?;
    if !native.ends_with("target/native") {
        return None;
    }
    let root = native.parent()?.parent()?;
    Some((root.to_path_buf(), (built.mtime(), built.mtime_nsec())))
}

/// Whether a part of a crate in the folder has changed.
fn changed_crate(crates: &Path, since: Time) -> io::Result<bool> {
    for entry in fs::read_dir(crates)? {
        let folder = entry?.path();
        for part in PARTS.map(|part| folder.join(part)) {
            if part.exists() && changed(&part, since)? {
                return Ok(true);
            }
        }
    }
    Ok(false)
}

fn changed(path: &Path, since: Time) -> io::Result<bool> {
    let found = fs::symlink_metadata(path)?;
    if (found.ctime(), found.ctime_nsec()) > since {
        return Ok(true);
    }
    if found.is_dir() {
        for entry in fs::read_dir(path)? {
            if changed(&entry?.path(), since)? {
                return Ok(true);
            }
        }
    }
    Ok(false)
}

#[cfg(test)]
mod tests {
    use super::*;
    use std::fs::File;
    use std::thread::sleep;
    use std::time::{Duration, SystemTime};

    /// A folder with a file in a folder, and the time after both were made.
    fn folder(name: &str) -> (PathBuf, Time) {
        let folder = env::temp_dir().join(format!("fresh-{name}-{}", std::process::id()));
        fs::create_dir_all(folder.join("inner")).expect("a folder can be made");
        fs::write(folder.join("inner/source"), "first").expect("a file can be written");
        sleep(Duration::from_millis(50));
        let mark = folder.with_extension("mark");
        fs::write(&mark, "").expect("a file can be written");
        let made = fs::metadata(&mark).expect("it is there");
        fs::remove_file(mark).expect("it is there");
        sleep(Duration::from_millis(50));
        (folder, (made.mtime(), made.mtime_nsec()))
    }

    fn ask(folder: PathBuf, since: Time) -> bool {
        let answer = changed(&folder, since).expect("the folder can be read");
        fs::remove_dir_all(folder).expect("the folder can be removed");
        answer
    }

    #[test]
    fn what_rests_has_not_changed() {
        let (folder, since) = folder("rests");
        assert!(!ask(folder, since));
    }

    #[test]
    fn a_file_that_is_written_or_removed_is_seen() {
        let (written, since) = folder("written");
        fs::write(written.join("inner/source"), "second").expect("a file can be written");
        assert!(ask(written, since));
        let (removed, since) = folder("removed");
        fs::remove_file(removed.join("inner/source")).expect("it is there");
        assert!(ask(removed, since));
    }

    #[test]
    fn an_old_time_that_was_set_does_not_hide_a_change() {
        let (folder, since) = folder("old");
        let source = folder.join("inner/source");
        fs::write(&source, "second").expect("a file can be written");
        let file = File::options().append(true).open(source);
        file.expect("it is there")
            .set_modified(SystemTime::UNIX_EPOCH)
            .expect("the time can be set");
        assert!(ask(folder, since));
    }

    #[test]
    fn a_source_that_is_gone_is_an_error() {
        assert!(changed(Path::new("no/such/source"), (0, 0)).is_err());
        assert!(changed_crate(Path::new("no/such/folder"), (0, 0)).is_err());
    }

    #[test]
    fn what_is_made_of_a_crate_is_no_source() {
        let (crates, since) = folder("crates");
        let made = crates.join("inner/out");
        fs::create_dir(&made).expect("a folder can be made");
        fs::write(made.join("library"), "made").expect("a file can be written");
        let before = changed_crate(&crates, since).expect("the folder can be read");
        fs::create_dir(crates.join("inner/specs")).expect("a folder can be made");
        let after = changed_crate(&crates, since).expect("the folder can be read");
        fs::remove_dir_all(crates).expect("the folder can be removed");
        assert!(!before && after);
    }
}
