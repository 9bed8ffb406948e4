//! Has the proved archive `libdesk.a` built where it is missing or out of date, and links it.
//!
//! `tools/archive` decides by contents whether the archive is out of date. Cargo decides by dates when
//! to ask it, and recompiles the package each time; so a source with an old date is noticed by the
//! Makefile and `tools/test`, which run `tools/archive` before cargo, and by a test.

use std::path::{Path, PathBuf};
use std::process::Command;
use std::time::{Duration, SystemTime};
use std::{env, fs, io};

/// What one crate of the proved model is made of. What `rt` leaves in its folder `out` is none of it.
const PARTS: [&str; 3] = ["src", "specs", "proofs"];

fn main() {
    let began = SystemTime::now();
    // Cargo keeps what is said here. So that a copy of the repository, with all that was built, does not look at the
    // sources and the archive of the first, paths are relative to the package, where cargo runs the script, and the
    // archive that is linked lies in the script's own folder, which cargo finds again.
    let root = Path::new("..");
    let out = PathBuf::from(env::var_os("OUT_DIR").expect("cargo names a folder"));
    let folder = root.join("target").join("staticlib");
    let made = [folder.join("libdesk.a"), folder.join("libdesk.a.made-from")];

    build(root);
    for file in &made {
        if let Err(error) = date(file, began) {
            fail(&format!("cannot date {}: {error}", file.display()));
        }
    }
    if let Err(error) = fs::copy(&made[0], out.join("libdesk.a")) {
        fail(&format!("cannot copy {}: {error}", made[0].display()));
    }
    for source in sources(root).iter().chain(&made) {
        println!("cargo::rerun-if-changed={}", source.display());
    }
    let note = fs::read_to_string(&made[1]).unwrap_or_default();
    println!("cargo::rustc-env=MITROPHEL_ARCHIVE_SHA256={}", noted(&note, "archive"));
    println!("cargo::rustc-env=MITROPHEL_TOOLCHAIN={}", noted(&note, "toolchain"));
    println!("cargo::rustc-link-search=native={}", out.display());
    println!("cargo::rustc-link-lib=static=desk");
}

/// The rule, the list of crates and, for each crate, the folders that its proof rests on.
fn sources(root: &Path) -> Vec<PathBuf> {
    let mut sources = vec![root.join("tools").join("archive"), root.join("crates.txt")];
    for entry in fs::read_dir(root.join("crates")).into_iter().flatten().flatten() {
        sources.extend(PARTS.iter().map(|part| entry.path().join(part)).filter(|folder| folder.is_dir()));
    }
    sources.sort();
    sources
}

/// Proves the crate `desk_c` and writes its archive, if there is need.
fn build(root: &Path) {
    let run = match Command::new("bash").arg("tools/archive").current_dir(root).output() {
        Ok(run) => run,
        Err(error) => fail(&format!("cannot run 'bash tools/archive': {error}")),
    };
    if !run.status.success() {
        let mut said = String::from_utf8_lossy(&run.stdout).into_owned();
        said.push_str(&String::from_utf8_lossy(&run.stderr));
        fail(&format!("'bash tools/archive' ended with {}:\n{said}", run.status));
    }
}

/// Dates a file that this run of the script made before its start, or cargo would take the file for a
/// reason to run the script again.
fn date(file: &Path, began: SystemTime) -> io::Result<()> {
    if fs::metadata(file)?.modified()? < began {
        return Ok(());
    }
    fs::File::options().append(true).open(file)?.set_modified(began - Duration::from_secs(1))
}

/// What the archive's note says after this word.
fn noted<'a>(note: &'a str, word: &str) -> &'a str {
    let said = note.lines().find_map(|line| line.strip_prefix(word)?.strip_prefix(' '));
    said.unwrap_or_else(|| fail(&format!("libdesk.a.made-from has no line '{word}'")))
}

fn fail(why: &str) -> ! {
    eprintln!("error: {why}");
    std::process::exit(1);
}
