//! When the proved archive is made again: `tools/archive` and `build.rs` in a small repository of their own, with a
//! toolchain that only writes down what was asked of it.

mod cli;

use cli::folder;
use std::fs::{self, File};
use std::os::unix::fs::PermissionsExt;
use std::path::{Path, PathBuf};
use std::process::{Command, Output};
use std::time::{Duration, SystemTime};

const HOST: &str = env!("CARGO_MANIFEST_DIR");

/// Writes down its words with the crate, and leaves something in the crate's `out`, another each time; its archive has the
/// sources in it. It fails where a file `broken` is.
const TOOLCHAIN: &str = r#"#!/bin/sh
crate=${PWD##*/}
cd "${0%/*}/.." || exit
if [ "$1" = version ]; then echo version >>asked; cat version; exit; fi
echo "$* $crate" >>asked
echo "rt: much is said"
if [ -e broken ]; then echo "rt: $crate NOT PROVED" >&2; exit 1; fi
mkdir -p "crates/$crate/out"
wc -l <asked >"crates/$crate/out/kept"
if [ "$crate" = desk_c ]; then
    find crates.txt crates -name out -prune -o -type f -print | sort | xargs cat >crates/desk_c/out/libdesk_c.a
fi
"#;

/// A repository whose archive takes three crates.
struct Repository(PathBuf);

impl Repository {
    fn new(name: &str) -> Repository {
        let own = Repository(folder(&format!("archive-{name}")));
        own.write(
            "crates.txt",
            "# crate: what it rests on\nwords:\ndesk: words\ndesk_c staticlib: desk\nvectors: desk\n",
        );
        own.write("crates/words/src/lib.rt", "words");
        own.write("crates/words/specs/Words.antt", "specs");
        own.write("crates/desk/src/lib.rt", "desk");
        own.write("crates/desk/proofs/Desk.antt", "proofs");
        own.write("crates/desk_c/src/lib.rt", "desk_c");
        own.write("version", "kit 1\n");
        own.write("asked", "");
        own.write("bin/rt", TOOLCHAIN);
        let mode = fs::Permissions::from_mode(0o755);
        fs::set_permissions(own.0.join("bin/rt"), mode).expect("the toolchain may be run");
        own.copy("../tools/archive", "tools/archive");
        own
    }

    /// One whose archive is made.
    fn made(name: &str) -> Repository {
        let own = Repository::new(name);
        assert!(own.makes());
        assert!(!own.makes());
        own
    }

    fn write(&self, file: &str, text: &str) {
        let path = self.0.join(file);
        fs::create_dir_all(path.parent().expect("a folder")).expect("a folder");
        fs::write(path, text).expect("a file is written");
    }

    fn copy(&self, from: &str, to: &str) {
        self.write(to, &fs::read_to_string(Path::new(HOST).join(from)).expect("a file of the repository"));
    }

    fn read(&self, file: &str) -> String {
        fs::read_to_string(self.0.join(file)).expect("a file")
    }

    /// The date of a file or folder becomes one of years ago, as after `cp -p`, `rsync -a` or `tar -x`.
    fn backdate(&self, file: &str) {
        let file = File::open(self.0.join(file)).expect("a file or folder");
        file.set_modified(SystemTime::UNIX_EPOCH + Duration::from_secs(1_000_000_000)).expect("a date is set");
    }

    fn command(&self, program: &str) -> Command {
        let mut command = Command::new(program);
        let path = std::env::var("PATH").expect("a PATH");
        command.current_dir(&self.0).env("PATH", format!("{}/bin:{path}", self.0.display()));
        command
    }

    fn archive(&self, words: &[&str]) -> Output {
        self.command("bash").arg("tools/archive").args(words).output().expect("bash runs")
    }

    /// `tools/archive` where the PATH has what every system has and no toolchain.
    fn without_toolchain(&self) -> Output {
        self.command("bash").arg("tools/archive").env("PATH", "/usr/bin:/bin").output().expect("bash runs")
    }

    /// Runs `tools/archive` and tells whether it made the archive; if it did not, it said nothing.
    fn makes(&self) -> bool {
        let before = self.asked("lib desk_c");
        let run = self.archive(&[]);
        assert!(run.status.success(), "{run:?}");
        let made = self.asked("lib desk_c") > before;
        assert_eq!(run.stdout.is_empty(), !made, "{run:?}");
        made
    }

    /// How often this was asked of the toolchain.
    fn asked(&self, words: &str) -> usize {
        self.read("asked").lines().filter(|line| *line == words).count()
    }

    /// `cargo check` on this repository's own copy of `build.rs`.
    fn cargo(&self) {
        let mut cargo = self.command(env!("CARGO"));
        cargo.args(["check", "--offline", "--quiet", "--manifest-path", "host/Cargo.toml"]);
        cargo.env("CARGO_TARGET_DIR", self.0.join("host/target"));
        let run = cargo.output().expect("cargo runs");
        assert!(run.status.success(), "{}", String::from_utf8_lossy(&run.stderr));
    }
}

#[test]
fn an_archive_is_made_once_with_a_line_for_each_crate() {
    let own = Repository::new("lines");
    let run = own.archive(&[]);
    let said = String::from_utf8(run.stdout).expect("text");
    let lines: Vec<&str> = said.lines().skip(1).map(|line| line.split(" .. ").next().unwrap_or_default()).collect();
    assert_eq!(lines, ["proving words    (1 of 3)", "proving desk     (2 of 3)", "proving desk_c   (3 of 3)"]);
    assert_eq!(own.read("asked"), "version\nlib words\nlib desk\nlib desk_c\n");
    assert!(!own.makes());
}

#[test]
fn a_changed_source_counts_whatever_its_date() {
    for file in
        ["crates.txt", "crates/words/specs/Words.antt", "crates/desk/src/lib.rt", "crates/desk/proofs/Desk.antt"]
    {
        let own = Repository::made("old-date");
        own.write(file, "desk: # another\n");
        own.backdate(file);
        assert!(own.makes(), "{file}");
        assert!(own.read("target/staticlib/libdesk.a").contains("another"));
    }
}

#[test]
fn a_renamed_or_removed_source_counts_whatever_its_date() {
    let own = Repository::made("renamed");
    let [old, new] = ["Words.antt", "Other.antt"].map(|name| own.0.join("crates/words/specs").join(name));
    fs::rename(&old, &new).expect("a file is renamed");
    own.backdate("crates/words/specs");
    assert!(own.makes());
    fs::remove_file(&new).expect("a file is removed");
    own.backdate("crates/words/specs");
    assert!(own.makes());
    assert!(!own.makes());
}

#[test]
fn a_new_date_alone_does_not_count() {
    let own = Repository::made("new-date");
    let file = File::options().append(true).open(own.0.join("crates/desk/src/lib.rt")).expect("a source");
    file.set_modified(SystemTime::now() + Duration::from_secs(60)).expect("a date is set");
    assert!(!own.makes());
}

#[test]
fn a_damaged_archive_or_note_is_made_again() {
    let own = Repository::made("damaged");
    let whole = own.read("target/staticlib/libdesk.a");
    own.write("target/staticlib/libdesk.a", "damaged");
    assert!(own.makes());
    assert_eq!(own.read("target/staticlib/libdesk.a"), whole);

    let note = own.0.join("target/staticlib/libdesk.a.made-from");
    for damage in ["", "sources\n", "\u{0}"] {
        fs::write(&note, damage).expect("the note is damaged");
        assert!(own.makes(), "{damage:?}");
    }
    fs::remove_file(&note).expect("the note is removed");
    assert!(own.makes());
    assert!(!own.makes());
}

#[test]
fn another_toolchain_makes_it_again_and_none_leaves_it() {
    let own = Repository::made("toolchain");
    own.write("version", "kit 2\n");
    own.backdate("version");
    assert!(own.makes());
    assert!(own.read("target/staticlib/libdesk.a.made-from").contains("\ntoolchain kit 2\n"));

    fs::remove_file(own.0.join("bin/rt")).expect("the toolchain goes");
    let run = own.without_toolchain();
    assert!(run.status.success(), "{run:?}");
    own.write("crates/desk/src/lib.rt", "changed");
    let run = own.without_toolchain();
    assert!(!run.status.success());
    assert!(String::from_utf8_lossy(&run.stderr).contains("'rt' must be on the PATH"), "{run:?}");
}

/// A failed proof is shown whole, and tried again the next time.
#[test]
fn what_the_toolchain_says_is_shown_if_it_fails() {
    let own = Repository::made("failing");
    own.write("crates/words/src/lib.rt", "wrong");
    own.write("broken", "");
    let before = own.read("target/staticlib/libdesk.a.made-from");
    for _ in 0..2 {
        let run = own.archive(&[]);
        let said = String::from_utf8(run.stderr).expect("text");
        assert!(!run.status.success());
        assert!(said.contains("rt: much is said\nrt: words NOT PROVED\n"), "{said}");
        assert!(said.contains("'rt lib' in crates/words failed"), "{said}");
    }
    assert_eq!(own.read("target/staticlib/libdesk.a.made-from"), before);
}

/// A toolchain that ends well without an archive does not pass the old one off as made from these sources.
#[test]
fn an_archive_of_before_is_not_taken_for_the_new_one() {
    let own = Repository::made("left");
    own.write("crates/desk/src/lib.rt", "changed");
    own.write("bin/rt", "#!/bin/sh\necho kit 1\n");
    for _ in 0..2 {
        let run = own.archive(&[]);
        assert!(!run.status.success());
        assert!(String::from_utf8_lossy(&run.stderr).contains("wrote no crates/desk_c/out/libdesk_c.a"), "{run:?}");
    }
}

/// Cargo runs the script again after `tools/archive` made another archive, and not after the script itself did.
#[test]
fn cargo_runs_the_script_only_when_there_is_need() {
    let own = Repository::new("cargo");
    own.write("host/Cargo.toml", "[package]\nname = \"small\"\nedition = \"2021\"\n[workspace]\n");
    own.write("host/src/lib.rs", "pub const ARCHIVE: &str = env!(\"MITROPHEL_ARCHIVE_SHA256\");\n");
    own.copy("build.rs", "host/build.rs");
    let runs = || own.asked("version");
    own.cargo();
    assert_eq!((runs(), own.asked("lib desk_c")), (1, 1));
    own.cargo();
    assert_eq!(runs(), 1, "the script's own archive is a reason to run it again");

    own.write("crates/desk/src/lib.rt", "changed");
    own.backdate("crates/desk/src/lib.rt");
    assert!(own.makes());
    own.cargo();
    assert_eq!((runs(), own.asked("lib desk_c")), (3, 2));
    own.cargo();
    assert_eq!(runs(), 3);
}

/// A copy of a built repository looks at its own archive and sources, not at those of the first.
#[test]
fn a_copy_is_a_repository_of_its_own() {
    let first = Repository::new("copied");
    first.write("host/Cargo.toml", "[package]\nname = \"small\"\nedition = \"2021\"\n[workspace]\n");
    first.write("host/src/lib.rs", "pub const ARCHIVE: &str = env!(\"MITROPHEL_ARCHIVE_SHA256\");\n");
    first.copy("build.rs", "host/build.rs");
    first.cargo();
    let copy = Repository(folder("archive-copy"));
    let copied = Command::new("cp").arg("-a").arg(first.0.join(".")).arg(&copy.0).status().expect("cp runs");
    assert!(copied.success());
    let before = copy.asked("lib desk_c");
    copy.cargo();
    assert_eq!(copy.asked("lib desk_c"), before, "nothing has changed");
    copy.write("crates/desk/src/lib.rt", "changed");
    copy.cargo();
    assert_eq!((copy.asked("lib desk_c"), first.asked("lib desk_c")), (before + 1, before));
    assert!(copy.read("target/staticlib/libdesk.a").contains("changed"));
}

/// The archive that these tests are linked with is made from the sources that stand here.
#[test]
fn the_archive_is_made_from_these_sources() {
    let root = Path::new(HOST).join("..");
    let run = Command::new("bash").arg("tools/archive").arg("--check").current_dir(&root).output().expect("bash runs");
    let said = String::from_utf8_lossy(&run.stderr);
    assert!(run.status.success(), "{said}Run 'bash tools/archive', then the tests again.");
    let note = fs::read_to_string(root.join("target/staticlib/libdesk.a.made-from")).expect("the archive's note");
    assert!(note.ends_with(&format!("archive {}\n", env!("MITROPHEL_ARCHIVE_SHA256"))), "{note}");
}
