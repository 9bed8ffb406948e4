//! What the commands leave behind: who can read it, which file it is, and nothing when they are stopped.

mod cli;

use cli::{finished, folder, names, run_with, word, CLOSED_PIPE, DONE, FILE, INPUT, USAGE};
use mitrophel::{record, Record};
use std::ffi::{c_char, c_int, c_uint, CString, OsStr};
use std::fs;
use std::io::{Read, Write};
use std::os::unix::ffi::OsStrExt;
use std::os::unix::fs::{chown, symlink, MetadataExt, OpenOptionsExt, PermissionsExt};
use std::os::unix::process::{CommandExt, ExitStatusExt};
use std::path::{Path, PathBuf};
use std::process::{Child, Command, Stdio};
use std::thread;
use std::time::{Duration, Instant};

/// Hangup, interrupt, quit, terminate and the end of the processor time.
const SIGNALS: [c_int; 5] = [1, 2, 3, 15, 24];
const O_NONBLOCK: c_int = 0o4000;
const RLIMIT_FSIZE: c_int = 1;
const RLIMIT_CORE: c_int = 4;
const RLIMIT_AS: c_int = 9;
const SIG_DFL: usize = 0;
const SIG_IGN: usize = 1;

extern "C" {
    fn kill(process: c_int, number: c_int) -> c_int;
    fn setrlimit(resource: c_int, limits: *const [u64; 2]) -> c_int;
    fn mkfifo(path: *const c_char, mode: c_uint) -> c_int;
    fn signal(number: c_int, action: usize) -> usize;
    fn umask(mask: c_uint) -> c_uint;
}

/// The program with this mask of new files and this action of the signals, whatever the test's own are.
fn program(mask: c_uint, action: usize) -> Command {
    let mut command = cli::program();
    let prepare = move || {
        // SAFETY: in the child, before it becomes the program: all three may be called there.
        unsafe {
            setrlimit(RLIMIT_CORE, &[0, 0]);
            umask(mask);
            for number in SIGNALS {
                signal(number, action);
            }
        }
        Ok(())
    };
    // SAFETY: `prepare` allocates nothing and takes no lock.
    unsafe { command.pre_exec(prepare) };
    command
}

fn mode(path: &Path) -> u32 {
    fs::metadata(path).expect("a file").permissions().mode() & 0o7777
}

fn fifo(path: &Path) {
    let name = CString::new(path.as_os_str().as_bytes()).expect("a path");
    // SAFETY: a C string that lives during the call.
    assert_eq!(unsafe { mkfifo(name.as_ptr(), 0o600) }, 0, "mkfifo");
}

fn send(child: &Child, number: c_int) {
    // SAFETY: sends a signal to our own child, which was not waited for yet.
    assert_eq!(unsafe { kill(child.id() as c_int, number) }, 0, "kill");
}

/// Asks again and again, until there is something.
fn until<T>(mut ask: impl FnMut() -> Option<T>) -> T {
    let started = Instant::now();
    loop {
        if let Some(found) = ask() {
            return found;
        }
        assert!(started.elapsed() < Duration::from_secs(60), "nothing happened");
        thread::sleep(Duration::from_millis(2));
    }
}

/// A program that does not outlive a test that fails.
struct Running(Child);

impl Drop for Running {
    fn drop(&mut self) {
        // It has ended already unless the test failed.
        let _ = self.0.kill();
        let _ = self.0.wait();
    }
}

/// A replay that has written its dump under another name and waits for a reader of its answers.
fn waiting(folder: &Path, action: usize) -> (Running, PathBuf) {
    fifo(&folder.join("answers"));
    fs::write(folder.join("trace"), "write4 A0000h 4B455921h\n").expect("a trace");
    let mut command = program(0, action);
    command.current_dir(folder).args(["replay", "--answers", "answers", "--dump", "dump", "trace"]);
    let child = Running(command.stdin(Stdio::null()).stdout(Stdio::null()).spawn().expect("the program starts"));
    let temporary = until(|| {
        let name = names(folder).into_iter().find(|name| name.ends_with(".tmp"))?;
        Some(folder.join(name)).filter(|path| fs::metadata(path).is_ok_and(|data| data.len() == 8 << 20))
    });
    (child, temporary)
}

/// Until it stands in its place, only its owner can read what is written, and a signal takes it away.
#[test]
fn a_signal_removes_what_is_not_yet_in_its_place() {
    for number in SIGNALS {
        let folder = folder(&format!("signal-{number}"));
        fs::write(folder.join("dump"), "old").expect("an old dump");
        fs::set_permissions(folder.join("dump"), fs::Permissions::from_mode(0o644)).expect("permissions");
        let (mut child, temporary) = waiting(&folder, SIG_DFL);
        assert_eq!(mode(&temporary), 0o600);
        send(&child.0, number);
        let status = child.0.wait().expect("the program ends");
        assert_eq!(status.signal(), Some(number), "{status}");
        assert_eq!(names(&folder), ["answers", "dump", "trace"]);
        assert_eq!(fs::read(folder.join("dump")).expect("the old dump"), b"old");
    }
}

/// `nohup` starts a program with the hangup ignored, and so it stays.
#[test]
fn an_ignored_signal_stays_ignored() {
    let folder = folder("ignored");
    let (mut child, _) = waiting(&folder, SIG_IGN);
    SIGNALS.iter().for_each(|&number| send(&child.0, number));
    let fifo = fs::File::options().read(true).custom_flags(O_NONBLOCK).open(folder.join("answers"));
    let mut answers = fifo.expect("the answers");
    // A killed program has written nothing, and must not be waited for.
    until(|| child.0.try_wait().expect("a child"));
    assert_eq!(answers.read(&mut [0; 32]).expect("the answers"), 16);
    assert_eq!(child.0.wait().expect("the program ends").code(), Some(DONE));
    assert_eq!(names(&folder), ["answers", "dump", "trace"]);
}

#[test]
fn a_new_file_has_the_users_mode_and_a_dump_of_protected_memory_its_owners() {
    let folder = folder("modes");
    fs::write(folder.join("trace"), "config write dev0.SMRAM BEh\n").expect("a trace");
    let run = |mask: c_uint, words: &[&str]| {
        let output = program(mask, SIG_DFL).current_dir(&folder).args(words).output().expect("the program ends");
        assert_eq!(output.status.code(), Some(DONE), "{}", String::from_utf8_lossy(&output.stderr));
    };
    for (mask, expected) in [(0o022, 0o644), (0o027, 0o640), (0, 0o666)] {
        let name = format!("{mask:o}.rec");
        run(mask, &["asm", "trace", "-o", &name]);
        assert_eq!(mode(&folder.join(name)), expected, "mask {mask:o}");
    }
    run(0, &["replay", "trace", "--dump", "dump"]);
    assert_eq!(mode(&folder.join("dump")), 0o600);
    fs::set_permissions(folder.join("dump"), fs::Permissions::from_mode(0o644)).expect("permissions");
    run(0, &["replay", "trace", "--dump", "dump"]);
    assert_eq!(mode(&folder.join("dump")), 0o644, "the user's choice is kept");
}

/// A file keeps its group too: its permissions are meant for that one.
#[test]
fn a_file_that_is_written_anew_keeps_its_group() {
    let folder = folder("group");
    fs::write(folder.join("trace"), "config write dev0.SMRAM BEh\n").expect("a trace");
    let dump = folder.join("dump");
    fs::write(&dump, "old").expect("an old dump");
    // Only the superuser can give a file to any group.
    let given = chown(&dump, None, Some(1)).is_ok();
    let group = fs::metadata(&dump).expect("the old dump").gid();
    fs::set_permissions(&dump, fs::Permissions::from_mode(0o640)).expect("permissions");
    let mut command = program(0, SIG_DFL);
    command.current_dir(&folder).args(["replay", "trace", "--dump", "dump"]);
    assert_eq!(finished(command.output().expect("the program ends")).status, DONE);
    assert_eq!((fs::metadata(&dump).expect("the dump").gid(), mode(&dump)), (group, 0o640), "{given}");
}

/// A file that is longer than the user's limit is an error like a full disk, and leaves nothing.
#[test]
fn a_limit_of_file_lengths_leaves_nothing() {
    let folder = folder("limit");
    fs::write(folder.join("trace"), "reset\n").expect("a trace");
    let mut command = within(RLIMIT_FSIZE, 1 << 20);
    command.current_dir(&folder).args(["replay", "trace", "--dump", "dump"]);
    let run = finished(command.output().expect("the program ends"));
    assert_eq!((run.status, run.errors.as_str()), (FILE, "mitrophel: dump: File too large"));
    assert_eq!(names(&folder), ["trace"]);
}

/// Two outputs that would be one file, however it is spelled, are refused before either is lost.
#[test]
fn two_outputs_to_one_file_are_refused() {
    let folder = folder("one-file");
    fs::create_dir(folder.join("deep")).expect("a folder");
    fs::write(folder.join("trace"), "reset\n").expect("a trace");
    fs::write(folder.join("old"), "old").expect("a file");
    fs::hard_link(folder.join("old"), folder.join("hard")).expect("a second name");
    symlink("old", folder.join("link")).expect("a link");
    symlink("new", folder.join("dangling")).expect("a link to nothing");
    symlink("../one", folder.join("deep").join("up")).expect("a link");
    symlink("deep", folder.join("shallow")).expect("a link to a folder");
    let before = names(&folder);
    let absolute = word(&folder.join("new"));
    for (answers, dump) in [
        ("new", "./new"),
        ("new", absolute.as_str()),
        ("new", "deep/../new"),
        ("new", "dangling"),
        ("one", "deep/up"),
        ("deep/new", "shallow/new"),
        ("old", "hard"),
        ("old", "link"),
        ("-", "-"),
        ("-", "/dev/stdout"),
        ("/dev/fd/1", "/proc/self/fd/1"),
    ] {
        let mut command = cli::program();
        command.current_dir(&folder).args(["replay", "trace", "--answers", answers, "--dump", dump]);
        let run = finished(command.output().expect("the program ends"));
        assert_eq!(run.status, USAGE, "{answers} {dump}");
        assert!(run.errors.contains("--answers and --dump name the same file"), "{answers} {dump}: {}", run.errors);
        assert_eq!(names(&folder), before, "{answers} {dump}");
        assert_eq!(fs::read(folder.join("old")).expect("the old file"), b"old");
    }
}

/// What standard output was sent to is an output too.
#[test]
fn an_output_does_not_replace_the_file_that_is_printed_to() {
    let folder = folder("printed");
    fs::write(folder.join("trace"), "reset\n").expect("a trace");
    for (words, part) in [
        (&["replay", "trace", "--dump", "out"][..], "--dump names the file that the answers are printed to"),
        (&["replay", "trace", "--answers", "-", "--dump", "./out"], "--answers and --dump name the same file"),
        (&["map", "--svg", "out"], "--svg names the file that the map is printed to"),
    ] {
        let out = fs::File::create(folder.join("out")).expect("a file");
        let mut command = cli::program();
        command.current_dir(&folder).args(words).stdout(out);
        let run = finished(command.output().expect("the program ends"));
        assert_eq!(run.status, USAGE, "{words:?}");
        assert!(run.errors.contains(part), "{words:?}: {}", run.errors);
    }
    let null = ["replay", "--answers", "/dev/null", "--dump", "/dev/null", "-"];
    assert_eq!(run_with(&null, b"reset\n").status, DONE, "a device takes both");
}

/// What is read is not lost to what is written, however it is spelled.
#[test]
fn an_output_does_not_replace_a_file_that_is_read() {
    let folder = folder("read");
    let trace = b"config write dev0.SMRAM BEh  #> hub\n";
    let records = record::encode(&[Record::reset()]);
    for (file, bytes) in [("trace", &trace[..]), ("list", &records), ("image", &[1])] {
        fs::write(folder.join(file), bytes).expect("a file");
    }
    symlink("trace", folder.join("link")).expect("a link");
    fs::hard_link(folder.join("trace"), folder.join("hard")).expect("a second name");
    let before = names(&folder);
    let absolute = word(&folder.join("trace"));
    for words in [
        &["replay", "trace", "--dump", "./trace"][..],
        &["replay", "trace", "--answers", "link"],
        &["replay", "trace", "--bless", "--dump", "hard"],
        &["replay", "trace", "--bless", "--answers", absolute.as_str()],
        &["replay", "trace", "--memory", "8M", "--image", "image", "--answers", "image"],
        &["replay", "-", "--dump", "trace"],
        &["asm", "trace", "-o", "trace"],
        &["asm", "-", "-o", "link"],
        &["disasm", "list", "-o", "./list"],
        &["map", "trace", "--svg", "hard"],
        &["map", "--memory", "8M", "--image", "image", "--svg", "image"],
    ] {
        let mut command = cli::program();
        let stdin = fs::File::open(folder.join("trace")).expect("the trace");
        let run = finished(command.current_dir(&folder).args(words).stdin(stdin).output().expect("the program ends"));
        assert_eq!(run.status, USAGE, "{words:?}: {}", run.errors);
        assert!(run.errors.contains(" names a file that is read: "), "{words:?}: {}", run.errors);
        assert_eq!(names(&folder), before, "{words:?}");
        for (file, bytes) in [("trace", &trace[..]), ("list", &records), ("image", &[1])] {
            assert_eq!(fs::read(folder.join(file)).expect("the file"), bytes, "{words:?}");
        }
    }
    let image = ["replay", "trace", "--memory", "8M", "--image", "image", "--dump", "image"];
    assert_eq!(finished(cli::program().current_dir(&folder).args(image).output().expect("the end")).status, DONE);
    assert_eq!(fs::metadata(folder.join("image")).expect("the dump").len(), 8 << 20, "a dump goes on from its image");
}

/// A descriptor is written where it stands: what was there before stays, whatever file it is.
#[test]
fn a_descriptor_is_appended_to_and_never_replaced() {
    let folder = folder("descriptors");
    let (out, errors) = (folder.join("out"), folder.join("errors"));
    symlink("/dev/stdout", folder.join("link")).expect("a link");
    let link = word(&folder.join("link"));
    for name in ["-", "/dev/stdout", "/dev/fd/1", "/proc/self/fd/1", "/dev/../dev//stdout", link.as_str()] {
        let (status, appended) = appended(&["asm", "-", "-o", name], &out, &errors);
        assert_eq!((status, appended), (DONE, [20, 4]), "{name}");
    }
    for name in ["/dev/stderr", "/dev/fd/2", "/proc/self/fd/2"] {
        let (status, appended) = appended(&["asm", "-", "-o", name], &out, &errors);
        assert_eq!((status, appended), (DONE, [4, 20]), "{name}");
    }
    assert_eq!(names(&folder), ["errors", "link", "out"]);
    let closed = run_with(&["asm", "-", "-o", "/dev/fd/99"], b"reset\n");
    assert_eq!(closed.status, FILE);
    assert!(closed.errors.starts_with("mitrophel: /dev/fd/99: No such file"), "{}", closed.errors);
}

/// The lengths of two files of four bytes that standard output and standard error were appended to.
fn appended(words: &[&str], out: &Path, errors: &Path) -> (i32, [u64; 2]) {
    let append = |path: &Path| {
        fs::write(path, "old\n").expect("a file");
        fs::File::options().append(true).open(path).expect("the file")
    };
    let mut command = cli::program();
    command.args(words).stdin(Stdio::piped()).stdout(append(out)).stderr(append(errors));
    let mut child = command.spawn().expect("the program starts");
    child.stdin.take().expect("a pipe").write_all(b"reset\n").expect("a trace is read");
    let status = child.wait().expect("the program ends").code().expect("not killed");
    assert!([out, errors].iter().all(|path| fs::read(path).expect("the file").starts_with(b"old\n")));
    (status, [out, errors].map(|path| fs::metadata(path).expect("the file").len()))
}

#[test]
fn a_link_to_nothing_has_its_file_written_and_a_loop_is_told() {
    let folder = folder("dangling");
    fs::create_dir(folder.join("deep")).expect("a folder");
    symlink("deep/second", folder.join("first")).expect("a link");
    symlink("../third", folder.join("deep").join("second")).expect("a link");
    symlink("loop", folder.join("pool")).expect("a link");
    symlink("pool", folder.join("loop")).expect("a link");
    symlink("no/file", folder.join("nowhere")).expect("a link");
    let asm = |name: &str| run_with(&["asm", "-", "-o", &word(&folder.join(name))], b"reset\n");
    assert_eq!(asm("first").status, DONE);
    assert_eq!(fs::read(folder.join("third")).expect("the links' file").len(), 16);
    assert!(fs::symlink_metadata(folder.join("first")).expect("the link").is_symlink());
    for (name, part) in [
        ("loop", "loop: too many levels of symbolic links"),
        ("nowhere", "nowhere: No such file or directory"),
        ("deep/", "deep/: is a directory"),
        ("new/", "new/: is a directory"),
    ] {
        let run = asm(name);
        assert_eq!(run.status, FILE, "{name}");
        assert!(run.errors.ends_with(part), "{name}: {}", run.errors);
    }
    assert_eq!(names(&folder), ["deep", "first", "loop", "nowhere", "pool", "third"]);
    assert_eq!(names(&folder.join("deep")), ["second"]);
}

/// A reader of the lines or of the answers who leaves, as `head` does, does not keep the dump from being written.
#[test]
fn a_dump_is_written_even_if_the_reader_of_the_answers_leaves() {
    let folder = folder("reader");
    let mut records = vec![Record::read(0x1000, 4, false); 60_000];
    records.push(Record::write(0x2000, 4, 0x4B45_5921, false));
    fs::write(folder.join("list"), record::encode(&records)).expect("a list");
    for words in [&["replay", "list", "--dump", "dump"][..], &["replay", "list", "--answers", "-", "--dump", "dump"]] {
        let run = cli::left_early(cli::program().current_dir(&folder).args(words));
        assert_eq!((run.status, run.errors.as_str()), (CLOSED_PIPE, ""), "{words:?}");
        let dump = fs::read(folder.join("dump")).expect("the dump");
        assert_eq!(dump[0x2000..0x2004], 0x4B45_5921_u32.to_le_bytes(), "{words:?}");
        fs::remove_file(folder.join("dump")).expect("the dump goes");
    }
    let full = fs::File::options().write(true).open("/dev/full").expect("a device");
    let mut command = cli::program();
    command.current_dir(&folder).args(["replay", "list", "--dump", "dump"]).stdout(full);
    assert_eq!(finished(command.output().expect("the program ends")).status, FILE);
    assert_eq!(names(&folder), ["list"], "a failure leaves no dump");
}

/// A file's name need not be UTF-8, wherever it stands.
#[test]
fn names_that_are_no_utf8_are_files() {
    let folder = folder("bytes");
    let (trace, output) = (OsStr::from_bytes(b"trace\xFF"), OsStr::from_bytes(b"out\xFE"));
    fs::write(folder.join(trace), "reset\n").expect("a trace");
    let glued = |option: &[u8]| OsStr::from_bytes(&[option, output.as_bytes()].concat()).to_os_string();
    for words in [
        vec!["replay".into(), glued(b"--answers="), trace.into()],
        vec!["replay".into(), "--answers".into(), output.into(), trace.into()],
        vec!["asm".into(), trace.into(), glued(b"-o")],
        vec!["asm".into(), trace.into(), glued(b"--output=")],
    ] {
        let mut command = cli::program();
        command.current_dir(&folder).args(&words);
        let run = finished(command.output().expect("the program ends"));
        assert_eq!((run.status, run.errors.as_str()), (DONE, ""), "{words:?}");
        assert_eq!(fs::read(folder.join(output)).expect("the output").len(), 16, "{words:?}");
        fs::remove_file(folder.join(output)).expect("the output goes");
    }
}

/// What a trace includes is looked for in its folder, whatever bytes the folder's name has.
#[test]
fn a_trace_in_a_folder_of_any_name_can_include() {
    let folder = folder("include");
    let odd = folder.join(OsStr::from_bytes(b"odd\xFF\x1b"));
    fs::create_dir(&odd).expect("a folder");
    fs::write(odd.join("inner.trace"), "reset\n").expect("a trace");
    fs::write(odd.join("outer.trace"), "include inner.trace\n").expect("a trace");
    fs::write(odd.join("absolute.trace"), format!("include {}/outer.trace\n", word(&folder))).expect("a trace");
    fs::write(folder.join("outer.trace"), "reset\n").expect("a trace");
    for name in ["outer.trace", "absolute.trace"] {
        for trace in [odd.join(name), odd.strip_prefix(&folder).expect("a part").join(name)] {
            let mut command = cli::program();
            command.current_dir(&folder).arg("replay").arg(trace);
            let run = finished(command.output().expect("the program ends"));
            assert_eq!((run.status, run.errors.as_str()), (DONE, ""), "{name}");
        }
    }
}

#[test]
fn help_may_be_asked_of_help() {
    let overview = run_with(&["help"], b"").text;
    for words in [&["help", "--help"][..], &["help", "-h"], &["-h"]] {
        let run = run_with(words, b"");
        assert_eq!((run.status, run.text.as_str()), (DONE, overview.as_str()), "{words:?}");
    }
    assert_eq!(run_with(&["help", "map", "--help"], b"").text, run_with(&["map", "--help"], b"").text);
}

/// What the user gives is shown in messages, and never acts on the terminal.
#[test]
fn messages_hold_no_control_characters_of_names_and_words() {
    let folder = folder("control");
    fs::write(folder.join("\x1b[2Jbad"), "peek\n").expect("a trace");
    fs::write(folder.join("\x1b[2Jshort"), [0; 17]).expect("a list");
    for (words, part) in [
        (&["\x1b[2J"][..], "found '\\x1b[2J'"),
        (&["help", "\x1b[2J"], "no help on '\\x1b[2J'"),
        (&["replay", "\x1b[2Jgone"], "\\x1b[2Jgone: No such file"),
        (&["replay", "\x1b[2Jbad"], "\\x1b[2Jbad:1:1: expected an access"),
        (&["disasm", "\x1b[2Jshort"], "\\x1b[2Jshort: byte 16"),
        (&["audit", "\x1b[2Jshort"], "\\x1b[2Jshort: byte 16"),
        (&["asm", "-", "-o", "no/\x1b[2J"], "no/\\x1b[2J: No such file"),
        (&["replay", "-", "--dump", "no/\x1b[2J"], "no/\\x1b[2J: No such file"),
        (&["replay", "--\x1b[2J"], "unknown option '--\\x1b[2J'"),
        (&["replay", "--board=\x1b[2J", "-"], "found '\\x1b[2J'"),
        (&["replay", "--memory=\x1b[2J", "-"], "found '\\x1b[2J'"),
        (&["audit", "--deny=\x1b[2J", "-"], "found '\\x1b[2J'"),
        (&["replay", "--only=\x1b[2J", "-"], "found '\\x1b[2J'"),
        (&["replay", "a", "\x1b[2J"], "found '\\x1b[2J' too"),
        (&["demo", "\x1b[2J"], "found '\\x1b[2J'"),
    ] {
        let mut command = cli::program();
        command.current_dir(&folder).args(words).stdin(Stdio::null());
        let run = finished(command.output().expect("the program ends"));
        assert_ne!(run.status, DONE, "{words:?}");
        assert!(run.errors.contains(part), "{words:?}: {:?}", run.errors);
        assert!(!run.errors.contains('\x1b'), "{words:?}: {:?}", run.errors);
    }
    let check = run_with(&["replay", "--check", "-"], "reset #> \u{9b}2J\n".as_bytes());
    assert!(check.text.contains("\n- \\xc2\\x9b2J\n+ registers"), "{:?}", check.text);
}

/// The program with so many bytes of a resource.
fn within(resource: c_int, bytes: u64) -> Command {
    let mut command = cli::program();
    let prepare = move || {
        // SAFETY: in the child, before it becomes the program; the structure is two numbers, which lives long enough.
        match unsafe { setrlimit(resource, &[bytes, bytes]) } {
            0 => Ok(()),
            _ => Err(std::io::Error::last_os_error()),
        }
    };
    // SAFETY: `prepare` allocates nothing and takes no lock.
    unsafe { command.pre_exec(prepare) };
    command
}

/// An input without an end is refused as soon as it is too long, and takes no more memory than one that is not.
#[test]
fn an_endless_input_is_refused() {
    let folder = folder("endless");
    fs::write(folder.join("trace"), "reset\n").expect("a trace");
    fs::write(folder.join("include"), "include /dev/zero\n").expect("a trace");
    let text = "standard input: expected at most 1 GiB of what is no plain file";
    let records = "/dev/zero: expected at most 1 GiB of what is no plain file";
    for (words, part) in [
        (&["replay", "--memory", "8M", "--image", "/dev/zero", "trace"][..], "at most 8388608 bytes"),
        (&["audit", "--image", "/dev/zero", "trace"], "an image of a multiple of 8M from 8M to 1G, found more"),
        (&["replay", "/dev/zero"], records),
        (&["replay", "include"], "'/dev/zero' cannot be read: expected at most 1 GiB of what is no plain file"),
        (&["disasm", "/dev/zero"], records),
        (&["map", "/dev/zero"], records),
        (&["asm", "-"], text),
        (&["audit", "-"], text),
    ] {
        let mut command = within(RLIMIT_AS, 3 << 30);
        command.current_dir(&folder).args(words).stdin(Stdio::piped()).stdout(Stdio::piped()).stderr(Stdio::piped());
        let mut child = command.spawn().expect("the program starts");
        let mut stdin = child.stdin.take().expect("a pipe");
        while stdin.write_all(&[b'\n'; 1 << 16]).is_ok() {}
        let run = finished(child.wait_with_output().expect("the program ends"));
        assert_eq!(run.status, INPUT, "{words:?}: {}", run.errors);
        assert!(run.errors.contains(part), "{words:?}: {}", run.errors);
    }
}

/// Records that hold a key, and a trace that shows it, are their owner's alone.
#[test]
fn a_converted_key_is_its_owners() {
    let folder = folder("converted");
    let mode = |name: &str| fs::metadata(folder.join(name)).expect("an output").permissions().mode() & 0o777;
    let convert = |words: &[&str], input: &[u8]| {
        let mut command = program(0o022, SIG_DFL);
        command.current_dir(&folder).args(words).stdin(Stdio::piped());
        let mut child = command.spawn().expect("the program starts");
        child.stdin.take().expect("a pipe").write_all(input).expect("the input");
        assert!(child.wait().expect("the program ends").success(), "{words:?}");
    };
    let key = b"config write dev0.SMRAM 44h\nwrite4 A0000h 4B455921h\nconfig write dev0.SMRAM 4Eh\n";
    convert(&["asm", "-o", "key.rec", "-"], key);
    convert(&["asm", "-o", "plain.rec", "-"], b"write4 1000h 7\n");
    let records = fs::read(folder.join("key.rec")).expect("the records");
    convert(&["disasm", "-o", "shown.trace", "--show-protected", "-"], &records);
    convert(&["disasm", "-o", "hidden.trace", "-"], &records);
    assert_eq!(["key.rec", "plain.rec", "shown.trace", "hidden.trace"].map(mode), [0o600, 0o644, 0o600, 0o644]);
}
