//! Files in and out. An output file appears whole or not at all: it is written under another name in
//! the same folder, where only its owner can read it, and then renamed.

use super::blocks;
use super::failure::{shown, Failure};
use super::system::{self, Doomed};
use std::ffi::OsStr;
use std::fs::{self, File, Permissions};
use std::io::{self, Read, Write};
use std::os::fd::AsFd;
use std::os::unix::ffi::OsStrExt;
use std::os::unix::fs::{fchown, FileExt, FileTypeExt, MetadataExt, OpenOptionsExt, PermissionsExt};
use std::path::{Path, PathBuf};
use std::process;

/// Where input comes from.
#[derive(Clone, Debug, PartialEq, Eq)]
pub enum Source {
    /// `-`
    Standard,
    File(PathBuf),
}

impl Source {
    pub fn named(name: &OsStr) -> Source {
        if name == "-" {
            Source::Standard
        } else {
            Source::File(name.into())
        }
    }

    /// The name that messages use.
    pub fn name(&self) -> String {
        match self {
            Source::Standard => "standard input".to_string(),
            Source::File(path) => shown(path),
        }
    }

    pub fn open(&self) -> Result<Input, Failure> {
        let reader: Box<dyn Read> = match self {
            Source::Standard => Box::new(io::stdin().lock()),
            Source::File(path) => Box::new(File::open(path).map_err(|error| Failure::file(path, &error))?),
        };
        Ok(Input { source: self.clone(), reader, bytes: Vec::new(), ended: false })
    }

    /// All bytes.
    pub fn read(&self) -> Result<Vec<u8>, Failure> {
        let mut input = self.open()?;
        input.fill_whole()?;
        Ok(input.bytes)
    }

    /// All bytes, but at most one more than `most`: it tells that there are too many.
    pub fn read_within(&self, most: usize) -> Result<Vec<u8>, Failure> {
        let mut input = self.open()?;
        input.fill(most + 1)?;
        Ok(input.bytes)
    }

    /// What tells a plain file from others.
    fn identity(&self) -> Option<Identity> {
        let data = match self {
            Source::Standard => File::from(io::stdin().as_fd().try_clone_to_owned().ok()?).metadata(),
            Source::File(path) => fs::metadata(path),
        };
        data.ok().filter(fs::Metadata::is_file).map(|data| Identity::Node(data.dev(), data.ino()))
    }

    /// The length of a plain file; none for what can be read only once.
    pub fn length(&self) -> Option<u64> {
        match self {
            Source::Standard => None,
            Source::File(path) => fs::metadata(path).ok().filter(fs::Metadata::is_file).map(|data| data.len()),
        }
    }
}

/// A source that is read as it is needed.
pub struct Input {
    pub source: Source,
    reader: Box<dyn Read>,
    /// Bytes read and not yet taken away.
    pub bytes: Vec<u8>,
    /// There is nothing more to read.
    pub ended: bool,
}

impl Input {
    /// Reads until there are so many bytes, or to the end.
    pub fn fill(&mut self, length: usize) -> Result<(), Failure> {
        let missing = length.saturating_sub(self.bytes.len()) as u64;
        if !self.ended && missing != 0 {
            let read = self.reader.by_ref().take(missing).read_to_end(&mut self.bytes);
            let failure = |error: io::Error| Failure::stream(&self.source.name(), &error);
            self.ended = (read.map_err(failure)? as u64) < missing;
        }
        Ok(())
    }

    /// Reads to the end. What is no plain file, and may have none, is read to a bound.
    pub fn fill_whole(&mut self) -> Result<(), Failure> {
        if self.source.length().is_some() {
            return self.fill(usize::MAX);
        }
        self.fill(MOST_BYTES + 1)?;
        match self.bytes.len() > MOST_BYTES {
            true => {
                let most = format!("at most {} GiB of what is no plain file", MOST_BYTES >> 30);
                Err(Failure::input(format!("{}: expected {most}", self.source.name())))
            }
            false => Ok(()),
        }
    }
}

/// As much as is taken of a pipe or a device, so that one without an end does not take all memory.
const MOST_BYTES: usize = 1 << 30;

/// Where output goes.
#[derive(Clone, Debug, PartialEq, Eq)]
pub enum Sink {
    /// `-`, or another name of standard output.
    Standard,
    File(PathBuf),
}

impl Sink {
    pub fn named(name: &OsStr) -> Sink {
        if name == "-" || is_standard_output(Path::new(name)) {
            Sink::Standard
        } else {
            Sink::File(name.into())
        }
    }

    /// Whether both end in one file, where one output would take the other's place.
    pub fn same(&self, other: &Sink) -> bool {
        let both = (self.identity(), other.identity());
        (self == other && *self == Sink::Standard) || matches!(both, (Some(own), Some(other)) if own == other)
    }

    /// Whether the output would take the place of a file that is read.
    pub fn replaces(&self, source: &Source) -> bool {
        *self != Sink::Standard && source.identity().is_some_and(|read| self.identity() == Some(read))
    }

    /// What tells a file from others. A device such as /dev/null takes any number of outputs.
    fn identity(&self) -> Option<Identity> {
        let (data, path) = match self {
            Sink::Standard => (File::from(io::stdout().as_fd().try_clone_to_owned().ok()?).metadata(), PathBuf::new()),
            Sink::File(path) => {
                let path = resolved(path).ok()?;
                (fs::metadata(&path), path)
            }
        };
        match data {
            Ok(data) if data.file_type().is_char_device() => None,
            Ok(data) => Some(Identity::Node(data.dev(), data.ino())),
            Err(_) => Some(Identity::Name(path)),
        }
    }
}

#[derive(PartialEq, Eq)]
enum Identity {
    /// Device and inode of a file that is there.
    Node(u64, u64),
    /// The path of one that is not.
    Name(PathBuf),
}

/// As many links as the system follows.
const MOST_LINKS: usize = 40;

/// The file that an output's name stands for, in a folder without links. Links are followed, one that
/// names nothing yet too, but not a descriptor's: what it leads to must not be replaced.
fn resolved(path: &Path) -> io::Result<PathBuf> {
    let mut path = path.to_path_buf();
    for _ in 0..MOST_LINKS {
        let name = path.as_os_str().as_bytes().rsplit(|byte| *byte == b'/').next().unwrap_or_default();
        if [&b""[..], b".", b".."].contains(&name) {
            return Err(io::ErrorKind::IsADirectory.into());
        }
        let name = OsStr::from_bytes(name).to_os_string();
        let folder = path.parent().filter(|folder| !folder.as_os_str().is_empty()).unwrap_or(Path::new("."));
        let folder = fs::canonicalize(folder)?;
        path = folder.join(name);
        match fs::read_link(&path) {
            Ok(target) if !has_descriptors(&folder) => path = folder.join(target),
            _ => return Ok(path),
        }
    }
    Err(io::Error::other("too many levels of symbolic links"))
}

/// Folders whose files are the program's open descriptors; the second is a link to the first on Linux.
const DESCRIPTORS: [&str; 2] = ["/proc/self/fd", "/dev/fd"];

/// Whether the files of a folder are the open descriptors of a process.
fn has_descriptors(folder: &Path) -> bool {
    (folder.starts_with("/proc") && folder.ends_with("fd")) || folder == Path::new(DESCRIPTORS[1])
}

/// Whether a name is descriptor 1 of this process: `/dev/stdout`, `/dev/fd/1` and so on.
fn is_standard_output(path: &Path) -> bool {
    let own = |path: &Path| DESCRIPTORS.iter().any(|own| fs::canonicalize(own).is_ok_and(|own| path == own.join("1")));
    resolved(path).is_ok_and(|path| own(&path))
}

/// Who may read an output file that was not there before.
#[derive(Clone, Copy, Debug, PartialEq, Eq)]
pub enum Secrecy {
    /// Whom the user's mask lets.
    Open,
    /// Its owner alone.
    Secret,
}

impl Secrecy {
    /// Whether the output holds values that are not for everybody.
    pub fn of(secret: bool) -> Secrecy {
        if secret {
            Secrecy::Secret
        } else {
            Secrecy::Open
        }
    }

    fn permissions(self) -> Permissions {
        Permissions::from_mode(match self {
            Secrecy::Open => 0o666 & !system::mask(),
            Secrecy::Secret => PRIVATE,
        })
    }
}

/// The mode of a file that only its owner can read.
const PRIVATE: u32 = 0o600;

/// What a mode lets the group do, and the bit that runs a program as the group.
const GROUP: u32 = 0o2070;

/// A file that is removed unless it is renamed, by a signal too.
struct Temporary {
    path: PathBuf,
    renamed: bool,
    _doomed: Doomed,
}

impl Temporary {
    /// A new file in a folder. It is empty until it is entered with those that a signal removes.
    fn create(folder: &Path) -> io::Result<(File, Temporary)> {
        let mut number = 0;
        loop {
            let path = folder.join(format!(".mitrophel-{}-{number}.tmp", process::id()));
            match File::options().write(true).create_new(true).mode(PRIVATE).open(&path) {
                Err(error) if error.kind() == io::ErrorKind::AlreadyExists && number < 100 => number += 1,
                Err(error) => return Err(error),
                Ok(file) => {
                    let doomed = Doomed::new(&path).inspect_err(|_| drop(fs::remove_file(&path)))?;
                    return Ok((file, Temporary { path, renamed: false, _doomed: doomed }));
                }
            }
        }
    }

    fn rename(mut self, path: &Path) -> io::Result<()> {
        fs::rename(&self.path, path)?;
        self.renamed = true;
        Ok(())
    }
}

impl Drop for Temporary {
    fn drop(&mut self) {
        if !self.renamed {
            // Nothing more can be done about a file that cannot be removed.
            let _ = fs::remove_file(&self.path);
        }
    }
}

/// An output that is written but does not yet stand in its place.
pub enum Pending<'a> {
    Standard(&'a [u8]),
    /// A device, a pipe, an open descriptor: something that no file may take the place of.
    Direct(PathBuf, &'a [u8]),
    Written(PathBuf, Box<Written>),
}

/// The whole output under another name. It is its owner's alone until it takes its place.
pub struct Written {
    temporary: Temporary,
    file: File,
    /// The file that was there before.
    old: Option<fs::Metadata>,
    secrecy: Secrecy,
}

impl Written {
    fn rename(self, target: &Path) -> io::Result<()> {
        match &self.old {
            Some(old) => keep_access(&self.file, old)?,
            // Some file systems have no permissions to set.
            None => drop(self.file.set_permissions(self.secrecy.permissions())),
        }
        self.temporary.rename(target)
    }
}

impl<'a> Pending<'a> {
    /// Writes the bytes of a file under another name. A file that is there already keeps its permissions.
    pub fn new(sink: &Sink, bytes: &'a [u8], secrecy: Secrecy) -> Result<Pending<'a>, Failure> {
        let Sink::File(path) = sink else { return Ok(Pending::Standard(bytes)) };
        let failure = |error: io::Error| Failure::file(path, &error);
        // A link's own file is written anew, not the link.
        let target = resolved(path).map_err(failure)?;
        match fs::metadata(&target) {
            Ok(data) if data.is_dir() => Err(failure(io::ErrorKind::IsADirectory.into())),
            Ok(data) if !data.is_file() || target.parent().is_some_and(has_descriptors) => {
                Ok(Pending::Direct(path.clone(), bytes))
            }
            old => {
                let (file, temporary) = write_beside(&target, bytes).map_err(failure)?;
                Ok(Pending::Written(target, Box::new(Written { temporary, file, old: old.ok(), secrecy })))
            }
        }
    }

    /// Puts the output in its place.
    pub fn commit(self) -> Result<(), Failure> {
        match self {
            Pending::Standard(bytes) => print(bytes),
            Pending::Direct(path, bytes) => {
                let written = File::options().append(true).open(&path).and_then(|mut file| file.write_all(bytes));
                written.map_err(|error| Failure::file(&path, &error))
            }
            Pending::Written(path, written) => written.rename(&path).map_err(|error| Failure::file(&path, &error)),
        }
    }
}

/// Writes to standard output.
pub fn print(bytes: &[u8]) -> Result<(), Failure> {
    let mut out = io::stdout().lock();
    out.write_all(bytes).and_then(|()| out.flush())?;
    Ok(())
}

/// Gives a new file the owner, group and permissions of the one whose place it takes. A group that the user may
/// not give is not let in: the group that the new file has is another.
fn keep_access(file: &File, old: &fs::Metadata) -> io::Result<()> {
    let own = file.metadata()?;
    if own.uid() != old.uid() {
        // Only the superuser may; anybody else has made the file his own.
        let _ = fchown(file, Some(old.uid()), None);
    }
    let kept = own.gid() == old.gid() || fchown(file, None, Some(old.gid())).is_ok();
    let mode = old.permissions().mode();
    file.set_permissions(Permissions::from_mode(if kept { mode } else { mode & !GROUP }))
}

/// Writes a new file in the folder of a file. Blocks of zeros are left out: the file system keeps holes.
fn write_beside(target: &Path, bytes: &[u8]) -> io::Result<(File, Temporary)> {
    let (file, temporary) = Temporary::create(target.parent().unwrap_or(Path::new("/")))?;
    for (place, block) in blocks::filled(bytes) {
        file.write_all_at(block, place as u64)?;
    }
    file.set_len(bytes.len() as u64)?;
    file.sync_all()?;
    Ok((file, temporary))
}

/// Writes one output.
pub fn save(sink: &Sink, bytes: &[u8], secrecy: Secrecy) -> Result<(), Failure> {
    Pending::new(sink, bytes, secrecy)?.commit()
}
