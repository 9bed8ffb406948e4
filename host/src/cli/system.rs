//! What the standard library does not offer of the system: signals, the terminal's width and the mask of
//! new files. Every C function that the tool calls itself is called here.
#![allow(unsafe_code)]

use std::env;
use std::ffi::{c_char, c_int, c_uint, c_ulong, c_ushort, CString};
use std::io;
use std::os::unix::ffi::OsStrExt;
use std::path::Path;
use std::ptr;
use std::sync::atomic::{AtomicPtr, Ordering};
use std::sync::Once;

const SIGHUP: c_int = 1;
const SIGINT: c_int = 2;
const SIGQUIT: c_int = 3;
const SIGTERM: c_int = 15;
const SIGXCPU: c_int = 24;
const SIGXFSZ: c_int = 25;
const SIG_DFL: usize = 0;
const SIG_IGN: usize = 1;

#[cfg(target_os = "linux")]
const TIOCGWINSZ: c_ulong = 0x5413;
#[cfg(not(target_os = "linux"))]
const TIOCGWINSZ: c_ulong = 0x4008_7468;

extern "C" {
    fn signal(number: c_int, action: usize) -> usize;
    fn raise(number: c_int) -> c_int;
    fn unlink(path: *const c_char) -> c_int;
    fn umask(mask: c_uint) -> c_uint;
    fn ioctl(descriptor: c_int, request: c_ulong, ...) -> c_int;
}

/// Files that go when a signal ends the program. What a pointer here names is never freed, since the
/// handler may be reading it at any time.
static DOOMED: [AtomicPtr<c_char>; 8] = [const { AtomicPtr::new(ptr::null_mut()) }; 8];

/// A file that a signal removes for as long as this lives.
pub struct Doomed(&'static AtomicPtr<c_char>);

impl Doomed {
    pub fn new(path: &Path) -> io::Result<Doomed> {
        static HANDLED: Once = Once::new();
        HANDLED.call_once(|| {
            [SIGHUP, SIGINT, SIGQUIT, SIGTERM, SIGXCPU].into_iter().for_each(handle);
            // SAFETY: from now on a file that is longer than the user's limit is an error of the write.
            unsafe { signal(SIGXFSZ, SIG_IGN) };
        });
        let path = CString::new(path.as_os_str().as_bytes())?.into_raw();
        let free = |slot: &&AtomicPtr<c_char>| {
            slot.compare_exchange(ptr::null_mut(), path, Ordering::Release, Ordering::Relaxed).is_ok()
        };
        DOOMED.iter().find(free).map(Doomed).ok_or_else(|| io::Error::other("too many outputs at once"))
    }
}

impl Drop for Doomed {
    fn drop(&mut self) {
        self.0.store(ptr::null_mut(), Ordering::Release);
    }
}

/// Has a signal remove the files, unless the program was started with the signal ignored, as `nohup` does.
fn handle(number: c_int) {
    // SAFETY: `end` has the type of a handler and calls nothing that a handler must not.
    unsafe {
        if signal(number, SIG_IGN) != SIG_IGN {
            signal(number, end as extern "C" fn(c_int) as usize);
        }
    }
}

/// Removes the files and dies of the signal, so that the shell sees which it was.
extern "C" fn end(number: c_int) {
    for slot in &DOOMED {
        let path = slot.load(Ordering::Acquire);
        if !path.is_null() {
            // SAFETY: a C string that is never freed. `unlink` may be called by a handler.
            unsafe { unlink(path) };
        }
    }
    // SAFETY: both may be called by a handler. The signal is delivered anew when the handler returns.
    unsafe {
        signal(number, SIG_DFL);
        raise(number);
    }
}

/// The permissions that new files are not given.
pub fn mask() -> u32 {
    // SAFETY: sets the mask and cannot fail. It can be read only by setting it: to one that is stricter than
    // most, for another thread's sake.
    let mask = unsafe { umask(0o077) };
    // SAFETY: the same; this is the mask that was there.
    unsafe { umask(mask) };
    mask & 0o777
}

/// How many columns the terminal at this descriptor has; none where it is no terminal. COLUMNS comes first,
/// if it is a number above 0.
pub fn columns(descriptor: i32) -> Option<usize> {
    let given = env::var("COLUMNS").ok().and_then(|text| text.parse().ok()).filter(|&columns| columns > 0);
    given.or_else(|| window(descriptor))
}

/// The columns that the terminal itself tells.
fn window(descriptor: c_int) -> Option<usize> {
    // Rows, columns, and the same in pixels.
    let mut size: [c_ushort; 4] = [0; 4];
    // SAFETY: the request fills a structure of four shorts, and fails on what is no terminal.
    let result = unsafe { ioctl(descriptor, TIOCGWINSZ, size.as_mut_ptr()) };
    Some(usize::from(size[1])).filter(|&columns| result == 0 && columns > 0)
}
