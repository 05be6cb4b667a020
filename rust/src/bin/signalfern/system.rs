//! The few calls of the C library that std has no safe form of, and all `unsafe` of the tool.
#![allow(unsafe_code)]

use std::ffi::{c_char, c_int, CString};
use std::fs::File;
use std::io::{self, Write};
use std::os::fd::AsRawFd;
use std::os::unix::ffi::OsStrExt;
use std::os::unix::net::UnixStream;
use std::path::Path;
use std::ptr;
use std::sync::atomic::{AtomicBool, AtomicPtr, Ordering};

extern "C" {
    fn linkat(
        old_folder: c_int,
        old: *const c_char,
        new_folder: c_int,
        new: *const c_char,
        flags: c_int,
    ) -> c_int;
    fn unlink(path: *const c_char) -> c_int;
    fn signal(number: c_int, action: usize) -> usize;
    fn raise(number: c_int) -> c_int;
    fn fork() -> c_int;
    fn waitpid(process: c_int, status: *mut c_int, options: c_int) -> c_int;
    fn read(descriptor: c_int, buffer: *mut u8, len: usize) -> isize;
    fn close(descriptor: c_int) -> c_int;
    fn _exit(status: c_int) -> !;
    fn fcntl(descriptor: c_int, command: c_int, ...) -> c_int;
}

/// The system's numbers for a name that is too long, and for a file's name where a folder's should stand.
pub const TOO_LONG: i32 = 36;
pub const NO_FOLDER: i32 = 20;
/// An opening flag: a file without a name, in the folder that is opened.
pub const O_TMPFILE: c_int = 0o20_200_000;
const AT_FDCWD: c_int = -100;
const AT_SYMLINK_FOLLOW: c_int = 0x400;
const F_GETFD: c_int = 1;
const SIG_DFL: usize = 0;
const SIG_IGN: usize = 1;
/// Hang-up, Ctrl-C, and the polite request to end.
const ENDING: [c_int; 3] = [1, 2, 15];

/// The names of the files that a signal removes; null for none. A command makes two at most.
static DOOMED: [AtomicPtr<c_char>; 4] = [const { AtomicPtr::new(ptr::null_mut()) }; 4];

/// Which of the standard streams were closed when the program began: input, output, error.
static CLOSED: [AtomicBool; 3] = [const { AtomicBool::new(false) }; 3];

/// Before `main`, std opens /dev/null in the place of a stream that is closed, and nobody could tell that it
/// was. The loader runs what is listed here before that.
#[used]
#[link_section = ".init_array"]
static LOOK_FIRST: extern "C" fn() = look_at_streams;

extern "C" fn look_at_streams() {
    for (descriptor, closed) in (0..).zip(&CLOSED) {
        // SAFETY: this asks about a descriptor, open or not, and changes nothing.
        let is_closed = unsafe { fcntl(descriptor, F_GETFD) } == -1;
        closed.store(is_closed, Ordering::SeqCst);
    }
}

/// A standard stream, by its descriptor.
#[derive(Clone, Copy)]
pub enum Stream {
    Input = 0,
    Output = 1,
}

impl Stream {
    /// An error where the program was started without it.
    pub fn is_there(self) -> io::Result<()> {
        match CLOSED[self as usize].load(Ordering::SeqCst) {
            false => Ok(()),
            true => Err(io::Error::other("it is closed")),
        }
    }
}

fn c_path(path: &Path) -> io::Result<CString> {
    CString::new(path.as_os_str().as_bytes()).map_err(io::Error::from)
}

/// Gives an open file without a name this one. Fails where the name is taken.
pub fn give_name(file: &File, path: &Path) -> io::Result<()> {
    let old = c_path(Path::new(&format!("/proc/self/fd/{}", file.as_raw_fd())))?;
    let new = c_path(path)?;
    // SAFETY: two strings that end in 0 and live until the call returns.
    let result = unsafe {
        linkat(
            AT_FDCWD,
            old.as_ptr(),
            AT_FDCWD,
            new.as_ptr(),
            AT_SYMLINK_FOLLOW,
        )
    };
    match result {
        0 => Ok(()),
        _ => Err(io::Error::last_os_error()),
    }
}

/// While this lives, whatever ends the program has a file removed: by the program itself where it
/// can, and by a watching process where it cannot.
pub struct Removal {
    slot: &'static AtomicPtr<c_char>,
    _watcher: Option<Watcher>,
}

impl Removal {
    /// To be called before the file is made, so that no moment is left out.
    pub fn of(path: &Path) -> io::Result<Self> {
        // Never freed: the handler may be reading it. It is one short name for each file written.
        let name = c_path(path)?.into_raw();
        let free = |slot: &&AtomicPtr<c_char>| {
            let (none, order) = (ptr::null_mut(), Ordering::SeqCst);
            slot.compare_exchange(none, name, order, order).is_ok()
        };
        let slot = DOOMED.iter().find(free);
        let slot = slot.ok_or_else(|| io::Error::other("too many files at once"))?;
        for number in ENDING {
            // SAFETY: the handler calls only what a handler may call.
            unsafe {
                // Who started us may have the signal ignored, as nohup does: it stays so.
                if signal(number, remove_and_end as *const () as usize) == SIG_IGN {
                    signal(number, SIG_IGN);
                }
            }
        }
        // Where no process can be had, the signals that can be caught have to do.
        let _watcher = Watcher::start(name).ok();
        Ok(Self { slot, _watcher })
    }
}

impl Drop for Removal {
    fn drop(&mut self) {
        self.slot.store(ptr::null_mut(), Ordering::SeqCst);
    }
}

/// A process that removes a file when this one ends without a word, as by SIGKILL.
struct Watcher {
    process: c_int,
    ours: UnixStream,
}

impl Watcher {
    /// `name` is never freed.
    fn start(name: *const c_char) -> io::Result<Self> {
        let (ours, theirs) = UnixStream::pair()?;
        // SAFETY: this program has one thread. The child only calls what a signal handler may call,
        // on a name that is never freed and descriptors of its own, and never returns.
        match unsafe { fork() } {
            -1 => Err(io::Error::last_os_error()),
            0 => unsafe { watch(ours.as_raw_fd(), theirs.as_raw_fd(), name) },
            process => Ok(Self { process, ours }),
        }
    }
}

impl Drop for Watcher {
    /// Nothing is left to remove.
    fn drop(&mut self) {
        // Where it is gone already, nothing has to be said.
        let _ = self.ours.write_all(&[1]);
        // SAFETY: no status is asked for.
        unsafe { waitpid(self.process, ptr::null_mut(), 0) };
    }
}

/// What the watcher does: waits for a byte, and removes the file if the end comes instead.
unsafe fn watch(ours: c_int, theirs: c_int, name: *const c_char) -> ! {
    for number in ENDING {
        signal(number, SIG_IGN);
    }
    close(ours);
    let mut byte = 0;
    if read(theirs, &mut byte, 1) != 1 {
        unlink(name);
    }
    _exit(0)
}

extern "C" fn remove_and_end(number: c_int) {
    // SAFETY: each path is null or a string that ends in 0 and is never freed; the three calls are
    // among those that a handler may make. The signal raised waits until the handler returns.
    unsafe {
        for slot in &DOOMED {
            let path = slot.load(Ordering::SeqCst);
            if !path.is_null() {
                unlink(path);
            }
        }
        signal(number, SIG_DFL);
        raise(number);
    }
}
