//! What a signal must not leave behind: a file under a temporary name, and a person without a word.

use std::ffi::{c_char, c_int, c_void, CString};
use std::os::unix::ffi::OsStrExt;
use std::path::Path;
use std::ptr;
use std::sync::atomic::{AtomicPtr, Ordering};

extern "C" {
    fn signal(number: c_int, handler: usize) -> usize;
    fn raise(number: c_int) -> c_int;
    fn unlink(path: *const c_char) -> c_int;
    fn write(file: c_int, bytes: *const c_void, count: usize) -> isize;
    fn _exit(code: c_int) -> !;
}

/// x86-64 Linux's numbers, for which alone the archive is made.
const SIGHUP: c_int = 1;
const SIGINT: c_int = 2;
const SIGBUS: c_int = 7;
const SIGTERM: c_int = 15;
const SIG_DFL: usize = 0;
const SIG_IGN: usize = 1;

const CUT: &str = "bromaveluth: a file was cut by somebody else while it was read; there is no answer for it\n";

/// The names of files to be removed, as C has them.
static TEMPORARY: [AtomicPtr<c_char>; 2] = [const { AtomicPtr::new(ptr::null_mut()) }; 2];

/// Calls only what a signal's handler may call: unlink, write, _exit, signal, raise.
extern "C" fn ended(number: c_int) {
    for name in &TEMPORARY {
        let name = name.load(Ordering::Acquire);
        if !name.is_null() {
            // SAFETY: the name is a whole C string that is never given back.
            unsafe { unlink(name) };
        }
    }
    // SAFETY: the text is lent with its own length; the default handler ends the program once this one has returned.
    unsafe {
        if number == SIGBUS {
            write(2, CUT.as_ptr().cast(), CUT.len());
            _exit(crate::say::FAILED.into());
        }
        signal(number, SIG_DFL);
        raise(number);
    }
}

fn watch(number: c_int) {
    // SAFETY: the handler keeps to what a handler may call; a signal that is ignored stays so.
    unsafe {
        if signal(number, ended as extern "C" fn(c_int) as usize) == SIG_IGN {
            signal(number, SIG_IGN);
        }
    }
}

/// From now on a mapped file that is cut ends the program with words and exit code 3.
pub fn watch_mapped() {
    watch(SIGBUS);
}

/// From now on this file is removed when a signal ends the program, until it is forgotten by its number.
pub fn remember(path: &Path) -> Option<usize> {
    let name = CString::new(path.as_os_str().as_bytes()).ok()?.into_raw();
    let free =
        |slot: &AtomicPtr<c_char>| slot.compare_exchange(ptr::null_mut(), name, Ordering::AcqRel, Ordering::Relaxed).is_ok();
    let slot = TEMPORARY.iter().position(free)?;
    [SIGHUP, SIGINT, SIGTERM].into_iter().for_each(watch);
    Some(slot)
}

/// The file is in its place, or gone. Its name is not given back, since a handler may be reading it.
pub fn forget(slot: usize) {
    TEMPORARY[slot].store(ptr::null_mut(), Ordering::Release);
}
