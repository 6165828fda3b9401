//! Files that have no name yet, where the file system has them: of such a file nothing is left when the program is killed.
#![expect(
    unsafe_code,
    reason = "the standard library gives an open file no name"
)]

use std::ffi::{CString, c_char, c_int};
use std::fs::{self, File, OpenOptions};
use std::io;
use std::os::fd::AsRawFd;
use std::os::unix::ffi::OsStrExt;
use std::os::unix::fs::OpenOptionsExt;
use std::path::Path;

unsafe extern "C" {
    fn linkat(
        old_folder: c_int,
        old: *const c_char,
        new_folder: c_int,
        new: *const c_char,
        flags: c_int,
    ) -> c_int;
}

/// Of the kernel's headers for x86-64: a file without a name, paths from the working folder on, a link that is followed.
const O_TMPFILE: c_int = 0o20_200_000;
const AT_FDCWD: c_int = -100;
const AT_SYMLINK_FOLLOW: c_int = 0x400;

/// The link by which the kernel shows an open file.
fn link(file: &File) -> String {
    format!("/proc/self/fd/{}", file.as_raw_fd())
}

/// A new file in a folder, which can be given a name there.
pub fn create(folder: &Path) -> io::Result<File> {
    let mut options = OpenOptions::new();
    let file = options.write(true).custom_flags(O_TMPFILE).open(folder)?;
    fs::symlink_metadata(link(&file))?;
    Ok(file)
}

/// Gives such a file its name, which no other file may have.
pub fn take_name(file: &File, name: &Path) -> io::Result<()> {
    let old = CString::new(link(file))?;
    let new = CString::new(name.as_os_str().as_bytes())?;
    // SAFETY: both are strings that end with a zero byte, and the call keeps neither of them.
    let done = unsafe {
        linkat(
            AT_FDCWD,
            old.as_ptr(),
            AT_FDCWD,
            new.as_ptr(),
            AT_SYMLINK_FOLLOW,
        )
    };
    if done == 0 {
        Ok(())
    } else {
        Err(io::Error::last_os_error())
    }
}
