//! A terminal to run the command on.

use std::ffi::{c_char, c_int, CStr};
use std::fs::File;
use std::io::Read;
use std::os::fd::AsRawFd;
use std::os::unix::fs::OpenOptionsExt;
use std::process::{Command, Stdio};

/// The flag with which a terminal is opened that does not become the test's own.
const NOT_OURS: i32 = 0o400;

unsafe extern "C" {
    fn grantpt(terminal: c_int) -> c_int;
    fn unlockpt(terminal: c_int) -> c_int;
    fn ptsname_r(terminal: c_int, name: *mut c_char, len: usize) -> c_int;
}

/// The streams of a command that are the terminal; the others are empty.
#[derive(Clone, Copy, PartialEq, Eq)]
pub enum On {
    Output,
    Errors,
    Both,
}

/// Runs a command on a terminal, and gives its status and all that was written there.
pub fn seen(mut command: Command, on: On) -> (Option<i32>, String) {
    let open = |path: &str| File::options().read(true).write(true).custom_flags(NOT_OURS).open(path);
    let mut screen = open("/dev/ptmx").expect("a terminal");
    let mut name = [0; 64];
    // SAFETY: the file is open, and the name has the length that is said.
    let answers = unsafe {
        let fd = screen.as_raw_fd();
        [grantpt(fd), unlockpt(fd), ptsname_r(fd, name.as_mut_ptr(), name.len())]
    };
    assert_eq!(answers, [0; 3]);
    let name = CStr::from_bytes_until_nul(name.map(|byte| byte as u8).as_slice()).expect("a name").to_owned();
    let terminal = || Stdio::from(open(name.to_str().expect("a path")).expect("the terminal"));
    command.stdout(if on == On::Errors { Stdio::null() } else { terminal() });
    command.stderr(if on == On::Output { Stdio::null() } else { terminal() });
    let mut child = command.spawn().expect("the command starts");
    // The terminal is at its end when nobody has it open.
    drop(command);
    let mut written = Vec::new();
    let mut part = [0; 4096];
    while let Ok(length @ 1..) = screen.read(&mut part) {
        written.extend_from_slice(&part[..length]);
    }
    let status = child.wait().expect("the command ends").code();
    (status, String::from_utf8(written).expect("UTF-8").replace("\r\n", "\n"))
}
