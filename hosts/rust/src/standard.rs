//! The program's standard streams, as files: std's own take one that is open the wrong way round for an input that has ended, or an output that takes all,
//! and panic where a message can't be written.
use std::fs::File;
use std::io::{self, IsTerminal, Write};
use std::os::fd::{AsFd, IntoRawFd};
use std::sync::atomic::{AtomicUsize, Ordering};

mod c {
    pub const F_GETFD: i32 = 1;
    extern "C" {
        pub fn fcntl(fd: i32, command: i32, ...) -> i32;
        pub fn close(fd: i32) -> i32;
    }
}

const NAMES: [&str; 3] = ["standard input", "standard output", "standard error"];

/// The first standard stream that was closed when the program began; 3 where none was.
static CLOSED: AtomicUsize = AtomicUsize::new(3);

/// Before `main` std opens /dev/null in the place of a closed stream, read and write, and Python's DEVNULL is no other: only a look before std's tells.
#[used]
#[link_section = ".init_array"]
static LOOK: extern "C" fn() = look;

extern "C" fn look() {
    // SAFETY: a question, which takes any number.
    if let Some(fd) = (0..3).find(|&fd| unsafe { c::fcntl(fd, c::F_GETFD) } == -1) {
        CLOSED.store(fd as usize, Ordering::Relaxed);
    }
}

/// The name of a standard stream that was closed when the program began.
pub fn closed() -> Option<&'static str> {
    NAMES.get(CLOSED.load(Ordering::Relaxed)).copied()
}

/// The standard input.
pub fn input() -> io::Result<File> {
    Ok(io::stdin().as_fd().try_clone_to_owned()?.into())
}

/// The standard output.
pub fn output() -> io::Result<File> {
    Ok(io::stdout().as_fd().try_clone_to_owned()?.into())
}

/// Closes a file. What was written may fail as late as here, and dropping a file passes over that.
pub fn close(file: File) -> io::Result<()> {
    // SAFETY: nothing else has this descriptor.
    match unsafe { c::close(file.into_raw_fd()) } {
        0 => Ok(()),
        _ => Err(io::Error::last_os_error()),
    }
}

/// What is said on standard error. From the first failure on nothing more is said.
pub struct Messages {
    to: Option<File>,
    terminal: bool,
}

impl Messages {
    pub fn new() -> Messages {
        let to = io::stderr().as_fd().try_clone_to_owned();
        Messages { to: to.ok().map(File::from), terminal: io::stderr().is_terminal() }
    }

    /// Whether progress is shown.
    pub fn terminal(&self) -> bool {
        self.terminal
    }

    /// Whether something that was to be said could not be.
    pub fn lost(&self) -> bool {
        self.to.is_none()
    }

    /// A line of its own.
    pub fn line(&mut self, line: &str) {
        self.show(&format!("shofrakin: {line}\n"));
    }

    /// On a terminal, in the place of a line that was begun.
    pub fn show(&mut self, text: &str) {
        let clear = if self.terminal { "\r\x1b[K" } else { "" };
        if self.to.as_mut().is_some_and(|to| to.write_all(format!("{clear}{text}").as_bytes()).is_err()) {
            self.to = None;
        }
    }
}
