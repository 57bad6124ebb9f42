//! Finds the width of the terminal, and reads the environment variable NO_COLOR.

use std::env;
use std::io;
use std::sync::OnceLock;

/// The width of the terminal that controls the process, in terminal columns. If this width isn't known, the result is the width of
/// the terminal that standard output writes to. `None` means that neither width is known.
pub fn columns() -> Option<u16> {
    let of_process = system::terminal().ok().and_then(|terminal| system::columns_of(&terminal));
    of_process.or_else(|| system::columns_of(&io::stdout()))
}

/// True if the environment variable NO_COLOR was set and not empty when this function was first called.
pub fn is_without_colors() -> bool {
    static ANSWER: OnceLock<bool> = OnceLock::new();
    *ANSWER.get_or_init(|| env::var_os("NO_COLOR").is_some_and(|word| !word.is_empty()))
}

#[cfg(unix)]
mod system {
    use std::fs::File;
    use std::io;
    use std::os::fd::{AsFd, AsRawFd};

    // The size of a terminal's window, as Linux and macOS declare this struct.
    #[repr(C)]
    #[derive(Default)]
    struct WindowSize {
        rows: u16,
        columns: u16,
        width: u16,
        height: u16,
    }

    const GET_WINDOW_SIZE: u64 = if cfg!(target_os = "macos") { 0x4008_7468 } else { 0x5413 };

    unsafe extern "C" {
        fn ioctl(descriptor: i32, request: u64, ...) -> i32;
    }

    pub fn terminal() -> io::Result<File> {
        File::open("/dev/tty")
    }

    pub fn columns_of(terminal: &impl AsFd) -> Option<u16> {
        let mut size = WindowSize::default();
        // SAFETY: the descriptor is open, and the request writes a struct of this form, or nothing if it fails.
        let result = unsafe { ioctl(terminal.as_fd().as_raw_fd(), GET_WINDOW_SIZE, &raw mut size) };
        (result == 0 && size.columns > 0).then_some(size.columns)
    }
}

#[cfg(windows)]
mod system {
    use std::fs::File;
    use std::io;
    use std::os::windows::io::{AsHandle, AsRawHandle, RawHandle};

    // The state of a console, as Windows declares this struct. The four numbers of `window` are the positions of its left, top,
    // right and bottom character.
    #[repr(C)]
    #[derive(Default)]
    struct ScreenBuffer {
        size: [i16; 2],
        cursor: [i16; 2],
        attributes: u16,
        window: [i16; 4],
        greatest_window: [i16; 2],
    }

    #[link(name = "kernel32")]
    unsafe extern "system" {
        fn GetConsoleScreenBufferInfo(console: RawHandle, buffer: *mut ScreenBuffer) -> i32;
    }

    pub fn terminal() -> io::Result<File> {
        File::options().read(true).write(true).open("CONOUT$")
    }

    pub fn columns_of(terminal: &impl AsHandle) -> Option<u16> {
        let mut buffer = ScreenBuffer::default();
        // SAFETY: the handle is open, and the call writes a struct of this form, or nothing if it returns 0.
        let result = unsafe { GetConsoleScreenBufferInfo(terminal.as_handle().as_raw_handle(), &raw mut buffer) };
        let [left, _, right, _] = buffer.window;
        if result == 0 { None } else { u16::try_from(i32::from(right) - i32::from(left) + 1).ok() }
    }
}
