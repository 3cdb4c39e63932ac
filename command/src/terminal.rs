//! The columns of the terminal.

use std::io::{self, IsTerminal};
use std::os::fd::AsRawFd;

/// The width of text that goes to no terminal.
pub const OTHERWISE: usize = 100;

/// What the kernel says of a terminal's size, in `struct winsize`.
#[repr(C)]
#[derive(Default)]
struct Size {
    rows: u16,
    columns: u16,
    pixels: [u16; 2],
}

/// Linux's request for it.
const TIOCGWINSZ: std::ffi::c_ulong = 0x5413;

extern "C" {
    fn ioctl(fd: i32, request: std::ffi::c_ulong, ...) -> i32;
}

/// The columns of the terminal that standard output is: as the kernel says, else as COLUMNS says. 100
/// where standard output is no terminal.
pub fn columns() -> usize {
    let out = io::stdout();
    if !out.is_terminal() {
        return OTHERWISE;
    }
    let mut size = Size::default();
    // SAFETY: TIOCGWINSZ writes a `struct winsize`, which `Size` is, through the pointer.
    let answer = unsafe { ioctl(out.as_raw_fd(), TIOCGWINSZ, &mut size as *mut Size) };
    if answer == 0 && size.columns > 0 {
        return usize::from(size.columns);
    }
    let told = std::env::var("COLUMNS").ok().and_then(|columns| columns.trim().parse().ok());
    told.filter(|columns| (1..=sefgrunn::MOST_WIDTH).contains(columns)).unwrap_or(OTHERWISE)
}
