//! What is read and written: files, standard input, standard output.

use std::ffi::OsStr;
use std::fs::{self, File};
use std::io::{self, ErrorKind, Read, Write};
use std::path::{Path, PathBuf};

use crate::Fault;

/// A name or a text for a message: control characters and bytes that are no UTF-8 are escaped.
pub fn shown(name: &OsStr) -> String {
    let mut shown = String::new();
    for part in name.as_encoded_bytes().utf8_chunks() {
        for c in part.valid().chars() {
            if c.is_control() {
                shown.extend(c.escape_default());
            } else {
                shown.push(c);
            }
        }
        shown.extend(part.invalid().iter().map(|byte| format!("\\x{byte:02x}")));
    }
    shown
}

/// The name of an input for a message.
pub fn name(path: &OsStr) -> String {
    if path == "-" {
        return "standard input".into();
    }
    shown(path)
}

/// What went wrong, without the system's number for it.
fn reason(error: &io::Error) -> String {
    let text = error.to_string();
    match text.find(" (os error ") {
        Some(at) => text[..at].to_lowercase(),
        None => text,
    }
}

fn failed(name: &str, error: &io::Error) -> Fault {
    Fault::failed(format!("{name}: {}", reason(error)))
}

/// The bytes of a file, or of standard input for `-`: all of them, or the first `most` and one more, which
/// is enough to see that there are too many.
pub fn read(path: &OsStr, most: usize) -> Result<Vec<u8>, Fault> {
    let mut bytes = Vec::new();
    let limit = most as u64 + 1;
    let done = if path == "-" {
        io::stdin().lock().take(limit).read_to_end(&mut bytes)
    } else {
        File::open(path).and_then(|file| file.take(limit).read_to_end(&mut bytes))
    };
    match done {
        Ok(_) => Ok(bytes),
        Err(error) => Err(failed(&name(path), &error)),
    }
}

/// Writes to a file, or to standard output where none or `-` is named. A closed pipe is no failure: its
/// reader has seen enough.
pub fn write(path: Option<&OsStr>, bytes: &[u8]) -> Result<(), Fault> {
    match path {
        Some(path) if path != "-" => replace(Path::new(path), bytes),
        _ => {
            let mut out = io::stdout().lock();
            match out.write_all(bytes).and_then(|()| out.flush()) {
                Err(error) if error.kind() != ErrorKind::BrokenPipe => {
                    Err(failed("standard output", &error))
                }
                _ => Ok(()),
            }
        }
    }
}

/// Writes a file beside the one named and renames it, so that a run that fails leaves the old file as it
/// was. What is no regular file, as a device or a pipe, is written in its place.
fn replace(path: &Path, bytes: &[u8]) -> Result<(), Fault> {
    let told = |error| failed(&shown(path.as_os_str()), &error);
    // a link stays: what it leads to is replaced
    let target = fs::canonicalize(path).unwrap_or_else(|_| path.to_path_buf());
    let old = fs::metadata(&target).ok();
    if old.as_ref().is_some_and(|old| !old.is_file()) {
        return File::options()
            .write(true)
            .open(&target)
            .and_then(|mut f| f.write_all(bytes))
            .map_err(told);
    }
    let beside = beside(&target).map_err(told)?;
    let written = File::options()
        .write(true)
        .create_new(true)
        .open(&beside)
        .and_then(|mut file| {
            file.write_all(bytes)?;
            if let Some(old) = &old {
                file.set_permissions(old.permissions())?;
            }
            file.sync_all()
        })
        .and_then(|()| fs::rename(&beside, &target));
    written.map_err(|error| {
        let _ = fs::remove_file(&beside);
        told(error)
    })
}

/// A name in the same folder that no file should have.
fn beside(target: &Path) -> io::Result<PathBuf> {
    let Some(name) = target.file_name() else {
        return Err(io::Error::new(ErrorKind::InvalidInput, "no name of a file"));
    };
    let mut new = std::ffi::OsString::from(".");
    new.push(name);
    new.push(format!(".{}.new", std::process::id()));
    Ok(target.with_file_name(new))
}
