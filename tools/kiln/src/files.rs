//! Reading a file or standard input, and writing standard output or a file,
//! which is then whole or not there.

use crate::library::TEXT;
use crate::standard;
use crate::status::Failure;
use std::fs::{self, File, OpenOptions};
use std::io::{self, Read, Write};
use std::os::fd::AsFd;
use std::path::{Path, PathBuf};
use std::process;

/// The name that stands for standard input or standard output.
pub const STANDARD: &str = "-";
/// Longer than any source that makes an image, and than a HEX text with a record
/// for each byte; and short enough to be kept.
const LONGEST: u64 = 16 << 20;
/// So many names are tried for a temporary file.
const NAMES: u32 = 100;

/// What messages call a file.
pub fn name_of(name: &str) -> &str {
    if name == STANDARD {
        "standard input"
    } else {
        name
    }
}

/// The whole file.
pub fn read(name: &str) -> Result<Vec<u8>, Failure> {
    let bytes = read_at_most(name, LONGEST + 1)?;
    if bytes.len() as u64 > LONGEST {
        return Err(Failure::refused(format!("{}: longer than {LONGEST} bytes", name_of(name))));
    }
    Ok(bytes)
}

/// An image's text. Of one that is too long just enough is read that the loader
/// refuses it.
pub fn read_image(name: &str) -> Result<Vec<u8>, Failure> {
    read_at_most(name, TEXT as u64 + 1)
}

fn read_at_most(name: &str, most: u64) -> Result<Vec<u8>, Failure> {
    let mut bytes = Vec::new();
    let read = open(name).and_then(|file| file.take(most).read_to_end(&mut bytes));
    read.map_err(|error| cannot("read", name_of(name), &error))?;
    Ok(bytes)
}

fn open(name: &str) -> io::Result<File> {
    match name {
        STANDARD if standard::input_is_closed() => Err(closed()),
        STANDARD => Ok(File::from(io::stdin().as_fd().try_clone_to_owned()?)),
        _ => File::open(name),
    }
}

/// Standard output as a file: its errors are told, none is passed over.
pub fn standard_output() -> Result<File, Failure> {
    let descriptor = match standard::output_is_closed() {
        true => Err(closed()),
        false => io::stdout().as_fd().try_clone_to_owned(),
    };
    descriptor.map(File::from).map_err(|error| output_failed(&error))
}

pub fn output_failed(error: &io::Error) -> Failure {
    cannot("written", "standard output", error)
}

fn closed() -> io::Error {
    io::Error::other("it is closed")
}

fn cannot(what: &str, name: &str, error: &io::Error) -> Failure {
    Failure::failed(format!("kiln: {name} can't be {what}: {error}"))
}

/// Writes to standard output, or with a name to that file.
pub fn write(output: Option<&str>, bytes: &[u8]) -> Result<(), Failure> {
    match output {
        None | Some(STANDARD) => {
            standard_output()?.write_all(bytes).map_err(|error| output_failed(&error))
        }
        Some(name) => write_file(name, bytes).map_err(|error| cannot("written", name, &error)),
    }
}

/// A file that is there and is no regular one, such as a device or a pipe, is
/// written as it is: another in its place would be no device.
fn write_file(name: &str, bytes: &[u8]) -> io::Result<()> {
    match fs::metadata(name) {
        Ok(there) if !there.is_file() => {
            OpenOptions::new().write(true).open(name)?.write_all(bytes)
        }
        Ok(there) => {
            let path = fs::canonicalize(name)?;
            replace(&path, bytes, Some(there.permissions()))
        }
        Err(_) => replace(Path::new(name), bytes, None),
    }
}

/// A temporary file in the same folder gets the bytes and then the name. What
/// fails leaves the file that was there, and no temporary one.
fn replace(path: &Path, bytes: &[u8], permissions: Option<fs::Permissions>) -> io::Result<()> {
    let (temporary, file) = create_beside(path)?;
    let done = fill(file, bytes, permissions).and_then(|()| fs::rename(&temporary, path));
    if done.is_err() {
        let _ = fs::remove_file(&temporary);
    }
    done
}

fn fill(mut file: File, bytes: &[u8], permissions: Option<fs::Permissions>) -> io::Result<()> {
    file.write_all(bytes)?;
    if let Some(permissions) = permissions {
        file.set_permissions(permissions)?;
    }
    // What the system has put off until the close fails here at the latest.
    file.sync_all()
}

fn create_beside(path: &Path) -> io::Result<(PathBuf, File)> {
    let mut last = io::Error::other("no name for a temporary file is free");
    for number in 0..NAMES {
        let temporary = path.with_file_name(format!(".kiln-{}-{number}", process::id()));
        match OpenOptions::new().write(true).create_new(true).open(&temporary) {
            Ok(file) => return Ok((temporary, file)),
            Err(error) if error.kind() != io::ErrorKind::AlreadyExists => return Err(error),
            Err(error) => last = error,
        }
    }
    Err(last)
}
