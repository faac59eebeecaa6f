//! Writing to standard output and to files.
use crate::Failure;
use crate::arguments::Place;
use std::ffi::OsString;
use std::fs::{self, File, Permissions};
use std::io::{self, BufWriter, ErrorKind, Write};
use std::path::{Path, PathBuf};
use std::process;

pub fn to_stdout(write: impl FnOnce(&mut dyn Write) -> io::Result<()>) -> Result<(), Failure> {
    let mut out = BufWriter::with_capacity(1 << 16, io::stdout().lock());
    match write(&mut out).and_then(|()| out.flush()) {
        // A reader that has seen enough, such as 'head', is no fault.
        Err(error) if error.kind() == ErrorKind::BrokenPipe => Ok(()),
        result => result.map_err(|error| Failure::of("standard output", error)),
    }
}

pub fn to(
    place: &Place,
    write: impl FnOnce(&mut dyn Write) -> io::Result<()>,
) -> Result<(), Failure> {
    match place {
        Place::Standard => to_stdout(write),
        Place::File(path) => {
            to_file(path, write).map_err(|error| Failure::of(&path.display().to_string(), error))
        }
    }
}

fn to_file(path: &Path, write: impl FnOnce(&mut dyn Write) -> io::Result<()>) -> io::Result<()> {
    match fs::metadata(path) {
        // A pipe or a device is written to as it is.
        Ok(before) if !before.is_file() => fill(File::create(path)?, write).map(drop),
        Ok(before) if before.permissions().readonly() => Err(ErrorKind::PermissionDenied.into()),
        // The file that a link leads to, and not the link, is replaced.
        Ok(before) => replace(&fs::canonicalize(path)?, Some(before.permissions()), write),
        Err(_) => replace(path, None, write),
    }
}

/// Writes a file under another name and then gives it its own: what was there before, perhaps the
/// join's own input, is replaced only by a whole file that is on the disk, with its permissions.
fn replace(
    path: &Path,
    permissions: Option<Permissions>,
    write: impl FnOnce(&mut dyn Write) -> io::Result<()>,
) -> io::Result<()> {
    let part = part_of(path);
    let file = File::create_new(&part)?;
    permissions
        .map_or(Ok(()), |permissions| file.set_permissions(permissions))
        .and_then(|()| fill(file, write)?.sync_all())
        .and_then(|()| fs::rename(&part, path))
        .inspect_err(|_| {
            // The error at hand matters more than one of cleaning up.
            let _ = fs::remove_file(&part);
        })
}

fn fill(file: File, write: impl FnOnce(&mut dyn Write) -> io::Result<()>) -> io::Result<File> {
    let mut out = BufWriter::with_capacity(1 << 16, file);
    write(&mut out)?;
    Ok(out.into_inner()?)
}

/// A name that no other process takes.
fn part_of(path: &Path) -> PathBuf {
    let mut name = OsString::from(path);
    name.push(format!(".{}.part", process::id()));
    name.into()
}
