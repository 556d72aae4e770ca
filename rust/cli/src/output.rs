//! Writing: files that appear whole or not at all, and standard output.

use crate::failure::Failure;
use crate::hex;
use crate::target::{directory, Target};
use std::fs::{self, File, OpenOptions, Permissions};
use std::io::{self, Write};
use std::os::fd::AsFd;
use std::os::unix::fs::{MetadataExt, OpenOptionsExt, PermissionsExt};
use std::path::{Path, PathBuf};
use std::process;

/// What is written, and how.
#[derive(Clone, Copy)]
pub enum Content<'a> {
    /// Bytes as they are.
    Raw(&'a [u8]),
    /// Hexadecimal digits and a line feed.
    Hex(&'a [u8]),
}

impl Content<'_> {
    fn write(self, file: &mut File) -> io::Result<()> {
        match self {
            Content::Raw(bytes) => file.write_all(bytes),
            Content::Hex(bytes) => {
                for part in bytes.chunks(65_536) {
                    file.write_all(hex::encode(part).as_bytes())?;
                }
                file.write_all(b"\n")
            }
        }
    }
}

/// Who may read and write a file that is made.
#[derive(Clone, Copy)]
pub enum Access {
    /// As with the file that it replaces, else as with any new file.
    Usual,
    /// The owner alone, and no more than with the file that it replaces.
    OwnerOnly,
}

/// Who may read, write and run the file in a place; None if there is none.
fn mode(place: &Path) -> io::Result<Option<u32>> {
    match fs::metadata(place) {
        Ok(found) => Ok(Some(found.mode() & 0o777)),
        Err(error) if error.kind() == io::ErrorKind::NotFound => Ok(None),
        Err(error) => Err(error),
    }
}

/// A temporary file that is removed unless it is renamed.
struct Temporary(Option<PathBuf>);

impl Temporary {
    /// Makes the file that is to stand in a place.
    fn create(place: &Path, access: Access) -> io::Result<(Temporary, File)> {
        let replaced = mode(place)?;
        let mode = match access {
            Access::Usual => replaced.unwrap_or(0o666),
            Access::OwnerOnly => replaced.unwrap_or(0o600) & 0o600,
        };
        let (temporary, file) = Temporary::open(directory(place), mode)?;
        // The umask is for new files, and may have narrowed the mode that is to be kept.
        if let (Access::Usual, Some(kept)) = (access, replaced) {
            file.set_permissions(Permissions::from_mode(kept))?;
        }
        Ok((temporary, file))
    }

    fn open(directory: &Path, mode: u32) -> io::Result<(Temporary, File)> {
        let mut attempt = 0;
        loop {
            let path = directory.join(format!(".hailfeather-{}-{attempt}", process::id()));
            match OpenOptions::new().write(true).create_new(true).mode(mode).open(&path) {
                Err(error) if error.kind() == io::ErrorKind::AlreadyExists && attempt < 1_000 => attempt += 1,
                made => return made.map(|file| (Temporary(Some(path)), file)),
            }
        }
    }

    fn rename(&mut self, place: &Path) -> io::Result<()> {
        if let Some(path) = &self.0 {
            fs::rename(path, place)?;
        }
        self.0 = None;
        Ok(())
    }
}

impl Drop for Temporary {
    fn drop(&mut self) {
        if let Some(path) = &self.0 {
            let _ = fs::remove_file(path);
        }
    }
}

/// An output that only has to be put in its place.
enum Prepared<'a> {
    Stream(String, File, Content<'a>),
    File(PathBuf, Temporary),
}

impl<'a> Prepared<'a> {
    fn new(target: &Target, access: Access, content: Content<'a>) -> io::Result<Prepared<'a>> {
        match target {
            Target::Standard => Ok(Prepared::Stream(
                target.to_string(),
                File::from(io::stdout().as_fd().try_clone_to_owned()?),
                content,
            )),
            Target::Device(path) => Ok(Prepared::Stream(target.to_string(), OpenOptions::new().write(true).open(path)?, content)),
            Target::File(path) => {
                let (temporary, mut file) = Temporary::create(path, access)?;
                content.write(&mut file)?;
                file.sync_all()?;
                Ok(Prepared::File(path.clone(), temporary))
            }
        }
    }

    fn put(self) -> Result<(), Failure> {
        match self {
            Prepared::Stream(name, mut file, content) => content.write(&mut file).map_err(|error| Failure::File(name, error)),
            Prepared::File(path, mut temporary) => temporary
                .rename(&path)
                .map_err(|error| Failure::File(path.to_string_lossy().into_owned(), error)),
        }
    }
}

/// Writes every content to its target. No file is put in its place before all are written, and streams come first: where one fails no file appears.
pub fn write(contents: &[(&Target, Content)], access: Access) -> Result<(), Failure> {
    let mut prepared = Vec::new();
    for (target, content) in contents {
        prepared.push(Prepared::new(target, access, *content).map_err(|error| Failure::File(target.to_string(), error))?);
    }
    let (streams, files): (Vec<_>, Vec<_>) = prepared.into_iter().partition(|one| matches!(one, Prepared::Stream(..)));
    streams.into_iter().chain(files).try_for_each(Prepared::put)
}

/// Writes text to standard output.
pub fn text(text: &str) -> Result<(), Failure> {
    write(&[(&Target::Standard, Content::Raw(text.as_bytes()))], Access::Usual)
}
