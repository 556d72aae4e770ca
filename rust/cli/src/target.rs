//! Where an output goes: standard output, a file, or something that is no file.

use crate::args::{Arguments, STANDARD};
use crate::failure::Failure;
use crate::options::OUTPUT;
use std::ffi::OsStr;
use std::fmt;
use std::fs;
use std::io::{self, IsTerminal};
use std::path::{Path, PathBuf};

/// Where an output goes.
#[derive(PartialEq)]
pub enum Target {
    Standard,
    /// A file that is there or will be, by its full name.
    File(PathBuf),
    /// Something that is there and is no file, such as a device: it is written where it stands.
    Device(PathBuf),
}

impl Target {
    /// The target that -o names, standard output if there is none. Raw bytes do not go to a terminal.
    pub fn of(arguments: &Arguments, raw: bool) -> Result<Target, Failure> {
        let target = Target::named(arguments.value(OUTPUT).unwrap_or(OsStr::new(STANDARD)));
        if raw && target == Target::Standard && io::stdout().is_terminal() {
            return Err(Failure::Usage(
                "raw bytes are not written to a terminal: give -o FILE, or pipe them into a program".to_string(),
            ));
        }
        Ok(target)
    }

    pub fn named(name: &OsStr) -> Target {
        let path = Path::new(name);
        match fs::metadata(path) {
            _ if name == STANDARD => Target::Standard,
            Ok(found) if !found.is_file() => Target::Device(path.to_path_buf()),
            // A link stays a link: what it leads to is replaced, or made if it is not there.
            Ok(_) => Target::File(fs::canonicalize(path).unwrap_or(path.to_path_buf())),
            Err(_) => {
                let path = followed(path);
                Target::File(full_name(&path).unwrap_or(path))
            }
        }
    }
}

impl fmt::Display for Target {
    fn fmt(&self, formatter: &mut fmt::Formatter<'_>) -> fmt::Result {
        match self {
            Target::Standard => formatter.write_str("standard output"),
            Target::File(path) | Target::Device(path) => path.display().fmt(formatter),
        }
    }
}

/// What a path leads to through links, of which no more are followed than the system itself follows.
fn followed(path: &Path) -> PathBuf {
    let mut path = path.to_path_buf();
    for _ in 0..40 {
        let Ok(next) = fs::read_link(&path) else { break };
        path = directory(&path).join(next);
    }
    path
}

fn full_name(path: &Path) -> Option<PathBuf> {
    Some(fs::canonicalize(directory(path)).ok()?.join(path.file_name()?))
}

/// The directory in which a path stands.
pub fn directory(path: &Path) -> &Path {
    path.parent().filter(|parent| !parent.as_os_str().is_empty()).unwrap_or(Path::new("."))
}
