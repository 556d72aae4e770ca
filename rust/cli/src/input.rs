//! Reading, never further than one byte past the library's limit: so an endless input ends, and the library itself refuses what is too long.

use crate::args::{Arguments, STANDARD};
use crate::failure::Failure;
use crate::hex;
use crate::options::Form;
use std::ffi::OsStr;
use std::fs::File;
use std::hint::black_box;
use std::io::{self, Read};
use std::ops::{Deref, DerefMut};
use std::os::fd::AsFd;
use std::os::unix::ffi::OsStrExt;

/// The most white space that is passed over in a file of hexadecimal digits, so that an endless one ends.
const WHITE_SPACE: usize = 65_536;

/// Bytes that are overwritten with zeros when they are no longer needed.
pub struct Secret(Vec<u8>);

impl Secret {
    pub fn zeros(length: usize) -> Secret {
        Secret(vec![0; length])
    }

    /// Takes the bytes from a place on away.
    pub fn split_off(&mut self, place: usize) -> Secret {
        let end = Secret(self.0[place..].to_vec());
        self.0[place..].fill(0);
        self.0.truncate(place);
        end
    }
}

impl Deref for Secret {
    type Target = [u8];
    fn deref(&self) -> &[u8] {
        &self.0
    }
}

impl DerefMut for Secret {
    fn deref_mut(&mut self) -> &mut [u8] {
        &mut self.0
    }
}

impl Drop for Secret {
    fn drop(&mut self) {
        self.0.fill(0);
        // The compiler has to take it that the zeros are read.
        black_box(&self.0);
    }
}

/// A file, or standard input, that is read up to one byte past a limit.
pub struct Reader {
    name: String,
    file: io::Take<File>,
    most: usize,
}

impl Reader {
    pub fn open(name: &OsStr, limit: usize) -> Result<Reader, Failure> {
        let file = if name == STANDARD {
            // Not through the buffer of std::io::stdin, which would keep a copy of a key.
            io::stdin().as_fd().try_clone_to_owned().map(File::from)
        } else {
            File::open(name)
        };
        match file {
            Ok(file) => Ok(Reader {
                name: shown(name),
                file: file.take(limit as u64 + 1),
                most: limit + 1,
            }),
            Err(error) => Err(Failure::File(shown(name), error)),
        }
    }

    /// The next bytes, as many as are there: none at the end.
    pub fn read(&mut self, piece: &mut [u8]) -> Result<usize, Failure> {
        loop {
            match self.file.read(piece) {
                Err(error) if error.kind() == io::ErrorKind::Interrupted => continue,
                read => return read.map_err(|error| Failure::File(self.name.clone(), error)),
            }
        }
    }

    /// All the bytes to the end, or to one past the limit.
    pub fn whole(mut self) -> Result<Secret, Failure> {
        // All the room at once: a vector that grows leaves copies of a key behind.
        let mut bytes = Secret::zeros(self.most);
        let mut length = 0;
        loop {
            match self.read(&mut bytes[length..])? {
                0 => break,
                read => length += read,
            }
        }
        bytes.0.truncate(length);
        Ok(bytes)
    }
}

/// A file's name as it is shown to people.
pub fn shown(name: &OsStr) -> String {
    if name == STANDARD {
        "standard input".to_string()
    } else {
        name.to_string_lossy().into_owned()
    }
}

/// The bytes that stand in a file.
pub fn file(name: &OsStr, limit: usize) -> Result<Secret, Failure> {
    Reader::open(name, limit)?.whole()
}

/// The name of the file that is a command's last operand, at this place.
pub fn operand(arguments: &Arguments, place: usize) -> &OsStr {
    arguments.operand(place).unwrap_or(OsStr::new(STANDARD))
}

/// The bytes that an option stands for, in whichever form it was given: none if it was not.
pub fn option(arguments: &Arguments, name: &str, limit: usize) -> Result<Secret, Failure> {
    let Some((word, form, value)) = arguments.option(name) else {
        return Ok(Secret::zeros(0));
    };
    match form {
        Form::Flag | Form::Plain => Ok(Secret(value.as_bytes().to_vec())),
        Form::File => file(value, limit),
        Form::HexFile => hex_file(value, limit),
        Form::Hex => match hex::decode(value.as_bytes(), limit + 1) {
            Some(bytes) => Ok(Secret(bytes)),
            None => Err(Failure::Usage(format!("{word} has to be followed by hexadecimal digits in pairs"))),
        },
    }
}

fn hex_file(name: &OsStr, limit: usize) -> Result<Secret, Failure> {
    let longest = 2 * (limit + 1) + WHITE_SPACE;
    let text = file(name, longest)?;
    let malformed = |what: &str| Err(Failure::Malformed(format!("{}: {what}", shown(name))));
    match hex::decode(&text, limit + 1).map(Secret) {
        None => malformed("not hexadecimal digits in pairs"),
        Some(bytes) if text.len() > longest && bytes.len() <= limit => malformed("too much white space among the hexadecimal digits"),
        Some(bytes) => Ok(bytes),
    }
}
