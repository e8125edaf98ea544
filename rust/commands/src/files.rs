//! What the commands do with files: they read no more of one than is needed, and
//! overwrite none.

use std::fs::{self, File, OpenOptions};
use std::io::{self, Read, Write};
use std::path::Path;

/// A file's bytes, but no more than tell that it is longer than the longest of its
/// kind.
pub fn read(path: &Path, longest: usize) -> io::Result<Vec<u8>> {
    let enough = longest as u64 + 1;
    let mut bytes = Vec::new();
    File::open(path)?.take(enough).read_to_end(&mut bytes)?;
    Ok(bytes)
}

/// What became of bytes that were to be put into a file.
pub enum Put {
    Written,
    /// They are there already.
    There,
}

/// Why they were not put.
pub enum NotPut {
    /// There is a file of this name, with other bytes.
    OtherThere,
    NotWritten(io::Error),
}

/// Puts bytes into a new file. One that is there is left as it is.
pub fn put(path: &Path, bytes: &[u8]) -> Result<Put, NotPut> {
    let opened = OpenOptions::new().write(true).create_new(true).open(path);
    let mut file = match opened {
        Ok(file) => file,
        Err(error) if error.kind() == io::ErrorKind::AlreadyExists => {
            return match read(path, bytes.len()) {
                Ok(there) if there == bytes => Ok(Put::There),
                _ => Err(NotPut::OtherThere),
            };
        }
        Err(error) => return Err(NotPut::NotWritten(error)),
    };
    match file.write_all(bytes) {
        Ok(()) => Ok(Put::Written),
        Err(error) => {
            // half a file is worse than none; if it stays, the error says so
            let _ = fs::remove_file(path);
            Err(NotPut::NotWritten(error))
        }
    }
}
