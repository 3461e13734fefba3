//! The journal of a generation: `calls-N`, the calls that were taken since `desk-N`, a line each. A line is flushed before its answer is
//! printed, so whatever stands after the last byte 10 was never answered.

use super::folder::{failed, identity, Folder};
use crate::Failure;
use std::fs::{self, File};
use std::io::{self, Write};
use std::os::unix::fs::FileExt;
use std::path::PathBuf;

pub struct Journal {
    pub number: u64,
    pub path: PathBuf,
    file: File,
    identity: (u64, u64),
    /// So many lines and bytes this process has played or written.
    pub lines: u64,
    bytes: u64,
    /// Of these, whether some were read that nobody is known to have flushed: whoever wrote them may have been killed before.
    unflushed: bool,
}

/// What stands in a journal past the lines already played.
pub struct News {
    bytes: Vec<u8>,
    /// Of these, up to the last byte 10.
    whole: usize,
}

impl News {
    /// The lines, without the byte that closes each.
    pub fn lines(&self) -> impl Iterator<Item = &[u8]> {
        self.bytes[..self.whole].split_inclusive(|byte| *byte == b'\n').map(|line| &line[..line.len() - 1])
    }

    /// So many bytes after the last line.
    pub fn tail(&self) -> usize {
        self.bytes.len() - self.whole
    }
}

/// What has the journal's name now.
#[derive(PartialEq, Eq)]
pub enum Named {
    /// The file that this process has open, as far as it has played it.
    Same,
    /// That file, with another length.
    Longer,
    Another,
    None,
}

impl Journal {
    /// To be read and written, or to be read alone.
    pub fn open(folder: &Folder, number: u64, writes: bool) -> Result<Journal, Failure> {
        let path = folder.calls(number);
        let opened = File::options().read(true).append(writes).open(&path);
        let file = opened.map_err(failed(&path, if writes { "read and written" } else { "read" }))?;
        let identity = identity(&file.metadata().map_err(failed(&path, "read"))?);
        Ok(Journal { number, path, file, identity, lines: 0, bytes: 0, unflushed: false })
    }

    pub fn named(&self) -> Result<Named, Failure> {
        match fs::metadata(&self.path) {
            Ok(found) if identity(&found) != self.identity => Ok(Named::Another),
            Ok(found) => Ok(if found.len() == self.bytes { Named::Same } else { Named::Longer }),
            Err(e) if e.kind() == io::ErrorKind::NotFound => Ok(Named::None),
            Err(e) => Err(failed(&self.path, "read")(e)),
        }
    }

    /// What was written since it was last read.
    pub fn news(&self) -> Result<News, Failure> {
        let length = self.file.metadata().map_err(failed(&self.path, "read"))?.len();
        let new = length.checked_sub(self.bytes).ok_or_else(|| {
            format!("{} is damaged: {} bytes of it were read before, and it has {length} now", self.path.display(), self.bytes)
        })?;
        let mut bytes = vec![0; new as usize];
        self.file.read_exact_at(&mut bytes, self.bytes).map_err(failed(&self.path, "read"))?;
        let whole = bytes.iter().rposition(|byte| *byte == b'\n').map_or(0, |place| place + 1);
        Ok(News { bytes, whole })
    }

    /// The next line has been played.
    pub fn played(&mut self, line: &[u8]) {
        self.lines += 1;
        self.bytes += line.len() as u64 + 1;
        self.unflushed = true;
    }

    /// Takes off what stands after the lines played, for good: what is written next must not be read together with it.
    pub fn cut(&self) -> io::Result<()> {
        self.file.set_len(self.bytes)?;
        self.file.sync_data()
    }

    /// Writes a line, closed by byte 10, and flushes it. If that fails the line is taken off again.
    pub fn append(&mut self, line: &[u8]) -> Result<(), Failure> {
        let line = [line, b"\n"].concat();
        if let Err(e) = self.file.write_all(&line).and_then(|()| self.file.sync_data()) {
            let failed = failed(&self.path, "written")(e);
            return Err(match self.cut() {
                Ok(()) => format!("{failed}; nothing was changed"),
                Err(e) => format!("{failed}; nor can the call be taken off again ({e}), so that it may be kept"),
            });
        }
        self.lines += 1;
        self.bytes += line.len() as u64;
        self.unflushed = false;
        Ok(())
    }

    /// What was read stays, whoever wrote it: before anything is printed that rests on it.
    pub fn flush(&mut self) -> Result<(), Failure> {
        if self.unflushed {
            self.file.sync_data().map_err(failed(&self.path, "flushed"))?;
            self.unflushed = false;
        }
        Ok(())
    }
}
