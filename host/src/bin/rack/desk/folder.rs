//! The files of a desk's folder: their names, who may read and write them, and how they come to be there whole.

use super::clock::Since;
use crate::Failure;
use std::fs::{self, File, Metadata, Permissions};
use std::io::{self, ErrorKind, Read, Write};
use std::os::unix::fs::{fchown, MetadataExt, OpenOptionsExt, PermissionsExt};
use std::path::{Path, PathBuf};

const OTHERS_MAY_WRITE: u32 = 0o002;
/// Of the folder's mode, what a file can have.
const FILE_MODE: u32 = 0o666;

#[derive(Clone)]
pub struct Folder {
    pub path: PathBuf,
    pub others_may_write: bool,
    mode: u32,
    group: u32,
}

/// What cannot be done with a file, and why.
pub fn failed(path: &Path, what: &str) -> impl Fn(io::Error) -> Failure {
    let path = path.display().to_string();
    let what = what.to_string();
    move |e| format!("{path} cannot be {what}: {e}")
}

impl Folder {
    /// A folder that is there, with the mode and the group that its files take.
    pub fn at(path: &Path) -> Result<Folder, Failure> {
        let found = fs::metadata(path).map_err(|e| match e.kind() {
            ErrorKind::NotFound => format!("there is no folder {}: 'rack {0} open' makes one", path.display()),
            _ => failed(path, "read")(e),
        })?;
        if !found.is_dir() {
            return Err(format!("{} is no folder", path.display()));
        }
        let others_may_write = found.mode() & OTHERS_MAY_WRITE != 0;
        Ok(Folder { path: path.to_owned(), others_may_write, mode: found.mode() & FILE_MODE, group: found.gid() })
    }

    pub fn desk(&self, number: u64) -> PathBuf {
        self.path.join(format!("desk-{number}"))
    }

    pub fn calls(&self, number: u64) -> PathBuf {
        self.path.join(format!("calls-{number}"))
    }

    pub fn lock(&self) -> PathBuf {
        self.path.join("lock")
    }

    pub fn settings(&self) -> PathBuf {
        self.path.join("settings")
    }

    /// The numbers of the files whose names begin so, in their order.
    pub fn numbers(&self, name: &str) -> Result<Vec<u64>, Failure> {
        let mut numbers = Vec::new();
        for entry in fs::read_dir(&self.path).map_err(failed(&self.path, "read"))? {
            let entry = entry.map_err(failed(&self.path, "read"))?;
            let file = entry.file_name();
            let number = file.to_str().and_then(|file| file.strip_prefix(name)).and_then(number);
            numbers.extend(number);
        }
        numbers.sort();
        Ok(numbers)
    }

    /// The highest of the desks. A desk has its name once it is whole, and not before: so one that is there is.
    pub fn last(&self) -> Result<u64, Failure> {
        let last = self.numbers("desk-")?.pop();
        last.ok_or_else(|| format!("{} has no desk: it is no folder of a rack", self.path.display()))
    }

    /// The bytes of a file.
    pub fn read(&self, path: &Path) -> Result<Vec<u8>, Failure> {
        let mut bytes = Vec::new();
        File::open(path).and_then(|mut file| file.read_to_end(&mut bytes)).map_err(failed(path, "read"))?;
        Ok(bytes)
    }

    /// Makes a file. One of this name is what a command left that was killed, perhaps another's, and goes.
    pub fn create(&self, path: &Path) -> Result<File, Failure> {
        let make = || File::options().write(true).create_new(true).mode(self.mode).open(path);
        let made = match make() {
            Err(e) if e.kind() == ErrorKind::AlreadyExists => fs::remove_file(path).and_then(|()| make()),
            made => made,
        };
        let file = made.map_err(failed(path, "made"))?;
        self.hand_over(&file).map_err(failed(path, "made"))?;
        Ok(file)
    }

    /// A file takes the folder's group and mode. Whoever is not of that group cannot give it, and need not.
    fn hand_over(&self, file: &File) -> io::Result<()> {
        let found = file.metadata()?;
        if found.gid() != self.group {
            match fchown(file, None, Some(self.group)) {
                Err(e) if e.kind() != ErrorKind::PermissionDenied => return Err(e),
                _ => {}
            }
        }
        if found.mode() & FILE_MODE != self.mode {
            file.set_permissions(Permissions::from_mode(self.mode))?;
        }
        Ok(())
    }

    /// Whether a file has another group or mode: the folder's were changed since.
    fn differs(&self, found: &Metadata) -> bool {
        found.gid() != self.group || found.mode() & FILE_MODE != self.mode
    }

    /// The same of a file that was there before. It is for its owner to do.
    pub fn hand_over_own(&self, path: &Path) -> Result<(), Failure> {
        let found = fs::metadata(path).map_err(failed(path, "read"))?;
        if !self.differs(&found) {
            return Ok(());
        }
        match File::open(path).and_then(|file| self.hand_over(&file)) {
            Err(e) if e.kind() != ErrorKind::PermissionDenied => Err(failed(path, "handed over")(e)),
            _ => Ok(()),
        }
    }

    /// And of all files, where the lock tells that the folder's group or mode was changed.
    pub fn hand_over_all(&self, lock: &Metadata) -> Result<(), Failure> {
        if !self.differs(lock) {
            return Ok(());
        }
        for entry in fs::read_dir(&self.path).map_err(failed(&self.path, "read"))? {
            self.hand_over_own(&entry.map_err(failed(&self.path, "read"))?.path())?;
        }
        Ok(())
    }

    /// A file that is there with all of its bytes or not at all: written under another name, flushed and renamed. It is there for good once
    /// the folder is flushed.
    pub fn write_whole(&self, path: &Path, bytes: &[u8]) -> Result<(), Failure> {
        let other = path.with_extension("new");
        let written = self.create(&other).and_then(|mut file| {
            file.write_all(bytes).and_then(|()| file.sync_all()).map_err(failed(&other, "written"))?;
            fs::rename(&other, path).map_err(failed(path, "renamed into place"))
        });
        if written.is_err() {
            let _ = fs::remove_file(&other);
        }
        written
    }

    /// What was made, renamed and removed in it stays so.
    pub fn flush(&self) -> Result<(), Failure> {
        flush(&self.path)
    }

    /// And that the folder itself is there. Whoever opened it flushed that too, unless it was killed just then; one who may not read the parent
    /// leaves it at that.
    pub fn flush_with_parent(&self) -> Result<(), Failure> {
        self.flush()?;
        let path = self.path.canonicalize().map_err(failed(&self.path, "read"))?;
        let parent = Folder::parent(&path);
        match File::open(parent) {
            Err(e) if e.kind() == ErrorKind::PermissionDenied => Ok(()),
            opened => opened.and_then(|parent| parent.sync_all()).map_err(failed(parent, "flushed")),
        }
    }

    /// The folder that this one stands in.
    pub fn parent(path: &Path) -> &Path {
        match path.parent() {
            Some(parent) if !parent.as_os_str().is_empty() => parent,
            _ => Path::new("."),
        }
    }

    /// Since when the desk follows the clock, if it does.
    pub fn since(&self) -> Result<Option<Since>, Failure> {
        let (path, text) = (self.settings(), self.read(&self.settings())?);
        let damaged = || format!("{} is damaged: it has one line, 'since' with a time and a minute, or with '-'", path.display());
        let line = std::str::from_utf8(&text).ok().and_then(|text| text.strip_suffix('\n')).ok_or_else(damaged)?;
        match line.split('\t').collect::<Vec<_>>()[..] {
            ["since", "-"] => Ok(None),
            ["since", time, minute] => {
                let since = minute.parse().ok().and_then(|minute| Since::new(time, minute).ok()).ok_or_else(damaged)?;
                // What rack would not write, it did not.
                if format!("since\t{}", since.fields()) != line {
                    return Err(damaged());
                }
                Ok(Some(since))
            }
            _ => Err(damaged()),
        }
    }
}

/// The line of a settings file.
pub fn settings_line(since: &Option<Since>) -> String {
    match since {
        Some(since) => format!("since\t{}\n", since.fields()),
        None => "since\t-\n".to_string(),
    }
}

pub fn flush(folder: &Path) -> Result<(), Failure> {
    File::open(folder).and_then(|folder| folder.sync_all()).map_err(failed(folder, "flushed"))
}

/// As it is written: no leading zero.
fn number(text: &str) -> Option<u64> {
    text.parse().ok().filter(|number: &u64| *number > 0 && number.to_string() == text)
}

/// What tells one file from another, whatever their names.
pub fn identity(found: &Metadata) -> (u64, u64) {
    (found.dev(), found.ino())
}
