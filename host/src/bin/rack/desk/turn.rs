//! Whose turn it is: one lock file, held for as long as a command reads and writes the folder.

use super::folder::{failed, identity, Folder};
use super::system::asked_to_end;
use crate::Failure;
use std::fs::{self, File, TryLockError};
use std::io::{self, ErrorKind};
use std::os::unix::fs::MetadataExt;
use std::path::Path;
use std::rc::Rc;
use std::sync::mpsc::{channel, RecvTimeoutError};
use std::time::Duration;

/// After so long it is said who holds the lock.
const PATIENCE: Duration = Duration::from_secs(5);

/// The lock file of a folder, open.
pub struct Lock {
    folder: Folder,
    file: Rc<File>,
    identity: (u64, u64),
}

/// The turn of this process, over once it is dropped. The system ends it too, however the process ends.
pub struct Turn {
    lock: Rc<File>,
}

impl Drop for Turn {
    fn drop(&mut self) {
        let _ = self.lock.unlock();
    }
}

impl Lock {
    pub fn open(folder: &Folder) -> Result<Lock, Failure> {
        let path = folder.lock();
        if !path.exists() {
            // It is not made again by itself: whoever removed it may have done so while another had its turn.
            folder.last()?;
            return Err(format!("{0} is missing: once no other command runs, 'touch {0}' makes it again", path.display()));
        }
        let file = opened(&path).map_err(failed(&path, "opened"))?;
        let found = file.metadata().map_err(failed(&path, "read"))?;
        folder.hand_over_all(&found)?;
        Ok(Lock { folder: folder.clone(), file: Rc::new(file), identity: identity(&found) })
    }

    /// None where the process was asked to end while it waited.
    pub fn take_unless_asked(&mut self) -> Result<Option<Turn>, Failure> {
        match self.take() {
            Err(_) if asked_to_end() => Ok(None),
            taken => taken.map(Some),
        }
    }

    pub fn take(&mut self) -> Result<Turn, Failure> {
        let path = self.folder.lock();
        loop {
            match self.file.try_lock() {
                Ok(()) => {}
                Err(TryLockError::WouldBlock) => waited(&self.file, &self.folder).map_err(failed(&path, "locked"))?,
                Err(TryLockError::Error(e)) => return Err(failed(&path, "locked")(e)),
            }
            let turn = Turn { lock: self.file.clone() };
            // The folder may have been put away and made anew meanwhile, with another lock.
            let named = fs::metadata(&path).map_err(failed(&path, "read"))?;
            if identity(&named) == self.identity {
                return Ok(turn);
            }
            drop(turn);
            *self = Lock::open(&self.folder)?;
        }
    }
}

/// Some systems lock only what can be written; whoever may only read can audit.
fn opened(path: &Path) -> io::Result<File> {
    match File::options().read(true).write(true).open(path) {
        Err(e) if [ErrorKind::PermissionDenied, ErrorKind::ReadOnlyFilesystem].contains(&e.kind()) => File::open(path),
        opened => opened,
    }
}

/// Waits for the lock; a thread beside says who holds it, if it takes long.
fn waited(lock: &File, folder: &Folder) -> io::Result<()> {
    let found = lock.metadata()?;
    std::thread::scope(|threads| {
        let (done, waits) = channel::<()>();
        threads.spawn(move || {
            if waits.recv_timeout(PATIENCE) == Err(RecvTimeoutError::Timeout) {
                eprintln!("rack: {} is held by {}; waiting for its turn", folder.lock().display(), holder(&found));
            }
        });
        let locked = loop {
            match lock.lock() {
                Err(e) if e.kind() == ErrorKind::Interrupted && !asked_to_end() => {}
                locked => break locked,
            }
        };
        drop(done);
        locked
    })
}

/// The process that holds the lock, as the system tells.
fn holder(lock: &fs::Metadata) -> String {
    let locks = fs::read_to_string("/proc/locks").unwrap_or_default();
    // Where a file system lies over another, the device is not always that of the file.
    let found = [true, false].into_iter().find_map(|exact| locks.lines().find_map(|line| process(line, lock, exact)));
    let Some(process) = found else {
        return "a process that cannot be seen from here".to_string();
    };
    let folder = Path::new("/proc").join(&process);
    let line = fs::read(folder.join("cmdline")).unwrap_or_default();
    let command: Vec<_> = line.split(|byte| *byte == 0).filter(|part| !part.is_empty()).map(String::from_utf8_lossy).collect();
    let user = fs::metadata(folder).map(|found| user(found.uid())).unwrap_or_default();
    format!("process {process} of {user} ({})", command.join(" "))
}

/// Of a line of /proc/locks, as `1: FLOCK  ADVISORY  WRITE 4711 fd:01:131 0 EOF`, the process if it holds this lock. A line of one that waits
/// has `->` before its kind.
fn process(line: &str, lock: &fs::Metadata, exact: bool) -> Option<String> {
    let fields: Vec<&str> = line.split_whitespace().collect();
    let [_, "FLOCK", _, _, process, file, ..] = fields[..] else {
        return None;
    };
    let (device, number) = file.rsplit_once(':')?;
    let of_this_device = || device == format!("{:02x}:{:02x}", lock.dev() >> 8 & 0xfff, lock.dev() & 0xff | lock.dev() >> 12 & 0xfff00);
    (number.parse() == Ok(lock.ino()) && (!exact || of_this_device())).then(|| process.to_string())
}

/// The name of a user, or its number.
fn user(number: u32) -> String {
    let users = fs::read_to_string("/etc/passwd").unwrap_or_default();
    let named = users.lines().find_map(|line| {
        let fields: Vec<&str> = line.split(':').collect();
        (fields.len() > 2 && fields[2] == number.to_string()).then(|| fields[0].to_string())
    });
    named.unwrap_or_else(|| format!("user {number}"))
}
