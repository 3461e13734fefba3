//! "Whoever may write the folder may call: files take the folder's group and mode, and a folder that others may write is refused unless
//! `--shared` is said"; "a second command waits for its turn, and after 5 seconds says who holds it".

use crate::common::folders::Place;
use crate::common::program::Ended;
use std::fs::{self, File, Permissions};
use std::io::{BufRead, BufReader};
use std::os::unix::fs::{chown, MetadataExt, PermissionsExt};
use std::os::unix::process::CommandExt;
use std::process::{Command, Stdio};
use std::time::Instant;

/// What a folder's group and mode mean for its files and for others, and what is said of who holds the lock.
pub fn groups_modes_and_turns() -> String {
    let place = Place::new("modes");
    let desk = place.desk();
    desk.taken(&["open", "promise", "10"]);
    let is_root = fs::metadata("/proc/self").unwrap().uid() == 0;
    let mut modes = 0;
    for mode in [0o700, 0o750, 0o770, 0o775, 0o2770] {
        fs::set_permissions(&desk.path, Permissions::from_mode(mode)).unwrap();
        if is_root {
            chown(&desk.path, None, Some(4_711 + mode)).unwrap();
        }
        let group = fs::metadata(&desk.path).unwrap().gid();
        desk.taken(&["wait", "1"]);
        desk.taken(&["close"]);
        for entry in fs::read_dir(&desk.path).unwrap() {
            let entry = entry.unwrap();
            let found = entry.metadata().unwrap();
            assert_eq!((found.mode() & 0o777, found.gid()), (mode & 0o666, group), "{:?} in {mode:o}", entry.file_name());
        }
        modes += 1;
    }
    for mode in [0o777, 0o772, 0o1777] {
        fs::set_permissions(&desk.path, Permissions::from_mode(mode)).unwrap();
        let before = desk.bytes("calls-6");
        for arguments in [&["wait", "1"][..], &["board"], &["audit"], &["follow"], &[]] {
            let ended = desk.run(arguments);
            assert_eq!((ended.status, ended.output.as_str()), (Some(1), ""));
            assert!(ended.error.contains("others may write") && ended.error.contains("--shared"), "{}", ended.error);
        }
        assert_eq!(desk.bytes("calls-6"), before);
        desk.taken(&["wait", "1", "--shared"]);
        modes += 1;
    }
    // A lock that is missing is not made again by itself.
    fs::remove_file(desk.file("lock")).unwrap();
    let ended = desk.run(&["wait", "1", "--shared"]);
    assert_eq!(ended.status, Some(3));
    assert!(ended.error.contains("lock is missing"), "{}", ended.error);
    File::create(desk.file("lock")).unwrap();
    desk.taken(&["wait", "1", "--shared"]);
    let groups = if is_root { "groups and modes" } else { "modes, and not groups, which only root can give," };
    format!("{groups} of {modes} folders; {}; {}", a_reader(is_root), who_holds_it())
}

/// Whoever may only read can audit, and cannot call.
fn a_reader(is_root: bool) -> String {
    if !is_root {
        return "a reader was not tested, since only root can be another".to_string();
    }
    // Below a folder that everybody may enter.
    let place = Place { path: std::env::temp_dir().join(format!("rack-reader-{}", std::process::id())) };
    fs::create_dir(&place.path).unwrap();
    fs::set_permissions(&place.path, Permissions::from_mode(0o755)).unwrap();
    let program = place.path.join("program");
    fs::copy(env!("CARGO_BIN_EXE_rack"), &program).unwrap();
    let desk = place.desk();
    desk.taken(&["open", "promise", "10"]);
    fs::set_permissions(&desk.path, Permissions::from_mode(0o755)).unwrap();
    desk.taken(&["wait", "1"]);
    let as_reader = |arguments: &[&str]| {
        let mut command = Command::new(&program);
        Ended::of(command.arg(&desk.path).args(arguments).uid(65_534).gid(65_534).stdin(Stdio::null()).stdout(Stdio::piped()))
    };
    let audited = as_reader(&["audit"]);
    assert_eq!((audited.status, audited.output.as_str()), (Some(0), "ok\t1\n"), "{}", audited.error);
    for arguments in [&["wait", "1"][..], &["close"]] {
        let ended = as_reader(arguments);
        assert_eq!((ended.status, ended.output.as_str()), (Some(3), ""), "{}", ended.error);
    }
    assert_eq!(desk.journal(), ["wait\t1"]);
    "a reader audits and cannot call".to_string()
}

/// A second command waits for its turn, and after 5 seconds says who holds the lock.
fn who_holds_it() -> String {
    let place = Place::new("turns");
    let desk = place.desk();
    desk.taken(&["open", "promise", "10"]);
    let lock = File::open(desk.file("lock")).unwrap();
    lock.lock().unwrap();
    let began = Instant::now();
    let mut child = desk.command(&["wait", "1"]).stderr(Stdio::piped()).spawn().unwrap();
    let mut error = BufReader::new(child.stderr.take().unwrap());
    let mut said = String::new();
    error.read_line(&mut said).unwrap();
    let waited = began.elapsed();
    assert!(said.contains(&format!("process {} of ", std::process::id())), "{said}");
    assert!((5.0..8.0).contains(&waited.as_secs_f64()), "{waited:?}");
    assert_eq!(child.try_wait().unwrap(), None);
    assert_eq!(desk.journal(), Vec::<String>::new());
    drop(lock);
    assert_eq!(child.wait().unwrap().code(), Some(0));
    assert_eq!(desk.journal(), ["wait\t1"]);
    "after 5 seconds it is said who holds the lock".to_string()
}
