//! `rack DIR page --to FILE` beside other commands: a whole page in each minute, until SIGTERM.

use super::desks::{InFolder, DESKS};
use std::fs;
use std::path::{Path, PathBuf};
use std::process::{Child, Command, Stdio};
use std::time::{Duration, Instant};

const SOON: Duration = Duration::from_secs(20);

fn spawn(folder: &InFolder, file: &Path) -> Child {
    folder.command(&["page", "--to", file.to_str().unwrap()]).stderr(Stdio::piped()).spawn().unwrap()
}

/// Looks at the page until it says this; it is whole whenever it is looked at. How often it was looked at.
fn until(file: &Path, says: &str) -> usize {
    let began = Instant::now();
    for count in 1.. {
        if let Ok(text) = fs::read_to_string(file) {
            assert!(text.starts_with("<!DOCTYPE html>") && text.ends_with("</html>\n"), "a whole page");
            if text.contains(says) {
                return count;
            }
        }
        assert!(began.elapsed() < SOON, "'{says}' in time");
        std::thread::sleep(Duration::from_millis(2));
    }
    unreachable!()
}

fn ended(child: Child) -> String {
    assert!(Command::new("kill").args(["-TERM", &child.id().to_string()]).status().unwrap().success());
    let ended = child.wait_with_output().unwrap();
    assert_eq!((ended.status.code(), String::from_utf8(ended.stderr).unwrap().as_str()), (Some(0), ""));
    String::from_utf8(ended.stdout).unwrap()
}

fn beside(file: &Path) -> Vec<PathBuf> {
    fs::read_dir(file.parent().unwrap()).unwrap().map(|entry| entry.unwrap().path()).collect()
}

pub fn page_to_file() -> String {
    let desk = DESKS.iter().find(|(name, _)| *name == "one").unwrap();
    let (folder, (_, seconds)) = (InFolder::new(desk), desk.1.unwrap());
    let corridor = folder.place.path.join("corridor");
    fs::create_dir(&corridor).unwrap();
    let file = corridor.join("page.html");
    let child = spawn(&folder, &file);
    let mut looks = until(&file, "<strong>minute 7 (2026-11-17 23:57)</strong>");
    assert_eq!(folder.taken(&["in", "8", "10", "A"]), "took\t2\t25\n");
    for minute in 1..=20 {
        folder.set(seconds + minute * 60);
        looks += until(&file, &format!("<strong>minute {} (", 7 + minute));
    }
    assert!(fs::read_to_string(&file).unwrap().contains("stack 2 of house A, 8 nodes, runs from minute 25"));
    assert_eq!(folder.taken(&["end", "2"]), "over\t2\t27\n");
    assert_eq!(ended(child), "over\t1\t25\nstart\t2\t25\n", "what came of the minutes that it let pass");
    assert_eq!(beside(&file), [file.clone()], "nothing is left beside it");
    assert!(folder.taken(&["audit"]).starts_with("ok\t"));
    by_hand();
    cannot_be_written(&folder);
    format!("20 minutes with a command beside, {looks} looks at a whole page; ended by SIGTERM; a file that cannot be written")
}

/// A desk that does not follow the clock: its page is written in each of the machine's minutes.
fn by_hand() {
    let folder = InFolder::new(DESKS.iter().find(|(name, _)| *name == "clearing").unwrap());
    folder.set(0);
    let file = folder.place.path.join("page.html");
    let child = spawn(&folder, &file);
    until(&file, "<strong>minute 15</strong>");
    assert_eq!(folder.taken(&["wait", "1"]), "");
    folder.set(60);
    until(&file, "<strong>minute 16</strong>");
    assert_eq!(ended(child), "");
}

/// The page before stays, and the status is 3.
fn cannot_be_written(folder: &InFolder) {
    for file in ["no-such-folder/page.html", "corridor"] {
        let file = folder.place.path.join(file);
        let done = folder.run(&["page", "--to", file.to_str().unwrap()]);
        assert_eq!((done.status, done.output.as_str()), (Some(3), ""), "{}", file.display());
        assert!(done.error.starts_with("rack: ") && done.error.contains("cannot be "), "{}", done.error);
    }
    let names: Vec<_> =
        beside(&folder.place.path.join("corridor")).into_iter().filter(|path| path.extension().is_some_and(|e| e == "new")).collect();
    assert!(names.is_empty(), "{names:?}");
    for wrong in [&["--to"][..], &["--to", ""], &["7"], &["--to", "a", "b"], &["--until", "9"]] {
        assert_eq!(folder.run(&[&["page"], wrong].concat()).status, Some(2), "{wrong:?}");
    }
}
