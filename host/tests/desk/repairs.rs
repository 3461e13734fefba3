//! Damaged journals: what is said of them, and how they go on.

use crate::common::folders::Place;
use std::fs;

/// "Any other line that lacks the form or is refused on replay is damage: status 3 with the line's number, nothing written, [...] to go on by
/// hand".
pub fn of_damaged_journals() -> String {
    let place = Place::new("repair");
    let desk = place.desk();
    desk.taken(&["open", "promise", "10"]);
    let lines = ["in\t6\t20\tA", "in\t8\t10\tA", "wait\t5", "in\t1\t5\tB", "end\t1"];
    for line in lines {
        desk.taken(&line.split('\t').collect::<Vec<_>>());
    }
    let journal = desk.bytes("calls-1");
    assert_eq!(desk.run(&["repair", "--to-line", "2"]).status, Some(1), "nothing is damaged");
    let damages = ["end\t9", "hello", "", "in\t6\t20", "in\t06\t20\tA", "board", "in\t11\t5\tA", "in\t6\t20\tA\r", "\0\0\0\0", "wait\t0"];
    let mut count = 0;
    for (place, damage) in damages.iter().enumerate() {
        let line = place % lines.len();
        let mut damaged: Vec<&str> = lines.to_vec();
        damaged[line] = damage;
        let bytes: String = damaged.iter().map(|line| format!("{line}\n")).collect();
        fs::write(desk.file("calls-1"), &bytes).unwrap();
        for arguments in [&["board"][..], &["wait", "1"], &["close"], &["prune"], &["audit"], &["follow"]] {
            let ended = desk.run(arguments);
            assert_eq!((ended.status, ended.output.as_str()), (Some(3), ""), "{damage}: {}", ended.error);
            assert!(ended.error.contains(&format!("calls-1, line {}, is damaged", line + 1)), "{}", ended.error);
            assert_eq!(desk.bytes("calls-1"), bytes.as_bytes(), "written");
            count += 1;
        }
        let too_many = desk.run(&["repair", "--to-line", &(line + 1).to_string()]);
        assert_eq!(too_many.status, Some(3));
        assert!(too_many.error.contains(&format!("At most {line} lines can be kept")), "{}", too_many.error);
        let ended = desk.run(&["repair", "--to-line", &line.to_string()]);
        assert_eq!(ended.status, Some(0), "{}", ended.error);
        assert!(
            ended.error.contains(&format!("goes on after line {line}; {} lines were taken out", lines.len() - line)),
            "{}",
            ended.error
        );
        let left: String = lines[..line].iter().map(|line| format!("{line}\n")).collect();
        assert_eq!(desk.bytes("calls-1"), left.as_bytes());
        assert_eq!(desk.bytes(&format!("calls-1.cut-{}", place + 1)), bytes.as_bytes());
        desk.taken(&["audit"]);
        desk.taken(&["wait", "1"]);
    }
    fs::write(desk.file("calls-1"), journal).unwrap();
    assert_eq!(desk.taken(&["audit"]), "ok\t5\n");
    format!("{} damaged journals, {count} commands that say so and write nothing, and each goes on", damages.len())
}
