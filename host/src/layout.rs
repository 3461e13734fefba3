//! The structs of `raw.rs` have the sizes and offsets of those in `include/hingerota.h`, as a C compiler lays them out. The lengths of `lib.rs`
//! and the refusals, their names, numbers and reasons, are the header's.

use crate::raw::{
    Advanced, Amendment, Answer, Block, Desk, Earliest, Inquiry, Longest, Opened, Opening, Order, Point, Record, Shown, Tickets,
};
use crate::refusal::{Refusal, ROWS};
use std::mem::{offset_of, size_of};
use std::path::Path;
use std::process::Command;

/// The structs with their fields: their lines in C, and the same numbers as Rust has them.
macro_rules! layouts {
    ($($c:literal $t:ty { $($field:ident)* })*) => {{
        let mut program = String::new();
        let mut numbers = Vec::new();
        $(
            program += concat!("    printf(\"%zu \", sizeof(", $c, "));\n");
            numbers.push((concat!("sizeof ", $c), size_of::<$t>()));
            $(
                program += concat!("    printf(\"%zu \", offsetof(", $c, ", ", stringify!($field), "));\n");
                numbers.push((concat!($c, ".", stringify!($field)), offset_of!($t, $field)));
            )*
        )*
        (program, numbers)
    }};
}

fn header() -> String {
    std::fs::read_to_string(Path::new(env!("CARGO_MANIFEST_DIR")).join("include/hingerota.h")).unwrap()
}

/// What these lines of C print, with the header included.
fn printed_in_c(name: &str, lines: &str) -> String {
    let root = Path::new(env!("CARGO_MANIFEST_DIR"));
    let folder = root.join("target/layout");
    std::fs::create_dir_all(&folder).unwrap();
    let (source, program) = (folder.join(name).with_extension("c"), folder.join(name));
    std::fs::write(&source, format!("#include <stdio.h>\n#include \"hingerota.h\"\n\nint main(void)\n{{\n{lines}    return 0;\n}}\n"))
        .unwrap();
    let built = Command::new("gcc").arg("-I").arg(root.join("include")).arg("-o").arg(&program).arg(&source).status().expect("gcc");
    assert!(built.success());
    String::from_utf8(Command::new(&program).output().unwrap().stdout).unwrap()
}

fn numbers_in_c(name: &str, lines: &str) -> Vec<usize> {
    printed_in_c(name, lines).split_whitespace().map(|n| n.parse().unwrap()).collect()
}

#[test]
fn layouts_are_those_of_the_header() {
    let (lines, numbers) = layouts! {
        "hingerota_opening" Opening { nodes minute ticket cleanup quota_a quota_b }
        "hingerota_order" Order { nodes estimate tenant least }
        "hingerota_amendment" Amendment { ticket nodes estimate least }
        "hingerota_inquiry" Inquiry { nodes tenant minute }
        "hingerota_record" Record { ticket nodes estimate state tenant least start promise end submitted rank forecast }
        "hingerota_desk" Desk { kind nodes cleanup quota_a quota_b clock next jobs }
        "hingerota_tickets" Tickets { count list }
        "hingerota_answer" Answer { refusal ticket promise reads head forecast ended started }
        "hingerota_advanced" Advanced { answer minutes }
        "hingerota_opened" Opened { refusal desk }
        "hingerota_point" Point { minute free }
        "hingerota_block" Block { fewest most }
        "hingerota_shown" Shown { refusal count }
        "hingerota_earliest" Earliest { refusal minute }
        "hingerota_longest" Longest { refusal estimate }
    };
    let in_c = numbers_in_c("layout", &lines);
    assert_eq!(in_c.len(), numbers.len());
    for ((name, in_rust), in_c) in numbers.iter().zip(in_c) {
        assert_eq!(*in_rust, in_c, "{name}");
    }
}

#[test]
fn lengths_are_those_of_the_header() {
    let lengths = [
        ("HINGEROTA_MOST_POINTS", crate::MOST_POINTS),
        ("HINGEROTA_MOST_BLOCKS", crate::MOST_BLOCKS),
        ("HINGEROTA_BLOCK_POINTS", crate::BLOCK_POINTS),
        ("HINGEROTA_PAGE_LINES", crate::PAGE_LINES),
        ("HINGEROTA_PAGE_COLUMNS", crate::PAGE_COLUMNS),
        ("HINGEROTA_PAGE_BYTES", crate::PAGE_BYTES),
        ("HINGEROTA_TEXT_BYTES", crate::TEXT_BYTES),
        ("HINGEROTA_WHY_BYTES", crate::WHY_BYTES),
    ];
    let lines: String = lengths.iter().map(|(name, _)| format!("    printf(\"%d \", {name});\n")).collect();
    let in_c = numbers_in_c("lengths", &lines);
    assert_eq!(in_c.len(), lengths.len());
    for ((name, in_rust), in_c) in lengths.into_iter().zip(in_c) {
        assert_eq!(in_rust, in_c, "{name}");
    }
}

#[test]
fn refusals_are_those_of_the_header() {
    let names: String = ROWS.iter().map(|row| format!("    printf(\"%d \", HINGEROTA_{});\n", row.name)).collect();
    let numbers: Vec<usize> = ROWS.iter().map(|row| row.refusal.number() as usize).collect();
    assert_eq!(numbers_in_c("refusals", &names), numbers);
    let reasons = "    for (uint32_t n = 0; n < 40; n++)\n        printf(\"%s\\n\", hingerota_reason(n));\n";
    let reason = |number| Refusal::of(number).map_or(if number == 0 { "taken" } else { "no such refusal" }, Refusal::reason);
    assert_eq!(printed_in_c("reasons", reasons).lines().collect::<Vec<_>>(), (0..40).map(reason).collect::<Vec<_>>());
}

/// A manual without its marks for fonts, each of its lines by itself.
fn manual(page: &str) -> Vec<String> {
    let text = std::fs::read_to_string(Path::new(env!("CARGO_MANIFEST_DIR")).join("man").join(page)).unwrap();
    let plain = |line: &str| ["\\fB", "\\fI", "\\fR", "\\"].iter().fold(line.to_string(), |line, mark| line.replace(mark, ""));
    text.lines().map(plain).collect()
}

#[test]
fn refusals_stand_in_the_manual() {
    let lines = manual("hingerota-text.5");
    for row in ROWS {
        let (number, reason) = (row.refusal.number().to_string(), row.refusal.reason());
        assert!(lines.windows(2).any(|pair| pair[0] == number && pair[1] == reason), "{number} {reason}");
    }
}

#[test]
fn functions_stand_in_the_manual() {
    let text = manual("hingerota.3").concat();
    let header = header();
    let declared = header.lines().filter(|line| line.ends_with(");") && !line.starts_with(' '));
    let names: Vec<&str> = declared.filter_map(|line| line.split('(').next()?.split([' ', '*']).next_back()).collect();
    assert!(names.len() > 15 && names.contains(&"hingerota_submit"), "{names:?}");
    for name in names {
        assert!(text.contains(&format!("{name}(")), "{name}");
    }
}

/// "no line over 100 columns"
#[test]
fn lines_of_the_header_are_short() {
    for (place, line) in header().lines().enumerate() {
        assert!(line.chars().count() <= 100, "line {}: {line}", place + 1);
    }
}

/// The sizes that the header's comments state.
#[test]
fn sizes_are_as_stated() {
    let header = header();
    for (name, size) in [
        ("hingerota_opening", size_of::<Opening>()),
        ("hingerota_order", size_of::<Order>()),
        ("hingerota_amendment", size_of::<Amendment>()),
        ("hingerota_inquiry", size_of::<Inquiry>()),
        ("hingerota_record", size_of::<Record>()),
        ("hingerota_desk", size_of::<Desk>()),
        ("hingerota_tickets", size_of::<Tickets>()),
        ("hingerota_answer", size_of::<Answer>()),
        ("hingerota_advanced", size_of::<Advanced>()),
        ("hingerota_opened", size_of::<Opened>()),
        ("hingerota_point", size_of::<Point>()),
        ("hingerota_block", size_of::<Block>()),
        ("hingerota_shown", size_of::<Shown>()),
        ("hingerota_earliest", size_of::<Earliest>()),
        ("hingerota_longest", size_of::<Longest>()),
    ] {
        let line = header.lines().find(|l| l.starts_with(&format!("}} {name};"))).expect(name);
        let stated: String = line.chars().skip_while(|c| *c != '*').filter(char::is_ascii_digit).collect();
        assert_eq!(stated, size.to_string(), "{line}");
    }
}
