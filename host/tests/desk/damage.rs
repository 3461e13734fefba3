//! "a desk file damaged in one byte at each place: read back exactly or refused by 22 or 23 in words; never a crash, never written over". And
//! an audit finds it, since the generation before gives the desk as it was.

use super::played::{line, opening, play};
use crate::common::folders::Place;
use crate::common::program::Ended;
use crate::common::random::Random;
use crate::common::text::{read, written};
use std::fs;

pub fn in_every_byte() -> String {
    let (mut bytes, mut damaged, mut refused, mut accepted) = (0, 0, [0; 2], 0);
    for seed in [1, 2, 3, 4] {
        let (place, random) = (Place::new("damage"), &mut Random::new(seed));
        let desk = place.desk();
        let (mut model, arguments) = opening(random);
        desk.taken(&arguments.iter().map(String::as_str).collect::<Vec<_>>());
        for _ in 0..25 {
            let line = line(&model, random);
            if play(&mut model, &line).kept {
                desk.taken(&line.split('\t').collect::<Vec<_>>());
            }
        }
        desk.taken(&["close"]);
        let (text, calls) = (written(&model), desk.bytes("calls-1"));
        assert_eq!(desk.bytes("desk-2"), text);
        bytes += text.len();
        for place in (0..text.len()).step_by(crate::count("BYTES", 1) as usize) {
            let mut other = text.clone();
            other[place] = *random.one_of(&[&b'0', &b'1', &b'9', &b'\t', &b'\n', &b'w', &b'A', &0, &0xff, &(text[place] ^ 1)]);
            if other[place] == text[place] {
                other[place] ^= 2;
            }
            fs::write(desk.file("desk-2"), &other).unwrap();
            let ended = desk.run(&["text"]);
            match read(&other) {
                Ok(_) => {
                    assert_eq!((ended.status, ended.output.as_bytes()), (Some(0), &other[..]), "{}", ended.error);
                    accepted += 1;
                }
                Err(number) => {
                    is_damage(&ended, number);
                    is_damage(&desk.run(&["in", "1", "5", "A"]), number);
                    is_damage(&desk.run(&["close"]), number);
                    refused[number as usize - 22] += 1;
                }
            }
            let audit = desk.run(&["audit"]);
            assert_eq!(audit.status, Some(3), "{}", audit.error);
            assert!(audit.error.contains("desk-2"), "{}", audit.error);
            assert_eq!(desk.bytes("desk-2"), other, "written over");
            assert_eq!((desk.bytes("calls-1"), desk.bytes("calls-2")), (calls.clone(), Vec::new()));
            assert_eq!(desk.generations(), [1, 2]);
            damaged += 1;
        }
        fs::write(desk.file("desk-2"), &text).unwrap();
        assert_eq!(desk.text(), text);
    }
    let [form, condition] = refused;
    format!(
        "desks of {bytes} bytes, {damaged} times damaged in one: {form} refused by 22, {condition} by 23, {accepted} read back exactly; an \
         audit found each"
    )
}

fn is_damage(ended: &Ended, number: u32) {
    assert_eq!((ended.status, ended.output.as_str()), (Some(3), ""), "{}", ended.error);
    let words = hingerota_host::Refusal::of(number).unwrap().reason();
    assert!(ended.error.contains(&format!("desk-2 is damaged, no {number}: {words}")), "{}", ended.error);
    assert_eq!(ended.error.lines().count(), 1, "{}", ended.error);
}
