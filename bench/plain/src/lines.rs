//! Fields and numbers of a line, and the lines of a text.

use crate::answer::Refusal;

/// 1 to 7 digits, no leading zero but 0 itself.
pub fn number(field: &[u8]) -> Result<u32, Refusal> {
    if field.is_empty() || field.len() > 7 || (field[0] == b'0' && field.len() > 1) {
        return Err(Refusal::Form);
    }
    field.iter().try_fold(0, |n, &byte| match byte {
        b'0'..=b'9' => Ok(n * 10 + u32::from(byte - b'0')),
        _ => Err(Refusal::Form),
    })
}

/// One capital letter.
pub fn letter(field: &[u8]) -> Result<u8, Refusal> {
    match field {
        [letter @ b'A'..=b'Z'] => Ok(*letter),
        _ => Err(Refusal::Form),
    }
}

/// The fields of a line, if it has exactly that many.
pub fn fields<const N: usize>(line: &[u8]) -> Result<[&[u8]; N], Refusal> {
    let mut found: [&[u8]; N] = [&[]; N];
    let mut parts = line.split(|&byte| byte == b'\t');
    for field in &mut found {
        *field = parts.next().ok_or(Refusal::Form)?;
    }
    match parts.next() {
        None => Ok(found),
        Some(_) => Err(Refusal::Form),
    }
}

/// The lines of a text without their ends. One that is not closed lacks the form.
pub fn lines(text: &[u8]) -> impl Iterator<Item = Result<&[u8], Refusal>> {
    text.split_inclusive(|&byte| byte == b'\n').map(|line| line.strip_suffix(b"\n").ok_or(Refusal::Form))
}
