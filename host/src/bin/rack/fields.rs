//! The fields of a line, and numbers in them.

use hingerota_host::Refusal;

/// Document 01: "fields parted by one tab", "a line's ends counting as tabs". So an empty line has one field, which is empty.
pub fn fields(line: &[u8]) -> Vec<&[u8]> {
    line.split(|byte| *byte == b'\t').collect()
}

/// Document 01: "Numbers have 1 to 7 digits, no leading zero but 0 itself."
pub fn number(field: &[u8]) -> Result<u32, Refusal> {
    match field {
        [b'0'] => Ok(0),
        [b'1'..=b'9', rest @ ..] if rest.len() < 7 && rest.iter().all(u8::is_ascii_digit) => {
            Ok(field.iter().fold(0, |value, digit| value * 10 + u32::from(digit - b'0')))
        }
        _ => Err(Refusal::LACKS_THE_FORM),
    }
}

/// Document 02, No. 4: "in every text a capital letter". Its code: which letters name a house is asked of the library.
pub fn letter(field: &[u8]) -> Result<u32, Refusal> {
    match field {
        [letter @ b'A'..=b'Z'] => Ok(u32::from(*letter)),
        _ => Err(Refusal::LACKS_THE_FORM),
    }
}

/// So many fields, all of them numbers.
pub fn numbers<const N: usize>(fields: &[&[u8]]) -> Result<[u32; N], Refusal> {
    let fields: &[&[u8]; N] = fields.try_into().map_err(|_| Refusal::LACKS_THE_FORM)?;
    let mut values = [0; N];
    for (value, field) in values.iter_mut().zip(fields) {
        *value = number(field)?;
    }
    Ok(values)
}

#[cfg(test)]
mod tests {
    use super::*;

    #[test]
    fn numbers_have_1_to_7_digits_and_no_leading_zero() {
        for (field, value) in [("0", 0), ("7", 7), ("10", 10), ("1000000", 1_000_000), ("9999999", 9_999_999)] {
            assert_eq!(number(field.as_bytes()), Ok(value), "{field}");
        }
        for field in ["", "00", "01", "10000000", "99999999999999999999", "+1", "-1", "1.0", "1 ", " 1", "1\r", "a", "1a", "\u{661}"] {
            assert_eq!(number(field.as_bytes()), Err(Refusal::LACKS_THE_FORM), "{field:?}");
        }
    }

    #[test]
    fn a_house_is_one_capital_letter() {
        for (field, code) in [("A", 65), ("B", 66), ("C", 67), ("Z", 90)] {
            assert_eq!(letter(field.as_bytes()), Ok(code), "{field}");
        }
        for field in ["", "a", "z", "AB", "AA", "0", "65", "@", "[", " A", "A ", "A\r", "\u{c4}", "\u{391}"] {
            assert_eq!(letter(field.as_bytes()), Err(Refusal::LACKS_THE_FORM), "{field:?}");
        }
        assert_eq!(letter(b"\xc1"), Err(Refusal::LACKS_THE_FORM));
    }

    #[test]
    fn fields_are_counted_exactly() {
        assert_eq!(fields(b""), [b""]);
        assert_eq!(fields(b"in\t4\t"), [&b"in"[..], b"4", b""]);
        assert_eq!(numbers(&fields(b"4\t5")), Ok([4, 5]));
        assert_eq!(numbers::<2>(&fields(b"4\t5\t")), Err(Refusal::LACKS_THE_FORM));
        assert_eq!(numbers::<2>(&fields(b"4")), Err(Refusal::LACKS_THE_FORM));
        assert_eq!(numbers::<0>(&[]), Ok([]));
    }
}
