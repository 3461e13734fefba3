//! Why calls are refused, in documents 01's and 02's words. A number is a row of `refusals!`, and stands nowhere else.

use std::error::Error;
use std::fmt::{self, Debug, Display, Formatter};

/// Why a call is refused: a number, which `include/hingerota.h` and the guide list too. A refused call changes nothing.
///
/// ```
/// # fn main() -> Result<(), Box<dyn std::error::Error>> {
/// use hingerota_host::{Desk, Kind, Opening, Refusal};
///
/// let mut desk = Desk::open(Kind::Promise, Opening { nodes: 10, ..Opening::default() })?;
/// let refusal = desk.cancel(7).unwrap_err();
/// assert_eq!(refusal, Refusal::NOT_WAITING);
/// assert_eq!(refusal.number(), 11);
/// assert_eq!(refusal.to_string(), "refused by 11: the ticket is not waiting");
/// # Ok(())
/// # }
/// ```
#[derive(Clone, Copy, PartialEq, Eq, Hash)]
pub struct Refusal(u32);

/// What it says of any call; and what it says where more is known, with names in braces for what that is.
pub(crate) struct Row {
    pub(crate) refusal: Refusal,
    pub(crate) name: &'static str,
    reason: &'static str,
    form: &'static str,
}

macro_rules! refusals {
    ($($name:ident $number:literal $reason:literal $form:literal)*) => {
        /// The numbers by their names, which are the header's. No call of the library gives 9 and 16 to 18: lines of scripts and seasons are
        /// refused by these.
        impl Refusal {
            $(
                #[doc = concat!(stringify!($number), ": ", $reason, ".")]
                pub const $name: Refusal = Refusal($number);
            )*
        }

        pub(crate) const ROWS: &[Row] =
            &[$(Row { refusal: Refusal::$name, name: stringify!($name), reason: $reason, form: $form },)*];
    };
}

refusals! {
    NODES_OUT_OF_RANGE 1 "nodes out of range" "a stack takes 1 to {rack} nodes here, and not {nodes}"
    MINUTES_OUT_OF_RANGE 2 "an estimate or a wait outside 1 to 10,080" "minutes are 1 to 10,080, and not {minutes}"
    OPENING_OUT_OF_RANGE 3 "opened past minute 1,000,000, or with a first ticket outside 1 to 999,999" ""
    NO_TICKET_LEFT 5 "ticket 999,999 has been given" "ticket 999,999 has been given, and there is none after it"
    PAST_LAST_MINUTE 6 "past the last minute, 1,000,000" ""
    NOT_RUNNING 7 "the ticket is not running" "stack {ticket} is not running"
    LACKS_THE_FORM 9 "the line lacks the form" "the line lacks the form: {form}"
    TOO_SHORT 10 "the list, the page or the text is too short" ""
    NOT_WAITING 11 "the ticket is not waiting" "stack {ticket} is not waiting"
    CLEANUP_OUT_OF_RANGE 12 "opened with a cleanup above 30" "nodes are cleared for 0 to 30 minutes, and not for {clearing}"
    QUOTAS_OUT_OF_RANGE 13 "opened with places that are not 64 together, or with none for a house"
        "places are 64 together and at least 1 a house, and not {a} and {b}"
    UNKNOWN_TENANT 14 "neither house A nor house B" "house {house} is neither A nor B"
    QUOTA_FULL 15 "the house's places are all live" "all {places} places of house {house} are taken"
    LONGEST_OUT_OF_RANGE 16 "a season with a longest estimate outside 1 to 10,080" ""
    ARRIVES_TOO_EARLY 17 "the line arrives before one above it" ""
    NO_RUN_LENGTH 18 "an actual run length of 0" ""
    LEAST_ABOVE_MOST 19 "the least is above the most" "the least, {least}, is above the most, {most}"
    BEFORE_LEAST 20 "the end is before the least" "stack {ticket} runs for {least} minutes at least, to minute {until}"
    WANTED_MINUTE_PAST 21 "the minute asked for is past" "minute {minute} is past: it is minute {clock}"
    TEXT_MALFORMED 22 "a line lacks the form or is unclosed, or there is none" ""
    TEXT_REJECTED 23 "one of the conditions of a desk is broken" ""
}

impl Refusal {
    /// The refusal that has this number; none of 0, 4, 8 and numbers above 23.
    pub fn of(number: u32) -> Option<Refusal> {
        ROWS.iter().map(|row| row.refusal).find(|refusal| refusal.0 == number)
    }

    /// What the library gives as a refusal: 0 says that the call is taken.
    pub(crate) fn judged(number: u32) -> Result<(), Refusal> {
        match number {
            0 => Ok(()),
            number => Err(Refusal(number)),
        }
    }

    pub fn number(self) -> u32 {
        self.0
    }

    /// What it says of any call.
    pub fn reason(self) -> &'static str {
        self.row().map_or("no such refusal", |row| row.reason)
    }

    /// The same with what is known of the call, each by its name: `places` and `house` of 15, for one. Where a name of its sentence is not
    /// among them, it is [`Refusal::reason`].
    pub fn sentence(self, known: &[(&str, String)]) -> String {
        let form = self.row().map_or("", |row| row.form);
        let text = known.iter().fold(form.to_string(), |text, (name, value)| text.replace(&format!("{{{name}}}"), value));
        if text.is_empty() || text.contains('{') {
            return self.reason().to_string();
        }
        text
    }

    fn row(self) -> Option<&'static Row> {
        ROWS.iter().find(|row| row.refusal == self)
    }
}

impl Display for Refusal {
    fn fmt(&self, f: &mut Formatter) -> fmt::Result {
        write!(f, "refused by {}: {}", self.0, self.reason())
    }
}

impl Debug for Refusal {
    /// By its name.
    fn fmt(&self, f: &mut Formatter) -> fmt::Result {
        match self.row() {
            Some(row) => write!(f, "{}", row.name),
            None => write!(f, "Refusal({})", self.0),
        }
    }
}

impl Error for Refusal {}

#[cfg(test)]
mod tests {
    use super::*;

    #[test]
    fn numbers_rise() {
        assert!(ROWS.windows(2).all(|pair| pair[0].refusal.0 < pair[1].refusal.0));
    }

    #[test]
    fn a_number_is_a_refusal_if_it_has_a_row() {
        assert_eq!(Refusal::of(15), Some(Refusal::QUOTA_FULL));
        for number in [0, 4, 8, 24, u32::MAX] {
            assert_eq!(Refusal::of(number), None, "{number}");
        }
        assert_eq!(Refusal::judged(0), Ok(()));
        let unknown = Refusal::judged(99).unwrap_err();
        assert_eq!(format!("{unknown}, {unknown:?}"), "refused by 99: no such refusal, Refusal(99)");
        assert_eq!(format!("{:?}", Refusal::QUOTA_FULL), "QUOTA_FULL");
    }

    #[test]
    fn a_sentence_has_what_is_known() {
        let known = [("places", "63".to_string()), ("house", "A".to_string())];
        assert_eq!(Refusal::QUOTA_FULL.sentence(&known), "all 63 places of house A are taken");
        assert_eq!(Refusal::QUOTA_FULL.sentence(&known[..1]), Refusal::QUOTA_FULL.reason());
        assert_eq!(Refusal::PAST_LAST_MINUTE.sentence(&known), Refusal::PAST_LAST_MINUTE.reason());
    }
}
