//! What a line prints.

use hingerota_host::{Answer, Block, Desk, Kind, Point, Refusal};

/// What a line comes to. Whatever it printed stands on its page. Document 01, 9: "the line lacks the form above, or is a second `desk` line".
/// The library reads no lines, and never gives that refusal.
pub type Done = Result<(), Refusal>;

#[derive(Default)]
pub struct Page {
    text: String,
}

impl Page {
    pub fn text(&self) -> &str {
        &self.text
    }

    /// Of lines that give a desk.
    pub fn ok() -> Page {
        Page { text: "ok\n".to_string() }
    }

    pub fn refused(refusal: Refusal) -> Page {
        let mut page = Page::default();
        page.no(refusal);
        page
    }

    pub fn no(&mut self, refusal: Refusal) {
        self.row("no", [refusal.number()]);
    }

    /// A word and its numbers.
    fn row<const N: usize>(&mut self, word: &str, numbers: [u32; N]) {
        self.text += word;
        for number in numbers {
            self.text.push('\t');
            self.decimal(number);
        }
        self.text.push('\n');
    }

    /// Digit by digit: `format!` takes some 600 instructions a row.
    fn decimal(&mut self, number: u32) {
        if number >= 10 {
            self.decimal(number / 10);
        }
        self.text.push(char::from(b'0' + (number % 10) as u8));
    }

    /// Of a call or a tick that left the desk so. Document 01: "`took` ticket promise (`-` on the Loose Desk); `over` ticket minute;
    /// `start` ticket minute; `head` ticket forecast. Within a call or step, in that order."
    pub fn answer(&mut self, desk: &Desk, answer: &Answer) {
        if answer.ticket != 0 {
            match desk.kind() {
                Kind::Promise => self.row("took", [answer.ticket, answer.promise]),
                Kind::Loose => {
                    self.text += "took\t";
                    self.decimal(answer.ticket);
                    self.text += "\t-\n";
                }
            }
        }
        for ticket in answer.ended.as_slice() {
            self.row("over", [*ticket, desk.clock()]);
        }
        for ticket in answer.started.as_slice() {
            self.row("start", [*ticket, desk.clock()]);
        }
        if let Some((ticket, forecast)) = answer.new_head() {
            self.row("head", [ticket, forecast]);
        }
    }

    /// Of a desk that was of this kind. Document 02, No. 12: "waiting ones are planned in ticket order [...] and receive promises then." A
    /// Promise Desk stays as it is, and prints nothing.
    pub fn migration(&mut self, before: Kind, desk: &Desk) {
        if before == Kind::Loose {
            for record in desk.records().iter().filter(|record| record.waits()) {
                self.row("took", [record.ticket, record.promise]);
            }
        }
    }

    pub fn points(&mut self, points: &[Point]) {
        for point in points {
            self.row("free", [point.minute, point.free]);
        }
    }

    pub fn blocks(&mut self, blocks: &[Block]) {
        for block in blocks {
            self.row("block", [block.fewest, block.most]);
        }
    }

    pub fn reads(&mut self, reads: u32) {
        self.row("reads", [reads]);
    }

    pub fn earliest_start(&mut self, ticket: u32, minute: u32) {
        self.row("soonest", [ticket, minute]);
    }

    /// The status page, the sentences or the desk's lines, as the library wrote them, line ends too.
    pub fn written(&mut self, text: &[u8]) {
        self.text += std::str::from_utf8(text).expect("proved to be tabs, line ends, spaces and visible characters of ASCII");
    }

    /// A Loose Desk promises no minute, and prints nothing.
    pub fn longest_estimate(&mut self, desk: &Desk, longest: Option<u32>) {
        match (desk.kind(), longest) {
            (Kind::Loose, _) => {}
            (Kind::Promise, None) => self.text += "longest\t-\n",
            (Kind::Promise, Some(estimate)) => self.row("longest", [estimate]),
        }
    }
}

#[cfg(test)]
mod tests {
    use super::*;

    #[test]
    fn numbers_are_decimal() {
        let mut page = Page::default();
        for number in (0..=1_001).chain([9_999, 10_000, 999_999, 1_000_000, u32::MAX - 1, u32::MAX]) {
            page.text.clear();
            page.row("no", [number, number]);
            assert_eq!(page.text(), format!("no\t{number}\t{number}\n"));
        }
    }
}
