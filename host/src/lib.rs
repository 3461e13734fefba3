//! The proved schedulers for a host program in Rust. `include/hingerota.h` says in full what each call gives and promises.
//!
//! A [`Desk`] is the scheduler of one machine, and it is opaque. An opening makes it, or it is read back from its lines, or taken from numbers
//! that were checked. Only calls change it, and a call borrows it. So every program that compiles without `unsafe` of its own meets the premise
//! of the proofs. A call that is refused says why by a [`Refusal`], and changes nothing.
//!
//! ```
//! # fn main() -> Result<(), Box<dyn std::error::Error>> {
//! use hingerota_host::{Desk, Kind, Opening, Order, TENANT_A};
//!
//! let mut desk = Desk::open(Kind::Promise, Opening { nodes: 10, ..Opening::default() })?;
//! let first = desk.submit(Order { nodes: 6, estimate: 20, tenant: TENANT_A, least: 0 })?;
//! assert_eq!((first.ticket, first.promise, &first.started[..]), (1, 0, &[1][..]));
//! let second = desk.submit(Order { nodes: 8, estimate: 10, tenant: TENANT_A, least: 0 })?;
//! assert_eq!((second.ticket, second.promise), (2, 20));
//!
//! // Job 1 is over early, and job 2 starts before its promise.
//! let answer = desk.complete(1)?;
//! assert_eq!((&answer.ended[..], &answer.started[..]), (&[1][..], &[2][..]));
//! # Ok(())
//! # }
//! ```

mod answer;
#[cfg(test)]
mod layout;
mod raw;
mod refusal;

use std::fmt::{self, Debug, Formatter};

pub use answer::{Advanced, Answer, RefusedOpening};
pub use raw::Desk as Numbers;
pub use raw::{Amendment, Block, Inquiry, Opening, Order, Point, Record, Tickets};
pub use refusal::Refusal;

/// The version of this crate, and of the programs and the package that are made with it.
pub const VERSION: &str = env!("CARGO_PKG_VERSION");

/// The number of the logic by which the toolchain proved the library, as `rt version` prints it. The library itself carries it.
pub const LOGIC: &str = env!("HINGEROTA_LOGIC");

/// The list of points that always suffices.
pub const MOST_POINTS: usize = 129;

/// How many points a block of the index has; the last may have fewer.
pub const BLOCK_POINTS: usize = 16;

/// The list of blocks that always suffices.
pub const MOST_BLOCKS: usize = MOST_POINTS.div_ceil(BLOCK_POINTS);

/// The lines of a status page, the characters of each, and the bytes of all, with byte 10 after each line.
pub const PAGE_LINES: usize = 66;
pub const PAGE_COLUMNS: usize = 72;
pub const PAGE_BYTES: usize = PAGE_LINES * (PAGE_COLUMNS + 1);

/// The bytes that always suffice for a desk's lines.
pub const TEXT_BYTES: usize = 7_375;

/// The bytes that always suffice for the sentences of a desk.
pub const WHY_BYTES: usize = 74_752;

/// The two tenants of a machine, by their letters.
pub const TENANT_A: u32 = b'A' as u32;
pub const TENANT_B: u32 = b'B' as u32;

/// Which rules a desk follows.
#[derive(Clone, Copy, PartialEq, Eq, Debug)]
pub enum Kind {
    /// Conservative backfilling: every job gets a promise, a minute by which it starts.
    Promise,
    /// EASY backfilling: the first waiting job gets a forecast.
    Loose,
}

/// The scheduler of one machine. A clone is another desk.
#[derive(Clone, PartialEq, Eq)]
pub struct Desk {
    raw: raw::Desk,
}

impl Desk {
    /// An empty desk; refused by 1, 3, 12 or 13.
    ///
    /// ```
    /// use hingerota_host::{Desk, Kind, Opening, Refusal};
    ///
    /// let refused = Desk::open(Kind::Loose, Opening { nodes: 1_025, ..Opening::default() }).unwrap_err();
    /// assert_eq!(refused.refusal, Refusal::NODES_OUT_OF_RANGE);
    /// ```
    pub fn open(kind: Kind, opening: Opening) -> Result<Desk, Box<RefusedOpening>> {
        // SAFETY: openings take numbers and ask nothing.
        let opened = unsafe {
            match kind {
                Kind::Promise => raw::hingerota_open_promise(opening),
                Kind::Loose => raw::hingerota_open_loose(opening),
            }
        };
        opened.given()
    }

    /// The desk that the lines of a text give, as [`Desk::checkpoint`] writes them; refused by 22 or 23. The desk that a refused text hands
    /// back is a Promise Desk.
    ///
    /// ```
    /// # fn main() -> Result<(), Box<dyn std::error::Error>> {
    /// use hingerota_host::Desk;
    ///
    /// let text = "desk\tpromise\t10\t0\t2\t0\t63\t1\n1\t6\t20\tr\t0\t0\t0\tA\t0\t0\t0\t0\n";
    /// let desk = Desk::restore(text.as_bytes())?;
    /// assert_eq!((desk.next(), desk.records()[0].nodes), (2, 6));
    /// assert_eq!(desk.text(), text.as_bytes());
    /// assert_eq!(desk, desk.clone());
    /// # Ok(())
    /// # }
    /// ```
    pub fn restore(text: &[u8]) -> Result<Desk, Box<RefusedOpening>> {
        // SAFETY: a slice points to as many bytes as its length says, and these are only read.
        unsafe { raw::hingerota_restore(text.as_ptr(), text.len()) }.given()
    }

    /// A desk in numbers that come from anywhere; refused by 23 unless they meet the premise.
    pub fn from_numbers(numbers: Numbers) -> Result<Desk, Refusal> {
        numbers.check().map(|()| Desk { raw: numbers })
    }

    // SAFETY of the calls: `self.raw` came from an opening, a reading or a call, or was checked, since nothing else makes or changes it;
    // it is borrowed whole, so nobody else writes it meanwhile; a slice points to as many places as its length says, and is no part of the
    // desk.

    /// A job is submitted; refused by 14, 1, 2, 19, 15, 5 or 6.
    pub fn submit(&mut self, order: Order) -> Result<Answer, Refusal> {
        unsafe { raw::hingerota_submit(&mut self.raw, order) }.given()
    }

    /// A running job is over before its time; refused by 7 or 20.
    pub fn complete(&mut self, ticket: u32) -> Result<Answer, Refusal> {
        unsafe { raw::hingerota_complete(&mut self.raw, ticket) }.given()
    }

    /// A waiting job is withdrawn; refused by 11.
    pub fn cancel(&mut self, ticket: u32) -> Result<Answer, Refusal> {
        unsafe { raw::hingerota_cancel(&mut self.raw, ticket) }.given()
    }

    /// The order of a waiting job is corrected; refused by 11, 1, 2 or 19. If neither its nodes nor its estimate rounded up grow, it waits on
    /// under its ticket and keeps its promise, or on a Loose Desk its bound and its forecast. Then all waiting jobs move as after a
    /// withdrawal. If either grows, the job is withdrawn and its order submitted with a new ticket, which the answer has. If that submission
    /// is refused, by 5 or 6, everything stays as it was.
    pub fn amend(&mut self, amendment: Amendment) -> Result<Answer, Refusal> {
        unsafe { raw::hingerota_amend(&mut self.raw, amendment) }.given()
    }

    /// One minute passes; refused by 6.
    pub fn tick(&mut self) -> Result<Answer, Refusal> {
        unsafe { raw::hingerota_tick(&mut self.raw) }.given()
    }

    /// So many minutes pass, or fewer: up to the first in which something is due, that is a job ends, its cleanup is over or its planned
    /// start has come. The answer is that of the last minute that has passed, as a tick gives it; the minutes before it have nothing to
    /// answer. Refused by 2 or 6, as [`Desk::may_wait`] says it. To let all of them pass, ask again for those that are left:
    ///
    /// ```
    /// # fn main() -> Result<(), Box<dyn std::error::Error>> {
    /// use hingerota_host::{Desk, Kind, Opening, Order, TENANT_A};
    ///
    /// let mut desk = Desk::open(Kind::Promise, Opening { nodes: 10, ..Opening::default() })?;
    /// desk.submit(Order { nodes: 6, estimate: 20, tenant: TENANT_A, least: 0 })?;
    /// let (mut left, mut over) = (30, Vec::new());
    /// while left > 0 {
    ///     let advanced = desk.advance(left)?;
    ///     over.extend(advanced.answer.ended.iter().map(|ticket| (*ticket, desk.clock())));
    ///     left -= advanced.minutes;
    /// }
    /// assert_eq!((over, desk.clock()), (vec![(1, 20)], 30));
    /// # Ok(())
    /// # }
    /// ```
    pub fn advance(&mut self, minutes: u32) -> Result<Advanced, Refusal> {
        unsafe { raw::hingerota_advance(&mut self.raw, minutes) }.given()
    }

    /// A Loose Desk becomes a Promise Desk while jobs run; a Promise Desk stays as it is. It is never refused, and no job ends or starts.
    /// Waiting jobs are planned in ticket order, and each is promised the minute for which it is planned. The first job's promise is no later
    /// than its forecast was, and every promise is no later than the job's bound was.
    pub fn migrate(&mut self) {
        unsafe { raw::hingerota_migrate(&mut self.raw) }
    }

    /// The free nodes from now on, into the front of the list lent, and how many points these are; refused by 10. Places past the last point
    /// keep what they held.
    ///
    /// ```
    /// # fn main() -> Result<(), Box<dyn std::error::Error>> {
    /// use hingerota_host::{Desk, Kind, Opening, Order, Point, MOST_POINTS, TENANT_A};
    ///
    /// let mut desk = Desk::open(Kind::Promise, Opening { nodes: 10, ..Opening::default() })?;
    /// desk.submit(Order { nodes: 6, estimate: 20, tenant: TENANT_A, least: 0 })?;
    /// let mut points = [Point::default(); MOST_POINTS];
    /// let count = desk.profile(&mut points)?;
    /// assert_eq!(points[..count], [Point { minute: 0, free: 4 }, Point { minute: 20, free: 10 }]);
    /// assert_eq!(points[..count], desk.points());
    /// # Ok(())
    /// # }
    /// ```
    pub fn profile(&self, points: &mut [Point]) -> Result<usize, Refusal> {
        unsafe { raw::hingerota_profile(&self.raw, points.as_mut_ptr(), points.len()) }.given()
    }

    /// These points.
    pub fn points(&self) -> Vec<Point> {
        written(MOST_POINTS, |points| self.profile(points))
    }

    /// The index of that profile, the fewest and the most free nodes of each block of its points, into the front of the list lent, and how
    /// many blocks these are; refused by 10. Places past the last block keep what they held.
    pub fn index(&self, blocks: &mut [Block]) -> Result<usize, Refusal> {
        unsafe { raw::hingerota_index(&self.raw, blocks.as_mut_ptr(), blocks.len()) }.given()
    }

    /// These blocks.
    pub fn blocks(&self) -> Vec<Block> {
        written(MOST_BLOCKS, |blocks| self.index(blocks))
    }

    /// Whether a wait of `minutes` would be taken: then it is that number of ticks, which [`Desk::advance`] makes at once. Refused by 2 or 6.
    pub fn may_wait(&self, minutes: u32) -> Result<(), Refusal> {
        Refusal::judged(unsafe { raw::hingerota_wait_refusal(&self.raw, minutes) })
    }

    /// The earliest minute at which a waiting job can start, if every running job is over at its least and no other job waits; refused by 11.
    /// Whatever calls follow, the job never starts before, unless its order is corrected.
    pub fn earliest_start(&self, ticket: u32) -> Result<u32, Refusal> {
        let earliest = unsafe { raw::hingerota_earliest_start(&self.raw, ticket) };
        answer::given(earliest.refusal, earliest.minute, |minute| *minute == 0)
    }

    /// The largest estimate with which a submission of these nodes, of this tenant, would now be promised the minute wanted or an earlier
    /// one, if there is one. Refused by 21, 14, 1, 15, 5 or 6. On a Loose Desk there is none, and nothing is refused.
    ///
    /// ```
    /// # fn main() -> Result<(), Box<dyn std::error::Error>> {
    /// use hingerota_host::{Desk, Inquiry, Kind, Opening, Order, TENANT_A};
    ///
    /// let mut desk = Desk::open(Kind::Promise, Opening { nodes: 10, ..Opening::default() })?;
    /// desk.submit(Order { nodes: 6, estimate: 20, tenant: TENANT_A, least: 0 })?;
    /// desk.submit(Order { nodes: 8, estimate: 10, tenant: TENANT_A, least: 0 })?;
    /// assert_eq!(desk.longest_estimate(Inquiry { nodes: 4, tenant: TENANT_A, minute: 0 })?, Some(20));
    /// assert_eq!(desk.longest_estimate(Inquiry { nodes: 5, tenant: TENANT_A, minute: 0 })?, None);
    /// # Ok(())
    /// # }
    /// ```
    pub fn longest_estimate(&self, inquiry: Inquiry) -> Result<Option<u32>, Refusal> {
        let longest = unsafe { raw::hingerota_longest_estimate(&self.raw, inquiry) };
        let estimate = answer::given(longest.refusal, longest.estimate, |estimate| *estimate == 0)?;
        Ok(Some(estimate).filter(|estimate| *estimate > 0))
    }

    /// The status page, `PAGE_BYTES` bytes for people to read, into the front of the bytes lent, and how many these are; refused by 10. Bytes
    /// past the page keep what they held.
    pub fn status_page(&self, page: &mut [u8]) -> Result<usize, Refusal> {
        unsafe { raw::hingerota_status_page(&self.raw, page.as_mut_ptr(), page.len()) }.given()
    }

    /// This page.
    pub fn page(&self) -> Vec<u8> {
        written(PAGE_BYTES, |page| self.status_page(page))
    }

    /// Why jobs of a Promise Desk wait, into the front of the bytes lent, and how many bytes these are: one sentence per waiting job, such as
    /// `stack 3 waits, minute 29, 2 with 8` and a line end, with the jobs that hold nodes in the minute just before its start. A Loose Desk
    /// has none. Refused by 10. The exact length is enough, and `WHY_BYTES` always are. Bytes past the sentences keep what they held.
    pub fn why(&self, text: &mut [u8]) -> Result<usize, Refusal> {
        unsafe { raw::hingerota_why(&self.raw, text.as_mut_ptr(), text.len()) }.given()
    }

    /// These sentences.
    pub fn sentences(&self) -> Vec<u8> {
        written(WHY_BYTES, |text| self.why(text))
    }

    /// The desk's lines, into the front of the bytes lent, and how many bytes these are; refused by 10. The exact length is enough, and
    /// `TEXT_BYTES` always are. Bytes past the text keep what they held.
    pub fn checkpoint(&self, text: &mut [u8]) -> Result<usize, Refusal> {
        unsafe { raw::hingerota_checkpoint(&self.raw, text.as_mut_ptr(), text.len()) }.given()
    }

    /// The desk's lines.
    pub fn text(&self) -> Vec<u8> {
        written(TEXT_BYTES, |text| self.checkpoint(text))
    }

    /// The desk in numbers, as a host in C has it.
    pub fn numbers(&self) -> &Numbers {
        &self.raw
    }

    pub fn kind(&self) -> Kind {
        match self.raw.kind {
            0 => Kind::Promise,
            _ => Kind::Loose,
        }
    }

    pub fn nodes(&self) -> u32 {
        self.raw.nodes
    }

    /// For how many minutes nodes stay taken after a run.
    pub fn cleanup(&self) -> u32 {
        self.raw.cleanup
    }

    /// How many live jobs A may have.
    pub fn quota_a(&self) -> u32 {
        self.raw.quota_a
    }

    /// How many live jobs B may have.
    pub fn quota_b(&self) -> u32 {
        self.raw.quota_b
    }

    pub fn clock(&self) -> u32 {
        self.raw.clock
    }

    /// The next ticket to be given.
    pub fn next(&self) -> u32 {
        self.raw.next
    }

    /// All 64 places: the live jobs first, in ticket order, then unused ones, all 0.
    pub fn records(&self) -> &[Record; 64] {
        &self.raw.jobs
    }

    /// The live jobs, in ticket order.
    pub fn live(&self) -> &[Record] {
        let live = self.raw.jobs.iter().take_while(|record| record.ticket != 0).count();
        &self.raw.jobs[..live]
    }
}

impl Debug for Desk {
    /// Its settings, its clock and its live jobs.
    fn fmt(&self, f: &mut Formatter) -> fmt::Result {
        f.debug_struct("Desk")
            .field("kind", &self.kind())
            .field("nodes", &self.nodes())
            .field("cleanup", &self.cleanup())
            .field("quotas", &[self.quota_a(), self.quota_b()])
            .field("clock", &self.clock())
            .field("next", &self.next())
            .field("jobs", &self.live())
            .finish()
    }
}

/// What a call writes into so many places, which always suffice.
fn written<T: Clone + Default>(room: usize, write: impl Fn(&mut [T]) -> Result<usize, Refusal>) -> Vec<T> {
    let mut places = vec![T::default(); room];
    let count = write(&mut places).expect("so many places are proved to be enough");
    places.truncate(count);
    places
}

impl Default for Opening {
    /// 1 node, minute 0, first ticket 1, no cleanup, and quotas of 63 and 1.
    fn default() -> Opening {
        Opening { nodes: 1, minute: 0, ticket: 1, cleanup: 0, quota_a: 63, quota_b: 1 }
    }
}

impl Record {
    pub fn waits(&self) -> bool {
        self.state == 1
    }
}

impl Numbers {
    /// Taken exactly if these are the numbers of a desk that meets the premise; otherwise refused by 23.
    pub fn check(&self) -> Result<(), Refusal> {
        // SAFETY: it is a whole desk, only read, and any numbers may stand in it.
        Refusal::judged(unsafe { raw::hingerota_check(self) })
    }
}
