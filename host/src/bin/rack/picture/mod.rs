//! The plan of a desk as a picture, in SVG: a lane for each live job with its bar, below them the free nodes. It shows what the library's
//! records, its status page and its profile give, and plans nothing.

mod axis;
mod bars;
mod lanes;
mod legend;
mod steps;
mod svg;

pub use lanes::{lanes, Lane, State};
pub use svg::escaped;

use crate::desk::Times;
use crate::fields::number;
use axis::Axis;
use hingerota_host::{Desk, Kind, Refusal};
use svg::{Svg, Tenths};

const WIDTH: i64 = 1_200;
const LEFT: i64 = 172;
const RIGHT: i64 = 36;
/// Where the first lane begins.
const TOP: i64 = 94;
/// All lanes together are no higher, so that 64 fit on a screen; and one is no higher than this.
const LANES: i64 = 704;
const LANE: i64 = 26;
const STEPS: i64 = 76;

/// What is drawn, and where.
struct Plan<'a> {
    desk: &'a Desk,
    times: Times<'a>,
    lanes: &'a [Lane],
    axis: Axis,
    /// The height of a lane.
    lane: i64,
}

impl Plan<'_> {
    /// The upper edge of a lane.
    fn lane_top(&self, place: usize) -> i64 {
        TOP + self.lane * place as i64
    }

    /// Where the lanes end.
    fn bottom(&self) -> i64 {
        self.lane_top(self.lanes.len().max(1))
    }

    /// The upper edge of the free nodes.
    fn steps_top(&self) -> i64 {
        self.bottom() + 30
    }

    fn has_steps(&self) -> bool {
        self.desk.kind() == Kind::Promise
    }

    /// The lower edge of what is drawn by the axis.
    fn base(&self) -> i64 {
        if self.has_steps() {
            self.steps_top() + STEPS
        } else {
            self.bottom()
        }
    }

    /// The line on which the word for now stands.
    fn foot(&self) -> i64 {
        if self.has_steps() {
            self.base() + 14
        } else {
            self.base() + 30
        }
    }
}

/// The minute of `--until` in the arguments after `picture`, or why they are wrong.
pub fn until(arguments: &[&[u8]]) -> Result<Option<u32>, String> {
    match arguments {
        [] => Ok(None),
        [b"--until", minute] => match number(minute) {
            Ok(minute) => Ok(Some(minute)),
            Err(_) => Err(format!("'{}' is no minute", minute.escape_ascii())),
        },
        _ => Err("'picture' has --until MINUTE, and nothing else".to_string()),
    }
}

/// The picture; or why there is none, where its last minute is not after the desk's.
pub fn picture(desk: &Desk, times: Times, until: Option<u32>) -> Result<String, String> {
    match until {
        Some(minute) if minute <= desk.clock() => {
            let known = [("minute", minute.to_string()), ("clock", desk.clock().to_string())];
            Err(format!("no picture until then: {}", Refusal::WANTED_MINUTE_PAST.sentence(&known)))
        }
        _ => Ok(drawn(desk, times, until, &lanes(desk))),
    }
}

/// The same of lanes that are at hand.
pub fn drawn(desk: &Desk, times: Times, until: Option<u32>, lanes: &[Lane]) -> String {
    let lane = (LANES / lanes.len().max(1) as i64).min(LANE);
    let axis = Axis::new(lanes, desk.clock(), until, LEFT, WIDTH - LEFT - RIGHT);
    let plan = Plan { desk, times, lanes, axis, lane };
    let mut svg = Svg::default();
    let (width, height) = (WIDTH, plan.foot() + 6);
    let root = format!(
        r#" xmlns="http://www.w3.org/2000/svg" class="plan" width="{width}" height="{height}" viewBox="0 0 {width} {height}" role="img" aria-labelledby="plan-title plan-desc""#
    );
    svg.within("svg", &root, |svg| {
        svg.words("title", r#" id="plan-title""#, &heading(&plan));
        svg.words("desc", r#" id="plan-desc""#, &description(&plan));
        svg.line_of(legend::STYLE.trim());
        svg.rect("paper", Tenths(0), Tenths(0), Tenths::whole(width), Tenths::whole(height));
        svg.text("heading", Tenths::whole(12), Tenths::whole(24), &heading(&plan));
        legend::draw(svg, &plan);
        bars::stripes(svg, &plan);
        grid(svg, &plan);
        bars::draw(svg, &plan);
        if plan.has_steps() {
            steps::draw(svg, &plan);
        }
        now(svg, &plan);
    });
    svg.text
}

pub fn kind(desk: &Desk) -> &'static str {
    match desk.kind() {
        Kind::Promise => "Promise Desk",
        Kind::Loose => "Loose Desk",
    }
}

fn heading(plan: &Plan) -> String {
    let nodes = plan.desk.nodes();
    let plural = if nodes == 1 { "" } else { "s" };
    format!("{} of {nodes} node{plural}, {}, next ticket {}", kind(plan.desk), plan.times.present(), plan.desk.next())
}

/// `3 stacks are live: 1 runs, 0 are cleared, 2 wait`.
pub fn count(lanes: &[Lane]) -> String {
    let of = |state| lanes.iter().filter(|lane| lane.state == state).count();
    let verb = |count, one, more| format!("{count} {}", if count == 1 { one } else { more });
    let all = verb(lanes.len(), "stack is live", "stacks are live");
    let runs = verb(of(State::Runs), "runs", "run");
    let cleared = verb(of(State::IsCleared), "is cleared", "are cleared");
    format!("{all}: {runs}, {cleared}, {}", verb(of(State::Waits), "waits", "wait"))
}

/// For who hears the picture.
fn description(plan: &Plan) -> String {
    let mut text = format!("{}.", count(plan.lanes));
    for lane in plan.lanes {
        text += &format!(" {}.", lane.sentence(&plan.times));
    }
    text
}

/// A line for each tick, with its label above the lanes and below them.
fn grid(svg: &mut Svg, plan: &Plan) {
    let below = Tenths::whole(plan.bottom() + 15);
    svg.within("g", r#" class="axis""#, |svg| {
        let (left, right, top) = (plan.axis.left(), plan.axis.right(), Tenths::whole(TOP));
        svg.rect("field", left, top, Tenths(right.0 - left.0), Tenths::whole(plan.bottom() - TOP));
        for tick in plan.axis.ticks(&plan.times) {
            let x = plan.axis.place(tick.minute);
            svg.line("grid", (x, Tenths::whole(TOP - 5)), (x, Tenths::whole(plan.base())));
            svg.text("tick", x, Tenths::whole(TOP - 9), &tick.label);
            svg.text("below", x, below, &tick.label);
            if let Some(date) = tick.date {
                svg.text("date", x, Tenths::whole(TOP - 24), &date);
            }
        }
        if plan.times.since.is_none() {
            svg.text("column number", Tenths::whole(bars::NODES), below, "minute");
        }
    });
}

/// The line for now, over everything else.
fn now(svg: &mut Svg, plan: &Plan) {
    let x = plan.axis.place(plan.desk.clock());
    svg.line("now", (x, Tenths::whole(TOP - 5)), (x, Tenths::whole(plan.base())));
    let minute =
        plan.times.since.map_or_else(|| plan.desk.clock().to_string(), |since| since.time_of(plan.desk.clock(), Some(plan.desk.clock())));
    svg.text("here", x, Tenths::whole(plan.foot()), &format!("now {minute}"));
}
