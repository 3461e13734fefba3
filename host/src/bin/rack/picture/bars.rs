//! The lanes: labels, bars and marks.

use super::lanes::{Lane, Span, State};
use super::svg::{Svg, Tenths};
use super::{Plan, TOP, WIDTH};

/// The right ends of the labels' columns, and the middle of the house's.
const TICKET: i64 = 54;
const HOUSE: i64 = 80;
pub const NODES: i64 = 138;

/// Behind every other lane, so that the eye stays in it.
pub fn stripes(svg: &mut Svg, plan: &Plan) {
    for place in (0..plan.lanes.len()).step_by(2) {
        let (y, height) = (Tenths::whole(plan.lane_top(place)), Tenths::whole(plan.lane));
        svg.rect("stripe", Tenths(0), y, Tenths::whole(WIDTH), height);
    }
}

pub fn draw(svg: &mut Svg, plan: &Plan) {
    let size = (plan.lane - 1).min(13);
    let heading = Tenths::whole(TOP - 9);
    for (class, x, text) in [("number", TICKET, "ticket"), ("letter", HOUSE, "house"), ("number", NODES, "nodes")] {
        svg.text(&format!("column {class}"), Tenths::whole(x), heading, text);
    }
    svg.within("g", &format!(r#" class="lanes" font-size="{size}""#), |svg| {
        for (place, lane) in plan.lanes.iter().enumerate() {
            let row = Row::new(plan, place);
            svg.within("g", &format!(r#" id="job-{}""#, lane.ticket), |svg| row.draw(svg, plan, lane));
        }
        if plan.lanes.is_empty() {
            svg.text("waits", plan.axis.left().plus(8), Tenths::whole(TOP + plan.lane - 9), "no stack is live");
        }
    });
}

/// Where a lane lies.
struct Row {
    top: i64,
    height: i64,
    middle: Tenths,
    /// The line on which its text stands.
    foot: Tenths,
}

impl Row {
    fn new(plan: &Plan, place: usize) -> Row {
        let (top, height) = (plan.lane_top(place), plan.lane);
        let middle = Tenths(top * 10 + height * 5);
        Row { top, height, middle, foot: Tenths(middle.0 + (height - 1).min(13) * 7 / 2) }
    }

    fn draw(&self, svg: &mut Svg, plan: &Plan, lane: &Lane) {
        svg.words("title", "", &lane.sentence(&plan.times));
        svg.text("number", Tenths::whole(TICKET), self.foot, &lane.ticket.to_string());
        svg.text("letter", Tenths::whole(HOUSE), self.foot, &lane.house.to_string());
        svg.text("number", Tenths::whole(NODES), self.foot, &lane.nodes.to_string());
        match lane.span {
            Some(span) => self.bars(svg, plan, lane, span),
            None => self.waits(svg, plan, lane),
        }
        if let Some(mark) = lane.mark {
            self.mark(svg, plan, mark);
        }
    }

    /// The run and the clearing after it. Where one goes on past an end of the axis, an arrow says so.
    fn bars(&self, svg: &mut Svg, plan: &Plan, lane: &Lane, span: Span) {
        let (axis, house) = (&plan.axis, lane.class());
        let run = if lane.state == State::Waits { "planned" } else { "run" };
        self.bar(svg, plan, &format!("bar {run} {house}"), span.start, span.end);
        self.bar(svg, plan, &format!("bar clearing {house}"), span.end, span.cleared);
        let by = (self.height / 2 - 1).min(6);
        if axis.starts_after(span.start) {
            svg.arrow(&format!("on {house}"), axis.left().plus(-2), self.middle, -by);
        }
        if axis.ends_before(span.cleared) {
            svg.arrow(&format!("on {house}"), axis.right().plus(2), self.middle, by);
        }
    }

    /// What of it lies on the axis.
    fn bar(&self, svg: &mut Svg, plan: &Plan, class: &str, from: u32, to: u32) {
        let (from, to) = (plan.axis.clamped(from), plan.axis.clamped(to));
        if from < to {
            let (x, end, inside) = (plan.axis.place(from), plan.axis.place(to), self.height / 8);
            let (y, height) = (Tenths::whole(self.top + inside), Tenths::whole(self.height - 2 * inside));
            svg.rect(class, x, y, Tenths(end.0 - x.0), height);
        }
    }

    /// Of a job for which nothing is planned.
    fn waits(&self, svg: &mut Svg, plan: &Plan, lane: &Lane) {
        let x = plan.axis.place(plan.desk.clock()).plus(8);
        let close = |mark: &u32| (0..=1_800).contains(&(plan.axis.place(*mark).0 - x.0));
        let x = lane.mark.filter(close).map_or(x, |mark| plan.axis.place(mark).plus(10));
        svg.text("waits", x, self.foot, &format!("waits to run for {} minutes", lane.held));
    }

    fn mark(&self, svg: &mut Svg, plan: &Plan, minute: u32) {
        let by = (self.height / 2 - 1).min(6);
        if plan.axis.ends_before(minute) {
            svg.diamond("mark later", plan.axis.right().plus(20), self.middle, by);
        } else if !plan.axis.starts_after(minute) {
            svg.diamond("mark", plan.axis.place(minute), self.middle, by);
        }
    }
}
