//! The free nodes from now on, as steps: the library's profile.

use super::bars::NODES;
use super::svg::{Svg, Tenths};
use super::{Plan, STEPS};
use hingerota_host::Point;

/// A step is labelled where it has so much room, in tenths.
const ROOM: i64 = 260;

pub fn draw(svg: &mut Svg, plan: &Plan) {
    let points = plan.desk.points();
    let (top, nodes) = (plan.steps_top(), plan.desk.nodes());
    let height = |free: u32| Tenths((top + STEPS) * 10 - i64::from(free) * STEPS * 10 / i64::from(nodes));
    let label = Tenths::whole(NODES);
    svg.within("g", r#" class="free""#, |svg| {
        svg.text("column number", label, Tenths::whole(top + STEPS / 2 + 4), "free nodes");
        svg.text("column number", label, height(nodes).plus(9), &nodes.to_string());
        svg.text("column number", label, height(0), "0");
        svg.line("rule", (plan.axis.left(), height(nodes)), (plan.axis.right(), height(nodes)));
        let steps = flat(plan, &points);
        outline(svg, &steps, height);
        for (from, to, free) in steps {
            if to.0 - from.0 >= ROOM {
                let y = height(free);
                let inside = i64::from(free) * 3 > i64::from(nodes);
                svg.text("step", Tenths((from.0 + to.0) / 2), y.plus(if inside { 13 } else { -3 }), &free.to_string());
            }
        }
        svg.line("rule", (plan.axis.left(), height(0)), (plan.axis.right(), height(0)));
    });
}

/// Of each step on the axis, where it begins and ends, and how many nodes are free.
fn flat(plan: &Plan, points: &[Point]) -> Vec<(Tenths, Tenths, u32)> {
    let ends = points.iter().skip(1).map(|point| point.minute).chain([u32::MAX]);
    let on_axis = points.iter().zip(ends).filter(|(point, _)| point.minute < plan.axis.until());
    let place = |minute| plan.axis.place(plan.axis.clamped(minute));
    on_axis.map(|(point, end)| (place(point.minute), place(end), point.free)).collect()
}

/// The steps filled, and their upper edge.
fn outline(svg: &mut Svg, steps: &[(Tenths, Tenths, u32)], height: impl Fn(u32) -> Tenths) {
    let Some((first, ..)) = steps.first() else {
        return;
    };
    let mut edge = String::new();
    for (place, (from, to, free)) in steps.iter().enumerate() {
        let y = height(*free);
        edge += &format!("{}{from} {y}H{to}", if place == 0 { "M" } else { "L" });
    }
    svg.path("under", &format!("{edge}V{}H{first}z", height(0)));
    svg.path("edge", &edge);
}
