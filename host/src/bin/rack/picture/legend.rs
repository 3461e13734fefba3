//! The colours and patterns of a picture, and what they mean. House A is blue and dark, house B is orange and light, so that the two differ in
//! grey too; running, planned and clearing differ by their form.

use super::svg::{Svg, Tenths};
use super::{Plan, WIDTH};
use hingerota_host::Kind;

pub const STYLE: &str = "
<style>
.plan text{font-family:'DejaVu Sans',Verdana,Arial,sans-serif;fill:#1a1a1a}
.plan .paper{fill:#fff}
.plan .stripe{fill:#f2f3f5}
.plan .heading{font-size:16px;font-weight:bold}
.plan .here{font-size:12px;font-weight:bold;text-anchor:middle}
.plan .key,.plan .tick,.plan .below{font-size:12px}
.plan .tick,.plan .below,.plan .date,.plan .letter,.plan .step{text-anchor:middle}
.plan .number{text-anchor:end}
.plan .date,.plan .step,.plan .column{font-size:11px}
.plan .date,.plan .below,.plan .column{fill:#555}
.plan .waits{fill:#555;font-style:italic}
.plan .grid{stroke:#c9ccd1;stroke-width:1}
.plan .field{fill:none;stroke:#c9ccd1;stroke-width:1}
.plan .rule{stroke:#8a8f98;stroke-width:1}
.plan .now{stroke:#000;stroke-width:2;stroke-dasharray:6 3}
.plan .a{stroke:#003a5d}
.plan .b{stroke:#7a4a00}
.plan .run.a,.plan .on.a{fill:#0072b2}
.plan .run.b,.plan .on.b{fill:#f5b041}
.plan .bar{stroke-width:1}
.plan .planned{fill:#fff;stroke-width:1.6}
.plan .clearing.a{fill:url(#plan-clearing-a)}
.plan .clearing.b{fill:url(#plan-clearing-b)}
.plan .on{stroke:none}
.plan .mark{fill:#fff;stroke:#000;stroke-width:1.5}
.plan .later{fill:#000}
.plan .under{fill:#d5dae1}
.plan .edge{fill:none;stroke:#3c4654;stroke-width:1.6}
</style>
<defs>
<pattern id=\"plan-clearing-a\" width=\"5\" height=\"5\" patternUnits=\"userSpaceOnUse\" patternTransform=\"rotate(45)\">
<rect width=\"5\" height=\"5\" fill=\"#fff\"/><rect width=\"2\" height=\"5\" fill=\"#0072b2\"/></pattern>
<pattern id=\"plan-clearing-b\" width=\"5\" height=\"5\" patternUnits=\"userSpaceOnUse\" patternTransform=\"rotate(-45)\">
<rect width=\"5\" height=\"5\" fill=\"#fff\"/><rect width=\"2\" height=\"5\" fill=\"#c77700\"/></pattern>
</defs>";

enum Sample {
    Bar(&'static str),
    Mark,
    Now,
    On,
    Later,
    Free,
}

const FOOT: i64 = 50;
/// A character is so wide in the legend's font, or narrower, in tenths.
const CHARACTER: i64 = 68;

pub fn draw(svg: &mut Svg, plan: &Plan) {
    svg.within("g", r#" class="legend""#, |svg| {
        let mut x = Tenths::whole(12);
        for (sample, says) in entries(plan) {
            let width = sample.draw(svg, x);
            svg.text("key", x.plus(width + 5), Tenths::whole(FOOT), says);
            x = Tenths(x.0 + (width + 22) * 10 + says.len() as i64 * CHARACTER);
        }
        debug_assert!(x.0 <= WIDTH * 10);
    });
}

fn entries(plan: &Plan) -> Vec<(Sample, &'static str)> {
    use Sample::*;
    let mut entries = vec![(Bar("run a"), "house A runs"), (Bar("run b"), "house B runs")];
    let is_promise = plan.desk.kind() == Kind::Promise;
    if is_promise {
        entries.extend([(Bar("planned a"), "A is planned"), (Bar("planned b"), "B is planned")]);
    }
    if plan.desk.cleanup() > 0 {
        entries.extend([(Bar("clearing a"), "A is cleared"), (Bar("clearing b"), "B is cleared")]);
    }
    entries.push((Mark, if is_promise { "promise" } else { "forecast of the first that waits" }));
    entries.push((Now, "now"));
    if is_promise {
        entries.push((Free, "free nodes"));
    }
    let cut = |minute: u32| plan.axis.starts_after(minute) || plan.axis.ends_before(minute);
    if plan.lanes.iter().filter_map(|lane| lane.span).any(|span| cut(span.start) || cut(span.cleared)) {
        entries.push((On, "goes on"));
    }
    if plan.lanes.iter().filter_map(|lane| lane.mark).any(|mark| plan.axis.ends_before(mark)) {
        entries.push((Later, "later"));
    }
    entries
}

impl Sample {
    /// How wide it is.
    fn draw(&self, svg: &mut Svg, x: Tenths) -> i64 {
        let (y, middle) = (Tenths::whole(FOOT - 10), Tenths::whole(FOOT - 4));
        match self {
            Sample::Bar(class) => {
                svg.rect(&format!("bar {class}"), x, y, Tenths::whole(20), Tenths::whole(12));
                20
            }
            Sample::Mark | Sample::Later => {
                let class = if matches!(self, Sample::Later) { "mark later" } else { "mark" };
                svg.diamond(class, x.plus(6), middle, 6);
                12
            }
            Sample::Now => {
                svg.line("now", (x.plus(2), Tenths::whole(FOOT - 13)), (x.plus(2), Tenths::whole(FOOT + 5)));
                4
            }
            Sample::On => {
                svg.arrow("on a", x, middle, 6);
                6
            }
            Sample::Free => {
                svg.rect("under", x, y, Tenths::whole(20), Tenths::whole(12));
                svg.line("edge", (x, y), (x.plus(20), y));
                20
            }
        }
    }
}
