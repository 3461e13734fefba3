//! The page of a desk in HTML, one file that needs nothing else: heading, queue and picture. It is XML too. What it shows is the library's: the
//! records, the soonest minutes and the sentences why jobs wait.

use crate::desk::Times;
use crate::picture::{count, drawn, escaped, kind, lanes, Lane, State};
use hingerota_host::{Desk, Kind};

/// After so many seconds a browser loads it again.
const RELOAD: u32 = 60;
/// With more jobs than these, rows are low, so that they fit on a screen.
const MANY: usize = 24;

const STYLE: &str = "
body{margin:12px 16px;font-family:'DejaVu Sans',Verdana,Arial,sans-serif;font-size:14px;line-height:1.35;color:#1a1a1a;background:#fff}
h1{font-size:20px;margin:0 0 2px}
p{margin:0 0 10px}
.clock{font-size:18px}
table{border-collapse:collapse;margin:0 0 14px}
caption{text-align:left;font-weight:bold;padding-bottom:4px}
th,td{text-align:left;padding:3px 16px 3px 0;border-bottom:1px solid #c9ccd1;vertical-align:top}
th{border-bottom:2px solid #1a1a1a}
.n{text-align:right;white-space:nowrap}
.t{white-space:nowrap}
.why{min-width:16em}
.runs,.cleared{color:#444}
.waits .state{font-weight:bold}
.many{font-size:11px;line-height:1.15}
.many th,.many td{padding:0 8px 0 0}
svg{display:block;width:100%;height:auto;max-height:96vh}
@media (min-width:1700px){main{display:grid;grid-template-columns:minmax(0,9fr) minmax(0,11fr);column-gap:20px;align-items:start}main div{position:sticky;top:8px}}
@media print{body{margin:0}tr{break-inside:avoid}svg{break-inside:avoid}}
";

pub fn page(desk: &Desk, times: Times) -> String {
    let lanes = lanes(desk);
    let (kind, nodes, present, next) = (kind(desk), desk.nodes(), times.present(), desk.next());
    let plural = if nodes == 1 { "" } else { "s" };
    format!(
        r#"<!DOCTYPE html>
<html xmlns="http://www.w3.org/1999/xhtml" lang="en">
<head>
<meta charset="utf-8"/>
<meta http-equiv="refresh" content="{RELOAD}"/>
<meta name="viewport" content="width=device-width, initial-scale=1"/>
<link rel="icon" href="data:,"/>
<title>{kind}, {present}</title>
<style>{STYLE}</style>
</head>
<body>
<h1>{kind} of {nodes} node{plural}</h1>
<p class="clock">It is <strong>{present}</strong>. The next ticket is <strong>{next}</strong>.</p>
<p>{}.</p>
<main>
{}<div>
{}</div>
</main>
</body>
</html>
"#,
        count(&lanes),
        table(desk, &times, &lanes),
        drawn(desk, times, None, &lanes),
    )
}

/// The queue, a row for each live job in ticket order.
fn table(desk: &Desk, times: &Times, lanes: &[Lane]) -> String {
    if lanes.is_empty() {
        return "<p>No stack is live.</p>\n".to_string();
    }
    let is_promise = desk.kind() == Kind::Promise;
    let by = if is_promise { "promise" } else { "forecast" };
    let mut columns = vec![("n", "ticket"), ("t", "house"), ("n", "nodes"), ("n", "minutes"), ("t", "state"), ("t", "start"), ("t", "end")];
    columns.extend([("t", by), ("t", "soonest")]);
    if is_promise {
        columns.push(("why", "why it waits"));
    }
    let class = if lanes.len() > MANY { r#" class="many""# } else { "" };
    let mut text = format!("<table{class}>\n<caption>The queue</caption>\n<thead>\n<tr>");
    for (class, name) in columns {
        text += &format!(r#"<th scope="col" class="{class}">{name}</th>"#);
    }
    text += "</tr>\n</thead>\n<tbody>\n";
    let sentences = sentences(desk, times);
    for lane in lanes {
        text += &row(desk, times, lane, is_promise.then(|| sentence_of(&sentences, lane.ticket)));
    }
    text + "</tbody>\n</table>\n"
}

fn row(desk: &Desk, times: &Times, lane: &Lane, why: Option<&str>) -> String {
    let (class, state) = match lane.state {
        State::Waits => ("waits", "waits"),
        State::Runs => ("runs", "runs"),
        State::IsCleared => ("cleared", "is cleared"),
    };
    let minute = |minute: Option<u32>| minute.map_or("–".to_string(), |minute| times.cell(minute));
    // Refused of one that does not wait.
    let soonest = desk.earliest_start(lane.ticket).ok();
    let (start, end) = (lane.span.map(|span| span.start), lane.span.map(|span| span.end));
    let cells = [
        ("n", lane.ticket.to_string()),
        ("t", lane.house.to_string()),
        ("n", lane.nodes.to_string()),
        ("n", lane.held.to_string()),
        ("t state", state.to_string()),
        ("t", minute(start)),
        ("t", minute(end)),
        ("t", minute(lane.mark)),
        ("t", minute(soonest)),
    ];
    let mut text = format!(r#"<tr class="job {class}">"#);
    for (class, cell) in cells.into_iter().chain(why.map(|why| ("why", why.to_string()))) {
        text += &format!(r#"<td class="{class}">{}</td>"#, escaped(&cell));
    }
    text + "</tr>\n"
}

/// The library's sentences, one for each waiting job of a Promise Desk, with the time of day after their minute where the desk follows the clock.
fn sentences(desk: &Desk, times: &Times) -> Vec<String> {
    let text = String::from_utf8_lossy(&desk.sentences()).into_owned();
    text.lines().map(|line| with_time(line, times)).collect()
}

/// Of `stack 3 waits, minute 29, 2 with 8`.
fn with_time(line: &str, times: &Times) -> String {
    let mut parts: Vec<String> = line.split(", ").map(str::to_string).collect();
    if let Some(minute) = parts.get(1).and_then(|part| part.strip_prefix("minute ")?.parse().ok()) {
        parts[1] = times.minute(minute);
    }
    parts.join(", ")
}

/// Of a job that does not wait there is none.
fn sentence_of(sentences: &[String], ticket: u32) -> &str {
    let begins = format!("stack {ticket} waits");
    sentences.iter().find(|line| line.split(", ").next() == Some(&begins)).map_or("", String::as_str)
}

#[cfg(test)]
mod tests {
    use super::*;

    #[test]
    fn a_sentence_is_found_by_its_ticket() {
        let sentences = ["stack 12 waits, minute 29, 1 with 8".to_string(), "stack 1 waits, minute 3".to_string()];
        assert_eq!(sentence_of(&sentences, 1), "stack 1 waits, minute 3");
        assert_eq!(sentence_of(&sentences, 2), "");
    }
}
