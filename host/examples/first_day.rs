//! A host program to copy: one machine of 10 nodes, whose minutes and completions it tells the desk. It prints what the desk answers.
//! `cargo run --offline --example first_day`

use hingerota_host::{Answer, Desk, Kind, Opening, Order, Refusal, TENANT_A, TENANT_B};
use std::error::Error;

fn print(desk: &Desk, call: &str, answer: Result<Answer, Refusal>) {
    print!("{call}:");
    let answer = match answer {
        Ok(answer) => answer,
        Err(refusal) => return println!(" refused by {} ({})", refusal.number(), refusal.reason()),
    };
    if answer.ticket != 0 {
        print!(" ticket {}", answer.ticket);
        if desk.kind() == Kind::Promise {
            print!(" promise {}", answer.promise);
        }
    }
    for ticket in answer.ended.iter() {
        print!(" ended {ticket}");
    }
    for ticket in answer.started.iter() {
        print!(" started {ticket}");
    }
    if let Some((head, forecast)) = answer.new_head() {
        print!(" head {head} forecast {forecast}");
    }
    println!();
}

fn complete(desk: &mut Desk, ticket: u32) {
    let answer = desk.complete(ticket);
    print(desk, &format!("complete {ticket}"), answer);
}

fn pass(desk: &mut Desk, mut minutes: u32) -> Result<(), Refusal> {
    while minutes > 0 {
        let advanced = desk.advance(minutes)?;
        if !advanced.answer.ended.is_empty() || !advanced.answer.started.is_empty() {
            print(desk, &format!("minute {}", desk.clock()), Ok(advanced.answer));
        }
        minutes -= advanced.minutes;
    }
    Ok(())
}

fn main() -> Result<(), Box<dyn Error>> {
    let orders =
        [(6, 5, 20, TENANT_A), (8, 0, 10, TENANT_B), (4, 25, 25, TENANT_A), (11, 0, 5, TENANT_A), (1, 6, 5, TENANT_A), (1, 0, 5, TENANT_B)];
    for (kind, name) in [(Kind::Promise, "promise"), (Kind::Loose, "loose")] {
        println!("{name} desk, 10 nodes, minute 0, first ticket 1, 63 places for A and 1 for B");
        let mut desk = Desk::open(kind, Opening { nodes: 10, minute: 0, ticket: 1, cleanup: 0, quota_a: 63, quota_b: 1 })?;
        for (nodes, least, estimate, tenant) in orders {
            let answer = desk.submit(Order { nodes, estimate, tenant, least });
            print(&desk, &format!("submit {nodes} {least} {estimate} {}", char::from(tenant as u8)), answer);
        }
        for point in desk.points() {
            println!("free from {}: {}", point.minute, point.free);
        }
        complete(&mut desk, 1);
        pass(&mut desk, 5)?;
        complete(&mut desk, 1);
        pass(&mut desk, 40)?;
    }
    Ok(())
}
