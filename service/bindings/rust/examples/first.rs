//! A node and a hub in one process. Two requests are traced, one of them is claimed, and its trace is printed.

use hindsight::{Client, Hub, Node, Result, Trace, TraceId};

const SETTINGS: &str = "nodes 1\nbuffers 1024\ntriggerid 1\n";

/// Hands what the node says to the hub, and what the hub asks to the node.
fn carry(node: &Node, hub: &mut Hub) -> Result<()> {
    for _ in 0..10 {
        node.pass()?;
        while let Some(message) = node.next_message() {
            hub.deliver(&message.bytes)?;
            node.sent(message.number);
            node.acknowledged(message.number);
        }
        while let Some(ask) = hub.next_ask() {
            node.deliver(&ask.bytes)?;
        }
        hub.pass()?;
    }
    Ok(())
}

fn request(client: &Client<'_>, trace: TraceId, answer: &str) -> Result<()> {
    let segment = client.begin(trace)?;
    segment.point_at(1000, b"a request came")?;
    segment.point_at(2000, answer.as_bytes())?;
    if answer.contains("failed") {
        segment.trigger(1)?;
    }
    segment.end()
}

fn print(trace: &Trace) {
    let info = trace.info();
    let whole = if info.is_whole { "whole" } else { "not whole" };
    println!("trace ..{:02x}{:02x}, trigger {}, {whole}", info.id.0[14], info.id.0[15], info.trigger);
    for record in trace.records() {
        println!("  node {} at {} ns: {}", record.node, record.moment, String::from_utf8_lossy(record.payload));
    }
}

fn main() -> Result<()> {
    let node = Node::open(SETTINGS, 0, "", 0)?;
    let mut hub = Hub::open_fresh(SETTINGS, 0)?;
    let client = node.client()?;
    let mut id = TraceId::default();
    for (last, answer) in [(0xa1, "all is well"), (0xa2, "the database failed")] {
        id.0[15] = last;
        request(&client, id, answer)?;
    }
    carry(&node, &mut hub)?;
    while let Some(trace) = hub.take()? {
        print(&trace);
        hub.saved(trace.info().id);
    }
    Ok(())
}
