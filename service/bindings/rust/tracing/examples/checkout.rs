//! Requests traced by `tracing`, with the hub in the same process. What the failed one wrote is printed.

use hindsight::{Hub, Node, Result, SpanRecord};
use std::sync::Arc;
use tracing::{error, info, info_span};
use tracing_subscriber::prelude::*;

const SETTINGS: &str = "nodes 1\nbuffers 1024\ntriggerid 1\n";

fn charge(amount: u32) {
    let _span = info_span!("charge", amount).entered();
    if amount > 100 {
        error!(limit = 100, "the card was refused");
    }
}

fn checkout(amount: u32) {
    let _span = info_span!("POST /checkout", otel.kind = "server", amount).entered();
    info!("the basket is read");
    charge(amount);
}

fn carry(node: &Node, hub: &mut Hub) -> Result<()> {
    for _ in 0..10 {
        node.pass()?;
        while let Some(message) = node.next_message() {
            hub.deliver(&message.bytes)?;
            node.sent(message.number);
            node.acknowledged(message.number);
        }
        while let Some(ask) = hub.next_ask() {
            node.deliver(&ask.bytes)?;
        }
        hub.pass()?;
    }
    Ok(())
}

fn main() -> Result<()> {
    let node = Arc::new(Node::open(SETTINGS, 0, "shop", 0)?);
    let mut hub = Hub::open_fresh(SETTINGS, 0)?;
    tracing_subscriber::registry().with(hindsight_tracing::layer(node.clone()).on_error(1)).init();
    checkout(50);
    checkout(200);
    carry(&node, &mut hub)?;
    while let Some(trace) = hub.take()? {
        for said in trace.records().filter_map(|record| record.span()) {
            match said {
                SpanRecord::Start { kind, name, .. } => println!("{name} begins, {kind:?}"),
                SpanRecord::Attribute { key, value, .. } => println!("  {key}: {value:?}"),
                SpanRecord::Event { name, .. } => println!("  event: {name}"),
                SpanRecord::End { status, .. } => println!("ends, {status:?}"),
            }
        }
        hub.saved(trace.info().id);
    }
    Ok(())
}
