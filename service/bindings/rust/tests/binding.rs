//! What is begun is ended, what is refused is said, and threads and tasks write at once.

use hindsight::{new_trace, Batch, Context, Error, Hub, Kind, Node, SpanId, SpanRecord, Status, Trace, TraceId, Value, NO_NODE};
use std::collections::HashMap;
use std::io::IoSlice;
use std::sync::Arc;
use std::thread;

const SETTINGS: &str = "nodes 2\nclients 4\nbuffers 1024\ntriggerid 1 1 1000 1000\nauto 0 exception 1\n";

fn node() -> Node {
    Node::open(SETTINGS, 1, "rust", 7).unwrap()
}

fn carry(node: &Node, hub: &mut Hub) {
    for _ in 0..64 {
        node.pass().unwrap();
        while let Some(message) = node.next_message() {
            hub.deliver(&message.bytes).unwrap();
            assert!(node.sent(message.number) && node.acknowledged(message.number));
        }
        while let Some(ask) = hub.next_ask() {
            if ask.to == 1 {
                node.deliver(&ask.bytes).unwrap();
            }
        }
        hub.pass().unwrap();
    }
}

fn traces(node: &Node, hub: &mut Hub) -> HashMap<TraceId, Trace> {
    carry(node, hub);
    let mut found = HashMap::new();
    while let Some(trace) = hub.take().unwrap() {
        let id = trace.info().id;
        assert!(hub.saved(id) && !hub.saved(id));
        found.insert(id, trace);
    }
    found
}

fn payloads(trace: &Trace) -> Vec<Vec<u8>> {
    trace.records().map(|record| record.payload.to_vec()).collect()
}

#[test]
fn refusals() {
    let refused = Node::open("nodes 2\nnodes 2\n", 0, "", 0).err().unwrap();
    assert!(matches!(&refused, Error::Settings { line: 2, why } if why.contains("twice")));
    assert!(refused.to_string().starts_with("settings, line 2: "));
    assert_eq!(Node::open(SETTINGS, 2, "", 0).err(), Some(Error::Undeclared));
    assert_eq!(Node::open(SETTINGS, 0, &"n".repeat(65), 0).err(), Some(Error::TooLong));
    assert_eq!(Node::open(SETTINGS, 0, "a\0b", 0).err(), Some(Error::Invalid));
    assert!(Hub::open("size 1\n", 0).is_err());
    let node = node();
    assert_eq!(node.deliver(b"no message"), Err(Error::Refused));
    assert_eq!(node.deliver(b""), Err(Error::Refused));
    let client = node.client().unwrap();
    assert_eq!(client.begin(TraceId::default()).err(), Some(Error::Invalid));
    assert_eq!(client.trace(), None);
    let segment = client.begin(TraceId([9; 16])).unwrap();
    assert_eq!(client.trace(), Some(TraceId([9; 16])));
    assert_eq!(client.begin(TraceId([8; 16])).err(), Some(Error::Open));
    assert_eq!(segment.point(&[0; 65536]), Err(Error::TooLong));
    assert_eq!(segment.trigger(2), Err(Error::Undeclared));
    assert_eq!(segment.trigger_with(1, &[TraceId([1; 16]); 33]), Err(Error::Invalid));
    assert_eq!(segment.crumb(2), Err(Error::Undeclared));
    assert_eq!(segment.sample(1, 0), Err(Error::Undeclared));
    segment.point(b"").unwrap();
    segment.end().unwrap();
    assert_eq!(client.write(b"E").2, Err(Error::NoTrace));
    assert_eq!(client.write(b"X"), (0, 0, Err(Error::Refused)));
    let counts = client.counts().unwrap();
    assert_eq!((counts.points, counts.long_points, counts.stray_points), (1, 1, 0));
    assert_eq!(node.counts().unwrap().points, 1);
    assert_eq!(Error::Full.to_string(), "too much waits; call again after a pass");
}

#[test]
fn a_pool_that_is_empty() {
    // a header of 24 bytes and two records of 10 beside 10 are a page of 64 bytes: four buffers take eight records
    let node = Node::open("nodes 2\nclients 1\nbuffers 4\nsize 64\nthreshold 1\npins 1\ntriggerid 1\n", 1, "rust", 7).unwrap();
    let client = node.client().unwrap();
    let segment = client.begin(TraceId([5; 16])).unwrap();
    for _ in 0..8 {
        segment.point(b"0123456789").unwrap();
    }
    assert_eq!(segment.point(b"0123456789"), Err(Error::Dry));
    segment.end().unwrap();
    assert_eq!(client.counts().unwrap().null_pages, 1);
    assert_eq!((Error::Dry.code(), Error::Dry.to_string()), (-19, "no buffer was free, so the record is lost".to_string()));
}

#[test]
fn clients_are_given_back() {
    let node = node();
    let first = node.client().unwrap();
    thread::scope(|threads| {
        let held: Vec<_> = (0..3).map(|_| threads.spawn(|| node.client().is_ok())).collect();
        assert!(held.into_iter().all(|one| one.join().unwrap()));
    });
    // threads that ended gave theirs back
    for _ in 0..20 {
        thread::scope(|threads| {
            threads.spawn(|| {
                let client = node.client().unwrap();
                let segment = client.begin(TraceId([3; 16])).unwrap();
                segment.point(b"x").unwrap();
            });
        });
    }
    assert_eq!(node.counts().unwrap().points, 20);
    assert_eq!(first.flush(), Ok(0));
}

#[test]
fn records_and_spans() {
    let (node, mut hub) = (node(), Hub::open_fresh(SETTINGS, 0).unwrap());
    let (fine, failed) = (new_trace().unwrap(), new_trace().unwrap());
    let client = node.client().unwrap();
    for id in [fine, failed] {
        let context = Context { trace: id, span: Default::default(), flags: 1, node: NO_NODE };
        let segment = client.begin_from(&context).unwrap();
        segment.point_at(7, b"first").unwrap();
        segment.points(&[IoSlice::new(b"pie"), IoSlice::new(b""), IoSlice::new(b"ces")]).unwrap();
        let mut span = segment.span("GET /", Kind::Server);
        span.event("began").unwrap();
        span.set("text", "a long text ".repeat(1000).as_str()).unwrap();
        span.set("whole", -1).unwrap();
        span.set("real", 0.5).unwrap();
        span.set("truth", true).unwrap();
        assert_eq!(span.set("", true), Err(Error::Invalid));
        span.status(Status::Error);
        drop(span);
        if id == failed {
            segment.trigger(1).unwrap();
        }
    }
    assert!(hub.take().unwrap().is_none());
    let found = traces(&node, &mut hub);
    assert_eq!(found.keys().copied().collect::<Vec<_>>(), [failed]);
    let trace = &found[&failed];
    let info = trace.info();
    assert!(info.is_whole && info.trigger == 1 && info.part == 0);
    let all = payloads(trace);
    assert_eq!(all.len(), 9);
    assert_eq!((&all[0][..], &all[1][..]), (&b"first"[..], &b"pieces"[..]));
    let said: Vec<SpanRecord> = trace.records().filter_map(|record| record.span()).collect();
    assert_eq!(said.len(), 7);
    let (id, parent) = match said[0] {
        SpanRecord::Start { span, parent, kind: Kind::Server, name: "GET /" } => (span, parent),
        other => panic!("{other:?}"),
    };
    assert_eq!((parent, id == parent), (SpanId::default(), false));
    assert_eq!(said[1], SpanRecord::Event { span: id, name: "began" });
    match said[2] {
        SpanRecord::Attribute { key: "text", value: Value::Text(long), .. } => assert_eq!(long, &"a long text ".repeat(1000)[..4096]),
        other => panic!("{other:?}"),
    }
    assert_eq!(said[3], SpanRecord::Attribute { span: id, key: "whole", value: Value::Int(-1) });
    assert_eq!(said[4], SpanRecord::Attribute { span: id, key: "real", value: Value::Double(0.5) });
    assert_eq!(said[5], SpanRecord::Attribute { span: id, key: "truth", value: Value::Bool(true) });
    assert_eq!(said[6], SpanRecord::End { span: id, status: Status::Error, message: "" });
    assert_eq!(trace.records().next().unwrap().span(), None);
    let life = trace.lives().find(|life| life.node == 1).unwrap();
    assert_eq!((life.name, life.epoch, life.records), ("rust", 7, 9));
    let line = trace.otlp().unwrap();
    assert!(line.contains(&failed.to_string()) && line.contains("GET /") && line.ends_with('\n'));
    let mut named = 0;
    while let Some(id) = hub.acknowledge() {
        assert_eq!((id.node, id.epoch), (1, 7));
        named += 1;
    }
    assert!(named > 0);
}

#[test]
fn messages_come_again() {
    let node = node();
    assert!(node.pass().unwrap());
    let hello = node.next_message().unwrap();
    assert_eq!(hello.bytes[1], 1);
    assert_eq!(node.next_message().unwrap(), hello);
    assert!(node.fd().unwrap() >= 0);
    assert!(node.sent(hello.number) && !node.sent(hello.number) && node.next_message().is_none());
    node.again().unwrap();
    assert_eq!(node.next_message().unwrap(), hello);
    assert!(node.acknowledged(hello.number) && !node.acknowledged(hello.number));
    node.hello().unwrap();
    assert!(node.next_message().unwrap().number > hello.number);
}

/// A trace whose end finds no place is ended by the next begin, after a pass.
#[test]
fn an_end_without_a_place() {
    let node = Node::open("nodes 1\nbuffers 64\nsize 256\nthreshold 8\npins 8\nclients 2\nbacklog 8\n", 0, "", 0).unwrap();
    let client = node.client().unwrap();
    for round in 0..3 {
        let segment = client.begin(TraceId([1; 16])).unwrap();
        while segment.point(&[0; 100]).is_ok() {}
        assert_eq!(segment.end(), Err(Error::Full), "{round}");
        assert_eq!(client.begin(TraceId([2; 16])).err(), Some(Error::Full));
        let mut batch = Batch::new(TraceId([3; 16]));
        batch.point(b"x").unwrap();
        assert_eq!(batch.write(&client), Err(Error::Full));
        assert_eq!(client.trace(), Some(TraceId([1; 16])));
        (0..16).for_each(|_| drop(node.pass()));
        let next = client.begin(TraceId([2; 16])).unwrap();
        assert_eq!(client.begin(TraceId([3; 16])).err(), Some(Error::Open));
        next.end().unwrap();
    }
}

/// Threads write segments and batches at once, and a batch is gathered in other threads than the one that writes it.
#[test]
fn threads_and_tasks() {
    let node = Arc::new(node());
    let mut hub = Hub::open(SETTINGS, 0).unwrap();
    let ids: Vec<TraceId> = (0..40).map(|_| new_trace().unwrap()).collect();
    for chunk in ids.chunks(4) {
        let threads: Vec<_> = chunk
            .iter()
            .enumerate()
            .map(|(number, &id)| {
                let node = node.clone();
                let mut batch = Batch::new(id);
                batch.point_at(1, b"gathered").unwrap();
                thread::spawn(move || {
                    batch.crumb(2); // no such node: it is left out
                    batch.sample(0, 1);
                    batch.point_at(2, format!("by {number}").as_bytes()).unwrap();
                    batch.trigger(1, &[]).unwrap();
                    assert_eq!(batch.point_at(3, &[0; 65536]), Err(Error::TooLong));
                    let client = node.client().unwrap();
                    assert_eq!(batch.clone().write(&client), Ok(1));
                    let _open = client.begin(TraceId([1; 16])).unwrap();
                    client.write(b"E").2.unwrap();
                })
            })
            .collect();
        threads.into_iter().for_each(|one| one.join().unwrap());
        node.pass().unwrap();
    }
    let found = traces(&node, &mut hub);
    assert_eq!(found.len(), 40);
    for (at, id) in ids.iter().enumerate() {
        assert_eq!(payloads(&found[id]), [b"gathered".to_vec(), format!("by {}", at % 4).into_bytes()]);
    }
}

#[test]
fn pool_file() {
    let pool = std::env::temp_dir().join(format!("hindsight-binding-{}", std::process::id()));
    let node = Node::open_with(SETTINGS, 1, "rust", 7, Some(&pool)).unwrap();
    assert_eq!(Node::open_with(SETTINGS, 1, "rust", 8, Some(&pool)).err(), Some(Error::Taken));
    drop(node);
    assert!(std::fs::read(&pool).unwrap().starts_with(b"HINDPOOL"));
    std::fs::remove_file(&pool).unwrap();
}

#[test]
fn headers() {
    let parent = "00-0102030405060708090a0b0c0d0e0f10-00f067aa0ba902b7-01";
    let read = Context::read(parent, Some("other=1,hind=1-0003")).unwrap();
    assert_eq!((read.trace.to_string().as_str(), read.span.to_string().as_str()), ("0102030405060708090a0b0c0d0e0f10", "00f067aa0ba902b7"));
    assert_eq!((read.flags, read.node), (1, 3));
    let (written, state) = Context { node: 5, ..read }.write(Some("other=1,hind=1-0003")).unwrap();
    assert_eq!((written.as_str(), state.as_str()), (parent, "hind=1-0005,other=1"));
    let fresh = Context::fresh().unwrap();
    assert_eq!((fresh.span, fresh.flags, fresh.node), (SpanId::default(), 0, NO_NODE));
    assert_ne!(fresh.trace, Context::fresh().unwrap().trace);
    assert_eq!(Context::read("none", None), Err(Error::Invalid));
    assert_eq!(Context { trace: TraceId::default(), ..read }.write(None), Err(Error::Invalid));
}
