//! Spans on many threads, requests that came and are sent, and what is claimed.

use hindsight::{Context, Hub, Node, SpanId, SpanRecord, Status, TraceId, Value, NO_NODE};
use hindsight_tracing::{current, from_request, layer};
use std::collections::HashMap;
use std::sync::atomic::Ordering;
use std::sync::Arc;
use std::thread;
use tracing::{error, info, info_span, warn, Instrument};
use tracing_subscriber::prelude::*;

const SETTINGS: &str = "nodes 2\nclients 8\nbuffers 2048\ntriggerid 1 1 1000 1000\ntriggerid 2 1 1000 1000\n";

type Said = Vec<(TraceId, SpanId, String)>;

fn text_of(record: SpanRecord<'_>) -> (SpanId, String) {
    match record {
        SpanRecord::Start { span, name, .. } => (span, format!("begins {name}")),
        SpanRecord::Attribute { span, key, value } => (span, format!("{key} {value:?}")),
        SpanRecord::Event { span, name } => (span, format!("event {name}")),
        SpanRecord::End { span, status, .. } => (span, format!("ends {status:?}")),
    }
}

/// All that is claimed, and of which spans each span is the child.
fn claimed(node: &Node, hub: &mut Hub) -> (Said, HashMap<SpanId, SpanId>) {
    for _ in 0..64 {
        node.pass().unwrap();
        while let Some(message) = node.next_message() {
            hub.deliver(&message.bytes).unwrap();
            assert!(node.sent(message.number) && node.acknowledged(message.number));
        }
        while let Some(ask) = hub.next_ask() {
            let _ = node.deliver(&ask.bytes);
        }
        hub.pass().unwrap();
    }
    let (mut said, mut parents) = (Vec::new(), HashMap::new());
    while let Some(trace) = hub.take().unwrap() {
        let id = trace.info().id;
        let mut records: Vec<_> = trace.records().collect();
        records.sort_by_key(|record| record.moment); // those of several clients
        for record in records.iter().filter_map(|record| record.span()) {
            if let SpanRecord::Start { span, parent, .. } = record {
                parents.insert(span, parent);
            }
            let (span, text) = text_of(record);
            said.push((id, span, text));
        }
        assert!(hub.saved(id));
    }
    (said, parents)
}

fn texts(said: &Said) -> Vec<&str> {
    said.iter().map(|(_, _, text)| text.as_str()).collect()
}

#[test]
fn what_is_claimed_is_whole() {
    let (node, mut hub) = (Arc::new(Node::open(SETTINGS, 0, "t", 0).unwrap()), Hub::open(SETTINGS, 0).unwrap());
    let layer = layer(node.clone()).on_error(1);
    let lost = layer.lost();
    let subscriber = tracing_subscriber::registry().with(layer);
    tracing::subscriber::with_default(subscriber, || {
        info!("outside of all spans");
        assert_eq!(current(), None);
        info_span!("fine").in_scope(|| info!("is not claimed"));
        let parent = info_span!("parent", late = tracing::field::Empty, big = u64::MAX, real = 0.5, truth = true);
        let child = parent.in_scope(|| info_span!("child"));
        parent.record("late", 7);
        // the child goes on in another thread, where it meets an error
        let dispatch = tracing::dispatcher::get_default(|dispatch| dispatch.clone());
        thread::spawn(move || tracing::dispatcher::with_default(&dispatch, move || child.in_scope(|| error!(code = 3, "failed")))).join().unwrap();
        parent.in_scope(|| warn!(hindsight.trigger = 9, "no such trigger id"));
    });
    let (said, parents) = claimed(&node, &mut hub);
    assert_eq!(
        texts(&said),
        [
            "begins parent",
            &format!("big {:?}", Value::Text(&u64::MAX.to_string())),
            "real Double(0.5)",
            "truth Bool(true)",
            "begins child",
            "late Int(7)",
            "event failed code=3",
            &format!("ends {:?}", Status::Error),
            "event no such trigger id",
            "ends Unset"
        ]
    );
    let (trace, parent, _) = &said[0];
    let (_, child, _) = &said[4];
    assert!(said.iter().all(|(other, _, _)| other == trace));
    assert_eq!((parents[child], parents[parent]), (*parent, SpanId::default()));
    assert_eq!(lost.load(Ordering::Relaxed), 1);
}

#[test]
fn requests_go_on() {
    let (node, mut hub) = (Arc::new(Node::open(SETTINGS, 0, "t", 0).unwrap()), Hub::open(SETTINGS, 0).unwrap());
    let came = Context { trace: TraceId([5; 16]), span: SpanId([6; 8]), flags: 1, node: 0 };
    let subscriber = tracing_subscriber::registry().with(layer(node.clone()));
    tracing::subscriber::with_default(subscriber, || {
        let first = from_request(came, || info_span!("first"));
        let other = info_span!("other");
        let sent = first.in_scope(|| info_span!("call").in_scope(current)).unwrap();
        assert_eq!((sent.trace, sent.flags, sent.node), (came.trace, 1, NO_NODE));
        assert_ne!(other.in_scope(current).unwrap().trace, came.trace);
        first.in_scope(|| warn!(hindsight.trigger = 2, "slow"));
    });
    let (said, parents) = claimed(&node, &mut hub);
    assert_eq!(texts(&said), ["begins first", "begins call", "ends Unset", "event slow", "ends Unset"]);
    assert_eq!((said[0].0, parents[&said[0].1]), (came.trace, came.span));
}

/// Tasks that are polled in turn, each with its span, and much that each of them says.
#[test]
fn tasks() {
    use std::future::Future;
    use std::pin::Pin;
    use std::task::{Context as Polling, Poll, RawWaker, RawWakerVTable, Waker};

    struct Once(bool);
    impl Future for Once {
        type Output = ();
        fn poll(mut self: Pin<&mut Self>, _: &mut Polling<'_>) -> Poll<()> {
            match std::mem::replace(&mut self.0, true) {
                true => Poll::Ready(()),
                false => Poll::Pending,
            }
        }
    }
    static TABLE: RawWakerVTable = RawWakerVTable::new(|_| RawWaker::new(std::ptr::null(), &TABLE), |_| {}, |_| {}, |_| {});
    let waker = unsafe { Waker::from_raw(RawWaker::new(std::ptr::null(), &TABLE)) };

    let (node, mut hub) = (Arc::new(Node::open(SETTINGS, 0, "t", 0).unwrap()), Hub::open(SETTINGS, 0).unwrap());
    let subscriber = tracing_subscriber::registry().with(layer(node.clone()));
    tracing::subscriber::with_default(subscriber, || {
        let task = |number: i64| {
            async move {
                for round in 0..600 {
                    Once(false).await;
                    info!(number, round, "a text that makes some thirty KiB together, and then some more of it than a batch gathers before it writes");
                }
                if number == 1 {
                    warn!(hindsight.trigger = 1, "claimed");
                }
            }
            .instrument(info_span!("task", number))
        };
        let (mut a, mut b) = (Box::pin(task(0)), Box::pin(task(1)));
        let mut polling = Polling::from_waker(&waker);
        while a.as_mut().poll(&mut polling).is_pending() | b.as_mut().poll(&mut polling).is_pending() {
            node.pass().unwrap();
        }
    });
    let (said, _) = claimed(&node, &mut hub);
    assert_eq!(said.len(), 1 + 1 + 600 + 1 + 1);
    assert!(said.iter().filter(|(_, _, text)| text.starts_with("event a text")).all(|(_, _, text)| text.contains(" number=1 ")));
}
