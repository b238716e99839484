//! No call on the way of a record takes memory.

use hindsight::{Context, Kind, Node, Status, TraceId};
use std::alloc::{GlobalAlloc, Layout, System};
use std::cell::Cell;
use std::io::IoSlice;

struct Counting;

thread_local! {
    static TAKEN: Cell<usize> = const { Cell::new(0) };
}

// SAFETY: all is the system's; the count is a cell of the thread.
unsafe impl GlobalAlloc for Counting {
    unsafe fn alloc(&self, layout: Layout) -> *mut u8 {
        TAKEN.with(|taken| taken.set(taken.get() + 1));
        System.alloc(layout)
    }

    unsafe fn dealloc(&self, at: *mut u8, layout: Layout) {
        System.dealloc(at, layout)
    }
}

#[global_allocator]
static ALLOCATOR: Counting = Counting;

fn taken() -> usize {
    TAKEN.with(Cell::get)
}

#[test]
fn none() {
    let node = Node::open("nodes 2\nclients 2\nbuffers 1024\ntriggerid 1\nauto 0 exception 1\n", 0, "", 0).unwrap();
    let long = "long ".repeat(2000);
    let context = Context::fresh().unwrap();
    let before = taken();
    let client = node.client().unwrap();
    for round in 0..3 {
        let segment = client.begin_from(&context).unwrap();
        segment.point(b"a record").unwrap();
        segment.points(&[IoSlice::new(b"two "), IoSlice::new(b"pieces")]).unwrap();
        let mut span = segment.span("GET /", Kind::Server);
        span.event(&long).unwrap();
        span.set("text", long.as_str()).unwrap();
        span.set("round", round).unwrap();
        span.status(Status::Ok);
        drop(span);
        segment.crumb(1).unwrap();
        segment.sample(0, 1).unwrap();
        segment.trigger_with(1, &[TraceId([1; 16])]).unwrap();
        assert!(segment.point(&[0; 65536]).is_err());
    }
    while client.begin(TraceId([2; 16])).and_then(|segment| segment.point(&[0; 2000]).and(segment.end())).is_ok() {}
    assert!(client.begin(TraceId([2; 16])).is_err());
    client.flush().unwrap();
    client.counts().unwrap();
    assert_eq!(taken(), before);
}
