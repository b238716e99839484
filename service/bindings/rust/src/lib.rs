//! Traces a service written in Rust, over libhindsight.
//!
//! ```no_run
//! # fn main() -> hindsight::Result<()> {
//! let node = hindsight::Node::open("triggerid 1\n", 0, "shop", 0)?;
//! let client = node.client()?;                          // of this thread
//! let segment = client.begin(hindsight::new_trace()?)?; // ends where it is dropped
//! segment.point(b"GET /cart")?;
//! let span = segment.span("checkout", hindsight::Kind::Server);
//! span.set("items", 3)?;
//! segment.trigger(1)?;                                  // claims the trace
//! # Ok(())
//! # }
//! ```
//!
//! Some thread makes passes and carries messages: [`Node::pass`], [`Node::next_message`] and `docs/SERVICE.md`. A task that moves between threads gathers its
//! calls in a [`Batch`]. A call on the way of a record takes no memory, no lock, and makes no system call; a batch takes memory.
//!
//! A client is used by its own thread alone, which the types see to. Not from the destructor of a key of POSIX threads: there it may be another's already.

mod error;
mod hub;
mod node;
mod segment;
mod sys;

pub use error::{Error, Result};
pub use hub::{Hub, Info, Life, MessageId, Record, SpanRecord, Trace};
pub use node::{Client, ClientCounts, Message, Node, NodeCounts};
pub use segment::{Batch, Kind, Segment, Span, Status, Value};

use std::ffi::{CStr, CString};
use std::fmt;

/// A node's number, below `nodes` of the settings.
pub type NodeId = u16;

/// The number of no node.
pub const NO_NODE: NodeId = 0xFFFF;

/// The id of a trace, in the order of W3C's text. All zero is none.
#[derive(Clone, Copy, Debug, Default, PartialEq, Eq, Hash, PartialOrd, Ord)]
#[repr(transparent)]
pub struct TraceId(pub [u8; 16]);

/// The id of a span. All zero is none.
#[derive(Clone, Copy, Debug, Default, PartialEq, Eq, Hash, PartialOrd, Ord)]
#[repr(transparent)]
pub struct SpanId(pub [u8; 8]);

fn hexadecimal(bytes: &[u8], f: &mut fmt::Formatter<'_>) -> fmt::Result {
    bytes.iter().try_for_each(|byte| write!(f, "{byte:02x}"))
}

impl fmt::Display for TraceId {
    fn fmt(&self, f: &mut fmt::Formatter<'_>) -> fmt::Result {
        hexadecimal(&self.0, f)
    }
}

impl fmt::Display for SpanId {
    fn fmt(&self, f: &mut fmt::Formatter<'_>) -> fmt::Result {
        hexadecimal(&self.0, f)
    }
}

/// A fresh random id.
pub fn new_trace() -> Result<TraceId> {
    let mut id = TraceId::default();
    // SAFETY: the call writes 16 bytes.
    Error::of(unsafe { sys::hind_new_trace(&mut id.0) })?;
    Ok(id)
}

/// A fresh random id.
pub fn new_span() -> Result<SpanId> {
    let mut id = SpanId::default();
    // SAFETY: the call writes 8 bytes.
    Error::of(unsafe { sys::hind_new_span(&mut id.0) })?;
    Ok(id)
}

/// What a request carries: its trace, the span of who sent it, the flags of `traceparent`, and the node that sent it, or [`NO_NODE`].
#[derive(Clone, Copy, Debug, PartialEq, Eq)]
pub struct Context {
    pub trace: TraceId,
    pub span: SpanId,
    pub flags: u8,
    pub node: NodeId,
}

impl Context {
    /// A context of a fresh trace, as of a request that came with none.
    pub fn fresh() -> Result<Context> {
        let mut fresh = sys::hind_context { trace: [0; 16], span: [0; 8], flags: 0, node: NO_NODE };
        // SAFETY: the context is the call's to write.
        Error::of(unsafe { sys::hind_new_context(&mut fresh) })?;
        Ok(Context::of(&fresh))
    }

    fn of(read: &sys::hind_context) -> Context {
        Context { trace: TraceId(read.trace), span: SpanId(read.span), flags: read.flags, node: read.node }
    }

    /// Reads the headers of W3C. [`Error::Invalid`] where `traceparent` is: then start a trace of your own.
    pub fn read(traceparent: &str, tracestate: Option<&str>) -> Result<Context> {
        let parent = CString::new(traceparent).map_err(|_| Error::Invalid)?;
        let state = CString::new(tracestate.unwrap_or("")).unwrap_or_default();
        let mut read = sys::hind_context { trace: [0; 16], span: [0; 8], flags: 0, node: 0 };
        // SAFETY: both texts end in 0, and the context is the call's to write.
        Error::of(unsafe { sys::hind_context_read(parent.as_ptr(), state.as_ptr(), &mut read) })?;
        Ok(Context::of(&read))
    }

    /// Writes `traceparent` and `tracestate` for the next hop. `before` is the `tracestate` that came.
    pub fn write(&self, before: Option<&str>) -> Result<(String, String)> {
        let before = CString::new(before.unwrap_or("")).unwrap_or_default();
        let (mut parent, mut state) = ([0; sys::HIND_TRACEPARENT_SIZE], [0; sys::HIND_TRACESTATE_SIZE]);
        // SAFETY: both places have the sizes that the header names, and are filled with texts that end in 0.
        Error::of(unsafe { sys::hind_context_write(&self.as_sys(), before.as_ptr(), parent.as_mut_ptr(), state.as_mut_ptr()) })?;
        let text = |from: &[_]| unsafe { CStr::from_ptr(from.as_ptr()) }.to_string_lossy().into_owned();
        Ok((text(&parent), text(&state)))
    }

    fn as_sys(&self) -> sys::hind_context {
        sys::hind_context { trace: self.trace.0, span: self.span.0, flags: self.flags, node: self.node }
    }
}
