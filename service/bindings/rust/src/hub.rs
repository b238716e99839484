use crate::node::{empty_message, Message};
use crate::{sys, Error, Kind, NodeId, Result, SpanId, Status, TraceId, Value};
use std::ffi::CStr;
use std::mem::size_of;
use std::os::raw::{c_char, c_void};
use std::ptr::{self, NonNull};

/// The hub of a service. It takes one call at a time.
pub struct Hub {
    at: NonNull<sys::hind_hub>,
}

// SAFETY: a hub's calls may come from any thread, one at a time.
unsafe impl Send for Hub {}

/// A message of a node: the node, the epoch of the life that sent it, and its number there.
#[derive(Clone, Copy, Debug, PartialEq, Eq, Hash)]
pub struct MessageId {
    pub node: NodeId,
    pub epoch: u64,
    pub number: u64,
}

impl Hub {
    /// Opens a hub by the text of the service's settings. The epoch is above those of its lives before; 0 is the clock's. It calls no trace
    /// whole before it was sure of the trace's nodes for half a minute.
    pub fn open(settings: &str, epoch: u64) -> Result<Hub> {
        Hub::open_with(settings, epoch, 0)
    }

    /// Opens the first hub of a service: it is sure of the first life of each node at once.
    pub fn open_fresh(settings: &str, epoch: u64) -> Result<Hub> {
        Hub::open_with(settings, epoch, 1)
    }

    fn open_with(settings: &str, epoch: u64, is_fresh: u32) -> Result<Hub> {
        let options = sys::hind_hub_options {
            size: size_of::<sys::hind_hub_options>(),
            abi: sys::HIND_ABI,
            epoch,
            settings: settings.as_ptr(),
            settings_len: settings.len(),
            is_fresh,
            spare: 0,
        };
        let mut hub = ptr::null_mut();
        // SAFETY: what the options point to stands during the call.
        Error::of(unsafe { sys::hind_hub_open(&options, &mut hub) })?;
        Ok(Hub { at: NonNull::new(hub).ok_or(Error::Invalid)? })
    }

    /// Takes a message of a node: whether it may be acknowledged at once.
    pub fn deliver(&mut self, message: &[u8]) -> Result<bool> {
        // SAFETY: the hub is open as long as it lives; so in what follows.
        Ok(Error::of(unsafe { sys::hind_hub_deliver(self.at.as_ptr(), message.as_ptr().cast(), message.len()) })? == 0)
    }

    /// The next ask, for the node `to`. It counts as sent.
    pub fn next_ask(&mut self) -> Option<Message> {
        let mut message = empty_message();
        let code = unsafe { sys::hind_hub_next(self.at.as_ptr(), &mut message) };
        (code == 0).then(|| unsafe { Message::of(&message) })
    }

    /// A pass goes by, which is what a hub counts time in.
    pub fn pass(&mut self) -> Result<()> {
        Error::of(unsafe { sys::hind_hub_pass(self.at.as_ptr()) }).map(drop)
    }

    /// The next trace, if one may go. Until it is called saved, it is given again.
    pub fn take(&mut self) -> Result<Option<Trace>> {
        let mut trace = ptr::null_mut();
        Error::of(unsafe { sys::hind_hub_take(self.at.as_ptr(), &mut trace) })?;
        Ok(NonNull::new(trace).map(|at| Trace { at }))
    }

    /// The trace is safe elsewhere: whether it was the one that was given last.
    pub fn saved(&mut self, trace: TraceId) -> bool {
        unsafe { sys::hind_hub_saved(self.at.as_ptr(), &trace.0) == 0 }
    }

    /// A message that may be acknowledged now, each once.
    pub fn acknowledge(&mut self) -> Option<MessageId> {
        let mut id = sys::hind_message_id { node: 0, epoch: 0, number: 0 };
        let code = unsafe { sys::hind_hub_acknowledge(self.at.as_ptr(), &mut id) };
        (code == 0).then_some(MessageId { node: id.node, epoch: id.epoch, number: id.number })
    }
}

impl Drop for Hub {
    fn drop(&mut self) {
        // SAFETY: no call is under way.
        unsafe { sys::hind_hub_close(self.at.as_ptr()) };
    }
}

/// A trace that a hub gave.
pub struct Trace {
    at: NonNull<sys::hind_trace>,
}

// SAFETY: a trace does not change.
unsafe impl Send for Trace {}
unsafe impl Sync for Trace {}

#[derive(Clone, Copy, Debug, PartialEq, Eq)]
pub struct Info {
    pub id: TraceId,
    /// 0, or which later part of the trace this is.
    pub part: u32,
    /// The id of the first trigger that claims it.
    pub trigger: u8,
    /// Whether the hub says that all that any node wrote of it is here, in this part or one before.
    pub is_whole: bool,
    pub lives: usize,
    pub records: usize,
}

/// A life of a node that wrote, spoke of the trace, or was asked.
#[derive(Clone, Copy, Debug, PartialEq, Eq)]
pub struct Life<'t> {
    pub node: NodeId,
    pub epoch: u64,
    pub name: &'t str,
    pub wholeness: &'t str,
    /// The trace's records of this life follow those of the lives before.
    pub records: usize,
}

#[derive(Clone, Copy, Debug, PartialEq, Eq)]
pub struct Record<'t> {
    pub node: NodeId,
    pub client: u16,
    pub epoch: u64,
    pub core: u64,
    pub number: u64,
    pub missing: u64,
    pub moment: u64,
    pub payload: &'t [u8],
}

/// What a payload of the span profile says.
#[derive(Clone, Copy, Debug, PartialEq)]
pub enum SpanRecord<'t> {
    Start { span: SpanId, parent: SpanId, kind: Kind, name: &'t str },
    End { span: SpanId, status: Status, message: &'t str },
    Event { span: SpanId, name: &'t str },
    Attribute { span: SpanId, key: &'t str, value: Value<'t> },
}

impl<'t> Record<'t> {
    /// What the payload says of a span; none where it is any other payload. A text that is no UTF-8 is empty.
    pub fn span(&self) -> Option<SpanRecord<'t>> {
        // SAFETY: numbers and pointers of all zero are values.
        let mut r: sys::hind_span_record = unsafe { std::mem::zeroed() };
        if unsafe { sys::hind_read_span(self.payload.as_ptr().cast(), self.payload.len(), &mut r) } == 0 {
            return None;
        }
        // SAFETY: texts lie in the payload.
        let text = |at: *const c_char, len| match len {
            0 => "",
            _ => std::str::from_utf8(unsafe { std::slice::from_raw_parts(at.cast(), len) }).unwrap_or(""),
        };
        let (span, named) = (SpanId(r.span.bytes), text(r.text, r.text_len));
        Some(match r.what {
            1 => SpanRecord::Start { span, parent: SpanId(r.parent.bytes), kind: Kind::of(r.kind), name: named },
            2 => SpanRecord::End { span, status: Status::of(r.status), message: named },
            3 => SpanRecord::Event { span, name: named },
            _ => SpanRecord::Attribute {
                span,
                key: named,
                value: match r.r#type {
                    0 => Value::Text(text(r.value, r.value_len)),
                    1 => Value::Int(r.integer),
                    2 => Value::Double(r.real),
                    _ => Value::Bool(r.integer != 0),
                },
            },
        })
    }
}

impl Trace {
    pub fn info(&self) -> Info {
        let mut info = sys::hind_trace_info { size: size_of::<sys::hind_trace_info>(), id: [0; 16], part: 0, trigger: 0, is_whole: 0, lives: 0, records: 0 };
        // SAFETY: the trace stands as long as it lives; so in what follows.
        unsafe { sys::hind_trace_get_info(self.at.as_ptr(), &mut info) };
        Info { id: TraceId(info.id), part: info.part, trigger: info.trigger, is_whole: info.is_whole != 0, lives: info.lives, records: info.records }
    }

    pub fn lives(&self) -> impl Iterator<Item = Life<'_>> {
        (0..self.info().lives).filter_map(move |at| self.life(at))
    }

    fn life(&self, at: usize) -> Option<Life<'_>> {
        let mut life = sys::hind_trace_life { node: 0, epoch: 0, name: ptr::null(), wholeness: ptr::null(), records: 0 };
        if unsafe { sys::hind_trace_get_life(self.at.as_ptr(), at, &mut life) } != 0 {
            return None;
        }
        // SAFETY: the texts stand as long as the trace.
        let text = |from: *const c_char| unsafe { CStr::from_ptr(from) }.to_str().unwrap_or("");
        Some(Life { node: life.node, epoch: life.epoch, name: text(life.name), wholeness: text(life.wholeness), records: life.records })
    }

    /// In the order of node, epoch, client, core and number.
    pub fn records(&self) -> impl Iterator<Item = Record<'_>> {
        (0..self.info().records).filter_map(move |at| self.record(at))
    }

    fn record(&self, at: usize) -> Option<Record<'_>> {
        let mut r = sys::hind_record { node: 0, client: 0, epoch: 0, core: 0, number: 0, missing: 0, moment: 0, payload: ptr::null(), len: 0 };
        if unsafe { sys::hind_trace_get_record(self.at.as_ptr(), at, &mut r) } != 0 {
            return None;
        }
        // SAFETY: the payload stands as long as the trace.
        let payload = if r.len == 0 { &[] } else { unsafe { std::slice::from_raw_parts(r.payload, r.len) } };
        Some(Record { node: r.node, client: r.client, epoch: r.epoch, core: r.core, number: r.number, missing: r.missing, moment: r.moment, payload })
    }

    /// The trace as one line of OTLP's JSON.
    pub fn otlp(&self) -> Result<String> {
        let mut line = Vec::new();
        Error::of(unsafe { sys::hind_trace_otlp(self.at.as_ptr(), take_line, ptr::addr_of_mut!(line).cast()) })?;
        String::from_utf8(line).map_err(|_| Error::Invalid)
    }
}

extern "C" fn take_line(closure: *mut c_void, line: *const c_char, len: usize) {
    // SAFETY: `otlp` gave the closure, and the line stands during the call.
    unsafe { (*closure.cast::<Vec<u8>>()).extend_from_slice(std::slice::from_raw_parts(line.cast(), len)) };
}

impl Drop for Trace {
    fn drop(&mut self) {
        // SAFETY: nothing borrows it any more.
        unsafe { sys::hind_trace_free(self.at.as_ptr()) };
    }
}
