use crate::{new_span, sys, Client, Error, NodeId, Result, SpanId, TraceId};
use std::cell::Cell;
use std::io::IoSlice;
use std::marker::PhantomData;
use std::os::raw::{c_char, c_int};
use std::ptr;
use std::time::{SystemTime, UNIX_EPOCH};

/// What a thread does on a trace, until the segment is dropped.
pub struct Segment<'c> {
    client: *mut sys::hind_client,
    trace: TraceId,
    _of: PhantomData<&'c Client<'c>>,
}

impl<'c> Segment<'c> {
    pub(crate) fn of(client: *mut sys::hind_client, trace: TraceId) -> Segment<'c> {
        Segment { client, trace, _of: PhantomData }
    }

    pub fn trace(&self) -> TraceId {
        self.trace
    }

    /// Records bytes, now.
    pub fn point(&self, payload: &[u8]) -> Result<()> {
        // SAFETY: the segment does not outlive its client, nor leaves its thread; so in what follows.
        Error::of(unsafe { sys::hind_point(self.client, payload.as_ptr().cast(), payload.len()) }).map(drop)
    }

    /// Records bytes at a moment in nanoseconds since 1970.
    pub fn point_at(&self, moment: u64, payload: &[u8]) -> Result<()> {
        Error::of(unsafe { sys::hind_point_at(self.client, moment, payload.as_ptr().cast(), payload.len()) }).map(drop)
    }

    /// Records pieces as one record, now.
    pub fn points(&self, pieces: &[IoSlice<'_>]) -> Result<()> {
        // an IoSlice is an iovec on Unix
        Error::of(unsafe { sys::hind_pointv(self.client, pieces.as_ptr().cast(), pieces.len()) }).map(drop)
    }

    /// The trace goes on at, or came from, this node.
    pub fn crumb(&self, node: NodeId) -> Result<()> {
        Error::of(unsafe { sys::hind_crumb(self.client, node) }).map(drop)
    }

    /// Claims the trace.
    pub fn trigger(&self, trigger: u8) -> Result<()> {
        self.trigger_with(trigger, &[])
    }

    /// Claims the trace, and at most 32 laterals.
    pub fn trigger_with(&self, trigger: u8, laterals: &[TraceId]) -> Result<()> {
        Error::of(unsafe { sys::hind_trigger(self.client, trigger, &self.trace.0, laterals.as_ptr().cast(), laterals.len()) }).map(drop)
    }

    /// Gives a value for an autotrigger.
    pub fn sample(&self, autotrigger: u32, value: u64) -> Result<()> {
        Error::of(unsafe { sys::hind_sample(self.client, autotrigger, value) }).map(drop)
    }

    /// Begins a span that has no parent. What it answers where the record is refused is a span all the same.
    pub fn span(&self, name: &str, kind: Kind) -> Span<'_> {
        self.span_of(SpanId::default(), name, kind)
    }

    /// Begins a span of this parent, as of the span that a request came from.
    pub fn span_of(&self, parent: SpanId, name: &str, kind: Kind) -> Span<'_> {
        let span = Span { client: self.client, id: new_span().unwrap_or_default(), status: Status::Unset, _of: PhantomData };
        let name = Text::<TEXT>::of(name);
        unsafe { sys::hind_span_start(self.client, id_of(span.id), id_of(parent), kind as c_int, name.as_ptr()) };
        span
    }

    /// Ends the trace, as a drop does, and says what that answered.
    pub fn end(self) -> Result<()> {
        let ended = Error::of(unsafe { sys::hind_end(self.client) }).map(drop);
        if ended.is_ok() {
            std::mem::forget(self);
        }
        ended
    }
}

impl Drop for Segment<'_> {
    fn drop(&mut self) {
        // SAFETY: as in `point`.
        if unsafe { sys::hind_end(self.client) } == FULL {
            left_open(self.client);
        }
    }
}

const FULL: sys::Code = -8;
const OPEN: sys::Code = -5;

const LEFT: usize = 8;

thread_local! {
    /// The clients of this thread with a trace whose end found no place, and that no segment has any more: one for each node, of eight at most.
    static LEFT_OPEN: Cell<[*mut sys::hind_client; LEFT]> = const { Cell::new([ptr::null_mut(); LEFT]) };
}

fn left_open(client: *mut sys::hind_client) {
    LEFT_OPEN.with(|left| {
        let mut all = left.get();
        if let Some(place) = all.iter_mut().find(|place| place.is_null() || **place == client) {
            *place = client;
        }
        left.set(all);
    });
}

fn was_left_open(client: *mut sys::hind_client) -> bool {
    LEFT_OPEN.with(|left| {
        let mut all = left.get();
        let found = all.iter_mut().find(|place| **place == client).map(|place| *place = ptr::null_mut());
        left.set(all);
        found.is_some()
    })
}

/// Begins by `begin`. A trace that was left open is ended first.
pub(crate) fn begun(client: *mut sys::hind_client, begin: impl Fn() -> sys::Code) -> sys::Code {
    let code = begin();
    if !was_left_open(client) || code != OPEN {
        return code;
    }
    // SAFETY: no segment of this thread has the open trace.
    match unsafe { sys::hind_end(client) } {
        0 => begin(),
        FULL => {
            left_open(client);
            FULL
        }
        code => code,
    }
}

fn id_of(id: SpanId) -> sys::hind_span_id {
    sys::hind_span_id { bytes: id.0 }
}

const TEXT: usize = 255 + 2;
const VALUE: usize = 4096 + 2;

/// A text as C takes it, with one byte more than the library keeps, so that it cuts in front of a character. It ends where it has a byte of 0.
struct Text<const ROOM: usize>([u8; ROOM]);

impl<const ROOM: usize> Text<ROOM> {
    fn of(text: &str) -> Self {
        let mut kept = [0; ROOM];
        let len = text.len().min(ROOM - 1);
        kept[..len].copy_from_slice(&text.as_bytes()[..len]);
        Text(kept)
    }

    fn as_ptr(&self) -> *const c_char {
        self.0.as_ptr().cast()
    }
}

#[derive(Clone, Copy, Debug, PartialEq, Eq)]
pub enum Kind {
    Internal = 1,
    Server = 2,
    Client = 3,
    Producer = 4,
    Consumer = 5,
}

#[derive(Clone, Copy, Debug, PartialEq, Eq)]
pub enum Status {
    Unset = 0,
    Ok = 1,
    Error = 2,
}

impl Kind {
    pub(crate) fn of(kind: c_int) -> Kind {
        match kind {
            2 => Kind::Server,
            3 => Kind::Client,
            4 => Kind::Producer,
            5 => Kind::Consumer,
            _ => Kind::Internal,
        }
    }
}

impl Status {
    pub(crate) fn of(status: c_int) -> Status {
        match status {
            1 => Status::Ok,
            2 => Status::Error,
            _ => Status::Unset,
        }
    }
}

/// What an attribute of a span may be.
#[derive(Clone, Copy, Debug, PartialEq)]
pub enum Value<'v> {
    Text(&'v str),
    Int(i64),
    Double(f64),
    Bool(bool),
}

macro_rules! values {
    ($($from:ty: $into:ident),*) => {$(
        impl<'v> From<$from> for Value<'v> {
            fn from(value: $from) -> Self {
                Value::$into(value.into())
            }
        }
    )*};
}

values!(&'v str: Text, i64: Int, i32: Int, u32: Int, f64: Double, bool: Bool);

/// A span of the open trace, until it is dropped.
pub struct Span<'s> {
    client: *mut sys::hind_client,
    id: SpanId,
    status: Status,
    _of: PhantomData<&'s Segment<'s>>,
}

impl Span<'_> {
    pub fn id(&self) -> SpanId {
        self.id
    }

    /// What its end will say of it.
    pub fn status(&mut self, status: Status) {
        self.status = status;
    }

    pub fn event(&self, name: &str) -> Result<()> {
        let name = Text::<TEXT>::of(name);
        // SAFETY: as in `Segment::point`; texts end in 0. So in what follows.
        Error::of(unsafe { sys::hind_span_event(self.client, id_of(self.id), name.as_ptr()) }).map(drop)
    }

    pub fn set<'v>(&self, key: &str, value: impl Into<Value<'v>>) -> Result<()> {
        let (key, id) = (Text::<TEXT>::of(key), id_of(self.id));
        Error::of(match value.into() {
            Value::Text(value) => unsafe { sys::hind_span_text(self.client, id, key.as_ptr(), Text::<VALUE>::of(value).as_ptr()) },
            Value::Int(value) => unsafe { sys::hind_span_int(self.client, id, key.as_ptr(), value) },
            Value::Double(value) => unsafe { sys::hind_span_double(self.client, id, key.as_ptr(), value) },
            Value::Bool(value) => unsafe { sys::hind_span_bool(self.client, id, key.as_ptr(), value.into()) },
        })
        .map(drop)
    }
}

impl Drop for Span<'_> {
    fn drop(&mut self) {
        unsafe { sys::hind_span_end(self.client, id_of(self.id), self.status as c_int, ptr::null()) };
    }
}

/// Calls on a trace that are gathered, so that a task may take them from thread to thread. They are written as one segment.
#[derive(Clone, Debug)]
pub struct Batch {
    trace: TraceId,
    calls: Vec<u8>,
    ends: Vec<usize>,
}

impl Batch {
    pub fn new(trace: TraceId) -> Batch {
        Batch { trace, calls: Vec::new(), ends: Vec::new() }
    }

    pub fn trace(&self) -> TraceId {
        self.trace
    }

    /// How many bytes were gathered. Beyond some 32 KiB it pays no more to gather: write them.
    pub fn len(&self) -> usize {
        self.calls.len()
    }

    pub fn is_empty(&self) -> bool {
        self.calls.is_empty()
    }

    fn put(&mut self, parts: &[&[u8]]) {
        parts.iter().for_each(|part| self.calls.extend_from_slice(part));
        self.ends.push(self.calls.len());
    }

    /// Records bytes, now.
    pub fn point(&mut self, payload: &[u8]) -> Result<()> {
        self.point_at(now(), payload)
    }

    /// Records bytes at a moment in nanoseconds since 1970, where 0 is the moment of the writing.
    pub fn point_at(&mut self, moment: u64, payload: &[u8]) -> Result<()> {
        let len = u16::try_from(payload.len()).map_err(|_| Error::TooLong)?;
        self.put(&[b"P", &moment.to_be_bytes(), &len.to_be_bytes(), payload]);
        Ok(())
    }

    pub fn crumb(&mut self, node: NodeId) {
        self.put(&[b"C", &node.to_be_bytes()]);
    }

    pub fn sample(&mut self, autotrigger: u32, value: u64) {
        self.put(&[b"S", &autotrigger.to_be_bytes(), &value.to_be_bytes()]);
    }

    /// Claims the trace, and at most 32 laterals.
    pub fn trigger(&mut self, trigger: u8, laterals: &[TraceId]) -> Result<()> {
        if laterals.len() > 32 {
            return Err(Error::Invalid);
        }
        let laterals_as_bytes: Vec<u8> = laterals.iter().flat_map(|lateral| lateral.0).collect();
        let trace = self.trace;
        self.put(&[b"T", &[trigger], &trace.0, &[laterals.len() as u8], &laterals_as_bytes]);
        Ok(())
    }

    fn span(&mut self, put: impl FnOnce(*mut u8) -> usize) -> Result<()> {
        let mut payload = [0; sys::HIND_SPAN_PAYLOAD];
        match put(payload.as_mut_ptr()) {
            0 => Err(Error::Invalid),
            len => self.point(&payload[..len]),
        }
    }

    /// Begins a span, whose parent may be none.
    pub fn span_start(&mut self, span: SpanId, parent: SpanId, name: &str, kind: Kind) -> Result<()> {
        let name = Text::<TEXT>::of(name);
        // SAFETY: the payload has room for any of the profile, and texts end in 0; so in what follows.
        self.span(|out| unsafe { sys::hind_put_span_start(out, id_of(span), id_of(parent), kind as c_int, name.as_ptr()) })
    }

    pub fn span_end(&mut self, span: SpanId, status: Status) -> Result<()> {
        self.span(|out| unsafe { sys::hind_put_span_end(out, id_of(span), status as c_int, ptr::null()) })
    }

    pub fn span_event(&mut self, span: SpanId, name: &str) -> Result<()> {
        let name = Text::<TEXT>::of(name);
        self.span(|out| unsafe { sys::hind_put_span_event(out, id_of(span), name.as_ptr()) })
    }

    pub fn span_set<'v>(&mut self, span: SpanId, key: &str, value: impl Into<Value<'v>>) -> Result<()> {
        let (key, span, value) = (Text::<TEXT>::of(key), id_of(span), value.into());
        self.span(|out| match value {
            Value::Text(value) => unsafe { sys::hind_put_span_text(out, span, key.as_ptr(), Text::<VALUE>::of(value).as_ptr()) },
            Value::Int(value) => unsafe { sys::hind_put_span_int(out, span, key.as_ptr(), value) },
            Value::Double(value) => unsafe { sys::hind_put_span_double(out, span, key.as_ptr(), value) },
            Value::Bool(value) => unsafe { sys::hind_put_span_bool(out, span, key.as_ptr(), value.into()) },
        })
    }

    /// Writes what was gathered, of which nothing is kept. What is refused is left out: how many calls were. An error where the trace could not be
    /// begun: then nothing was written.
    pub fn write(&mut self, client: &Client<'_>) -> Result<usize> {
        if self.is_empty() {
            return Ok(0);
        }
        let (calls, ends) = (std::mem::take(&mut self.calls), std::mem::take(&mut self.ends));
        // SAFETY: the client is this thread's.
        Error::of(begun(client.as_ptr(), || unsafe { sys::hind_begin(client.as_ptr(), &self.trace.0) }))?;
        let (mut at, mut lost) = (0, 0);
        while at < ends.len() {
            let from = if at == 0 { 0 } else { ends[at - 1] };
            let (done, _, answer) = client.write(&calls[from..]);
            at += done;
            if answer.is_err() {
                lost += 1;
                at += 1;
            }
        }
        drop(Segment::of(client.as_ptr(), self.trace));
        Ok(lost)
    }
}

fn now() -> u64 {
    SystemTime::now().duration_since(UNIX_EPOCH).map_or(0, |past| past.as_nanos() as u64)
}
