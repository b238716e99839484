//! Spans and events of `tracing`, recorded by Hindsight.
//!
//! ```no_run
//! use tracing_subscriber::prelude::*;
//!
//! # fn main() -> hindsight::Result<()> {
//! let node = std::sync::Arc::new(hindsight::Node::open("triggerid 1\n", 0, "shop", 0)?);
//! tracing_subscriber::registry().with(hindsight_tracing::layer(node.clone()).on_error(1)).init();
//! # Ok(())
//! # }
//! ```
//!
//! A span that has no parent begins a trace, and all spans and events below belong to it, on whatever thread they are. They are gathered, and written where
//! that span closes, where 32 KiB came together, and before a trigger. So tasks may move between threads, and what a process had gathered when it was killed is
//! lost. An event outside of all spans is not recorded.
//!
//! An event with a field `hindsight.trigger`, as `tracing::warn!(hindsight.trigger = 2, "slow")`, claims its trace by that trigger id.
//!
//! [`from_request`] has a span begin the trace of a request that came, and [`current`] says what a request that is sent carries.

use hindsight::{Batch, Context, Kind, Node, SpanId, Status, Value, NO_NODE};
use std::cell::Cell;
use std::fmt::{Debug, Write};
use std::sync::atomic::{AtomicU64, Ordering};
use std::sync::{Arc, Mutex, MutexGuard};
use tracing::field::{Field, Visit};
use tracing::span::{Attributes, Id, Record};
use tracing::{Event, Level, Subscriber};
use tracing_subscriber::layer;
use tracing_subscriber::registry::{LookupSpan, SpanRef};
use tracing_subscriber::Registry;

const GATHERED: usize = 32768;

/// A layer over this node.
pub fn layer(node: Arc<Node>) -> Layer {
    Layer { node, on_error: None, lost: Arc::new(AtomicU64::new(0)) }
}

pub struct Layer {
    node: Arc<Node>,
    on_error: Option<u8>,
    lost: Arc<AtomicU64>,
}

impl Layer {
    /// Has an event of level ERROR claim its trace by this trigger id.
    pub fn on_error(self, trigger: u8) -> Layer {
        Layer { on_error: Some(trigger), ..self }
    }

    /// How many records, triggers and crumbs were refused. The number goes on while the layer lives.
    pub fn lost(&self) -> Arc<AtomicU64> {
        self.lost.clone()
    }

    fn write(&self, mut batch: MutexGuard<'_, Batch>) {
        let lost = match self.node.client() {
            Ok(client) => batch.write(&client).unwrap_or(1),
            Err(_) => {
                *batch = Batch::new(batch.trace());
                1
            }
        };
        self.lost.fetch_add(lost as u64, Ordering::Relaxed);
    }

    fn write_much(&self, batch: MutexGuard<'_, Batch>) {
        if batch.len() >= GATHERED {
            self.write(batch);
        }
    }
}

/// What the layer keeps with each span.
struct Spanned {
    id: SpanId,
    status: Status,
    batch: Arc<Mutex<Batch>>,
    flags: u8,
    is_first: bool,
}

impl Spanned {
    fn batch(&self) -> MutexGuard<'_, Batch> {
        self.batch.lock().unwrap_or_else(|poisoned| poisoned.into_inner())
    }
}

thread_local! {
    static CAME: Cell<Option<Context>> = const { Cell::new(None) };
}

/// Has the first span without a parent that `begin` makes go on with the trace of a request that came.
pub fn from_request<T>(context: Context, begin: impl FnOnce() -> T) -> T {
    struct Restore(Option<Context>);
    impl Drop for Restore {
        fn drop(&mut self) {
            CAME.with(|came| came.set(self.0));
        }
    }
    let _restore = Restore(CAME.with(|came| came.replace(Some(context))));
    begin()
}

/// What a request carries that is sent from within the current span. Put the own node's number into `node`, as `docs/SERVICE.md` says.
pub fn current() -> Option<Context> {
    tracing::Span::current().with_subscriber(|(id, dispatch)| {
        let span = dispatch.downcast_ref::<Registry>()?.span(id)?;
        let extensions = span.extensions();
        let spanned = extensions.get::<Spanned>()?;
        let trace = spanned.batch().trace();
        Some(Context { trace, span: spanned.id, flags: spanned.flags, node: NO_NODE })
    })?
}

/// A span without a parent begins a trace of its own, or goes on with the one that came.
fn first() -> (SpanId, Spanned) {
    let came = CAME.with(|came| came.take());
    let trace = came.map_or_else(|| hindsight::new_trace().unwrap_or_default(), |context| context.trace);
    let mut batch = Batch::new(trace);
    if let Some(node) = came.map(|context| context.node).filter(|&node| node != NO_NODE) {
        batch.crumb(node);
    }
    let (parent, flags) = came.map_or((SpanId::default(), 0), |context| (context.span, context.flags));
    (parent, Spanned { id: new_span(), status: Status::Unset, batch: Arc::new(Mutex::new(batch)), flags, is_first: true })
}

fn below(parent: &Spanned) -> (SpanId, Spanned) {
    (parent.id, Spanned { id: new_span(), status: Status::Unset, batch: parent.batch.clone(), flags: parent.flags, is_first: false })
}

fn new_span() -> SpanId {
    hindsight::new_span().unwrap_or_default()
}

fn nearest<'a, S: Subscriber + LookupSpan<'a>>(span: Option<SpanRef<'a, S>>) -> Option<(SpanId, Spanned)> {
    span?.scope().find_map(|span| span.extensions().get::<Spanned>().map(below))
}

/// Writes each field as an attribute, and keeps what a span or an event is called by.
#[derive(Default)]
struct Fields {
    message: String,
    all: Vec<(&'static str, Kept)>,
}

enum Kept {
    Text(String),
    Int(i64),
    Double(f64),
    Bool(bool),
}

impl Fields {
    fn put(&self, batch: &mut Batch, span: SpanId) {
        for (key, value) in &self.all {
            let value = match value {
                Kept::Text(text) => Value::Text(text),
                Kept::Int(value) => Value::Int(*value),
                Kept::Double(value) => Value::Double(*value),
                Kept::Bool(value) => Value::Bool(*value),
            };
            let _ = batch.span_set(span, key, value);
        }
    }

    fn kind(&self) -> Kind {
        let named = self.all.iter().find(|(key, _)| *key == "otel.kind");
        match named {
            Some((_, Kept::Text(kind))) if kind.eq_ignore_ascii_case("server") => Kind::Server,
            Some((_, Kept::Text(kind))) if kind.eq_ignore_ascii_case("client") => Kind::Client,
            Some((_, Kept::Text(kind))) if kind.eq_ignore_ascii_case("producer") => Kind::Producer,
            Some((_, Kept::Text(kind))) if kind.eq_ignore_ascii_case("consumer") => Kind::Consumer,
            _ => Kind::Internal,
        }
    }

    /// The trigger id that an event names.
    fn trigger(&mut self) -> Option<u8> {
        let at = self.all.iter().position(|(key, _)| *key == "hindsight.trigger")?;
        match self.all.remove(at).1 {
            Kept::Int(trigger) => u8::try_from(trigger).ok(),
            _ => None,
        }
    }

    /// An event is one text: its message, and its other fields as `key=value`.
    fn line(mut self) -> String {
        for (key, value) in &self.all {
            let _ = match value {
                Kept::Text(text) => write!(self.message, " {key}={text}"),
                Kept::Int(value) => write!(self.message, " {key}={value}"),
                Kept::Double(value) => write!(self.message, " {key}={value}"),
                Kept::Bool(value) => write!(self.message, " {key}={value}"),
            };
        }
        self.message
    }
}

impl Visit for Fields {
    fn record_debug(&mut self, field: &Field, value: &dyn Debug) {
        let text = format!("{value:?}");
        if field.name() == "message" {
            self.message = text;
        } else {
            self.all.push((field.name(), Kept::Text(text)));
        }
    }

    fn record_str(&mut self, field: &Field, value: &str) {
        if field.name() == "message" {
            self.message = value.to_owned();
        } else {
            self.all.push((field.name(), Kept::Text(value.to_owned())));
        }
    }

    fn record_i64(&mut self, field: &Field, value: i64) {
        self.all.push((field.name(), Kept::Int(value)));
    }

    fn record_u64(&mut self, field: &Field, value: u64) {
        let kept = i64::try_from(value).map_or_else(|_| Kept::Text(value.to_string()), Kept::Int);
        self.all.push((field.name(), kept));
    }

    fn record_f64(&mut self, field: &Field, value: f64) {
        self.all.push((field.name(), Kept::Double(value)));
    }

    fn record_bool(&mut self, field: &Field, value: bool) {
        self.all.push((field.name(), Kept::Bool(value)));
    }
}

impl<S: Subscriber + for<'a> LookupSpan<'a>> layer::Layer<S> for Layer {
    fn on_new_span(&self, attributes: &Attributes<'_>, id: &Id, context: layer::Context<'_, S>) {
        let span = match context.span(id) {
            Some(span) => span,
            None => return,
        };
        let (parent, spanned) = nearest(span.parent()).unwrap_or_else(first);
        let mut fields = Fields::default();
        attributes.record(&mut fields);
        let mut batch = spanned.batch();
        let _ = batch.span_start(spanned.id, parent, attributes.metadata().name(), fields.kind());
        fields.put(&mut batch, spanned.id);
        self.write_much(batch);
        span.extensions_mut().insert(spanned);
    }

    fn on_record(&self, id: &Id, values: &Record<'_>, context: layer::Context<'_, S>) {
        let span = match context.span(id) {
            Some(span) => span,
            None => return,
        };
        let mut fields = Fields::default();
        values.record(&mut fields);
        if let Some(spanned) = span.extensions().get::<Spanned>() {
            let mut batch = spanned.batch();
            fields.put(&mut batch, spanned.id);
            self.write_much(batch);
        };
    }

    fn on_event(&self, event: &Event<'_>, context: layer::Context<'_, S>) {
        let span = match context.event_span(event) {
            Some(span) => span,
            None => return,
        };
        let mut fields = Fields::default();
        event.record(&mut fields);
        let is_error = *event.metadata().level() == Level::ERROR;
        let trigger = fields.trigger().or_else(|| self.on_error.filter(|_| is_error));
        let mut extensions = span.extensions_mut();
        let spanned = match extensions.get_mut::<Spanned>() {
            Some(spanned) => spanned,
            None => return,
        };
        if is_error {
            spanned.status = Status::Error;
        }
        let mut batch = spanned.batch();
        let _ = batch.span_event(spanned.id, &fields.line());
        match trigger {
            Some(trigger) => {
                let _ = batch.trigger(trigger, &[]);
                self.write(batch);
            }
            None => self.write_much(batch),
        }
    }

    fn on_close(&self, id: Id, context: layer::Context<'_, S>) {
        let span = match context.span(&id) {
            Some(span) => span,
            None => return,
        };
        if let Some(spanned) = span.extensions().get::<Spanned>() {
            let mut batch = spanned.batch();
            let _ = batch.span_end(spanned.id, spanned.status);
            if spanned.is_first {
                self.write(batch);
            }
        };
    }
}
