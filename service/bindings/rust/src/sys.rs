//! The calls of `hindsight.h`, as far as this crate makes them. `service/tests/layout.py` holds the two against each other.

use std::os::raw::{c_char, c_int, c_void};

pub type Code = c_int;

macro_rules! handles {
    ($($name:ident),*) => {$(
        #[repr(C)]
        pub struct $name {
            _private: [u8; 0],
        }
    )*};
}

handles!(hind_node, hind_client, hind_hub, hind_trace);

/// The 8 bytes of an id that C takes by value.
#[repr(C)]
#[derive(Clone, Copy)]
pub struct hind_span_id {
    pub bytes: [u8; 8],
}

#[repr(C)]
#[derive(Clone, Copy)]
pub struct hind_context {
    pub trace: [u8; 16],
    pub span: [u8; 8],
    pub flags: u8,
    pub node: u16,
}

#[repr(C)]
pub struct hind_node_options {
    pub size: usize,
    pub abi: u32,
    pub node: u16,
    pub epoch: u64,
    pub settings: *const u8,
    pub settings_len: usize,
    pub name: *const c_char,
    pub pool_file: *const c_char,
    pub pool_kept: u32,
    pub spare: u32,
}

#[repr(C)]
pub struct hind_hub_options {
    pub size: usize,
    pub abi: u32,
    pub epoch: u64,
    pub settings: *const u8,
    pub settings_len: usize,
    pub is_fresh: u32,
    pub spare: u32,
}

#[repr(C)]
pub struct hind_message {
    pub number: u64,
    pub to: u16,
    pub bytes: *const u8,
    pub len: usize,
}

#[repr(C)]
#[derive(Clone, Copy, Default)]
pub struct hind_client_counts {
    pub size: usize,
    pub points: u64,
    pub null_pages: u64,
    pub stray_points: u64,
    pub full_points: u64,
    pub long_points: u64,
    pub spent_points: u64,
    pub refused_crumbs: u64,
    pub refused_triggers: u64,
    pub dropped_notes: u64,
}

#[repr(C)]
#[derive(Clone, Copy, Default)]
pub struct hind_node_counts {
    pub size: usize,
    pub passes: u64,
    pub clients: u64,
    pub used_clients: u64,
    pub points: u64,
    pub null_pages: u64,
    pub stray_points: u64,
    pub full_points: u64,
    pub long_points: u64,
    pub spent_points: u64,
    pub refused_crumbs: u64,
    pub refused_triggers: u64,
    pub dropped_notes: u64,
    pub messages: u64,
    pub hellos: u64,
    pub tells: u64,
    pub reports: u64,
    pub standings: u64,
    pub repeats: u64,
    pub acknowledged: u64,
    pub unacknowledged: u64,
    pub asks: u64,
    pub full_asks: u64,
    pub refused_asks: u64,
    pub salvaged: u64,
    pub torn: u64,
    pub salvaging: u64,
    pub limited_triggers: u64,
}

#[repr(C)]
pub struct hind_message_id {
    pub node: u16,
    pub epoch: u64,
    pub number: u64,
}

#[repr(C)]
pub struct hind_trace_info {
    pub size: usize,
    pub id: [u8; 16],
    pub part: u32,
    pub trigger: u8,
    pub is_whole: c_int,
    pub lives: usize,
    pub records: usize,
}

#[repr(C)]
pub struct hind_trace_life {
    pub node: u16,
    pub epoch: u64,
    pub name: *const c_char,
    pub wholeness: *const c_char,
    pub records: usize,
}

#[repr(C)]
pub struct hind_record {
    pub node: u16,
    pub client: u16,
    pub epoch: u64,
    pub core: u64,
    pub number: u64,
    pub missing: u64,
    pub moment: u64,
    pub payload: *const u8,
    pub len: usize,
}

#[repr(C)]
pub struct hind_span_record {
    pub what: c_int,
    pub span: hind_span_id,
    pub parent: hind_span_id,
    pub kind: c_int,
    pub status: c_int,
    pub text: *const c_char,
    pub text_len: usize,
    pub r#type: c_int,
    pub value: *const c_char,
    pub value_len: usize,
    pub integer: i64,
    pub real: f64,
}

pub const HIND_ABI: u32 = 1;
pub const HIND_TRACEPARENT_SIZE: usize = 56;
pub const HIND_TRACESTATE_SIZE: usize = 513;
pub const HIND_SPAN_PAYLOAD: usize = 4363;

extern "C" {
    pub fn hind_strerror(code: Code) -> *const c_char;
    pub fn hind_settings_error(line: *mut u32) -> *const c_char;
    pub fn hind_new_trace(id: *mut [u8; 16]) -> Code;
    pub fn hind_new_span(id: *mut [u8; 8]) -> Code;
    pub fn hind_new_context(context: *mut hind_context) -> Code;
    pub fn hind_context_read(parent: *const c_char, state: *const c_char, context: *mut hind_context) -> Code;
    pub fn hind_context_write(context: *const hind_context, before: *const c_char, parent: *mut c_char, state: *mut c_char) -> Code;
    pub fn hind_node_open(options: *const hind_node_options, node: *mut *mut hind_node) -> Code;
    pub fn hind_node_close(node: *mut hind_node) -> Code;
    pub fn hind_node_pass(node: *mut hind_node) -> Code;
    pub fn hind_node_next(node: *mut hind_node, message: *mut hind_message) -> Code;
    pub fn hind_node_sent(node: *mut hind_node, number: u64) -> Code;
    pub fn hind_node_acknowledged(node: *mut hind_node, number: u64) -> Code;
    pub fn hind_node_again(node: *mut hind_node) -> Code;
    pub fn hind_node_deliver(node: *mut hind_node, bytes: *const c_void, len: usize) -> Code;
    pub fn hind_node_hello(node: *mut hind_node) -> Code;
    pub fn hind_node_fd(node: *mut hind_node) -> c_int;
    pub fn hind_node_get_counts(node: *mut hind_node, counts: *mut hind_node_counts) -> Code;
    pub fn hind_client_get(node: *mut hind_node, client: *mut *mut hind_client) -> Code;
    pub fn hind_begin(client: *mut hind_client, trace: *const [u8; 16]) -> Code;
    pub fn hind_begin_from(client: *mut hind_client, context: *const hind_context) -> Code;
    pub fn hind_point(client: *mut hind_client, payload: *const c_void, len: usize) -> Code;
    pub fn hind_point_at(client: *mut hind_client, moment: u64, payload: *const c_void, len: usize) -> Code;
    pub fn hind_pointv(client: *mut hind_client, pieces: *const c_void, count: usize) -> Code;
    pub fn hind_crumb(client: *mut hind_client, node: u16) -> Code;
    pub fn hind_crumb_of(client: *mut hind_client, trace: *const [u8; 16], node: u16) -> Code;
    pub fn hind_trigger(client: *mut hind_client, trigger: u8, lead: *const [u8; 16], laterals: *const [u8; 16], count: usize) -> Code;
    pub fn hind_sample(client: *mut hind_client, auto: u32, value: u64) -> Code;
    pub fn hind_end(client: *mut hind_client) -> Code;
    pub fn hind_flush(client: *mut hind_client, waits: *mut u64) -> Code;
    pub fn hind_write(client: *mut hind_client, bytes: *const c_void, len: usize, calls: *mut usize, used: *mut usize) -> Code;
    pub fn hind_client_trace(client: *const hind_client, trace: *mut [u8; 16]) -> Code;
    pub fn hind_client_get_counts(client: *mut hind_client, counts: *mut hind_client_counts) -> Code;
    pub fn hind_put_span_start(out: *mut u8, span: hind_span_id, parent: hind_span_id, kind: c_int, name: *const c_char) -> usize;
    pub fn hind_put_span_end(out: *mut u8, span: hind_span_id, status: c_int, message: *const c_char) -> usize;
    pub fn hind_put_span_event(out: *mut u8, span: hind_span_id, name: *const c_char) -> usize;
    pub fn hind_put_span_text(out: *mut u8, span: hind_span_id, key: *const c_char, value: *const c_char) -> usize;
    pub fn hind_put_span_int(out: *mut u8, span: hind_span_id, key: *const c_char, value: i64) -> usize;
    pub fn hind_put_span_double(out: *mut u8, span: hind_span_id, key: *const c_char, value: f64) -> usize;
    pub fn hind_put_span_bool(out: *mut u8, span: hind_span_id, key: *const c_char, value: c_int) -> usize;
    pub fn hind_span_start(client: *mut hind_client, span: hind_span_id, parent: hind_span_id, kind: c_int, name: *const c_char) -> Code;
    pub fn hind_span_end(client: *mut hind_client, span: hind_span_id, status: c_int, message: *const c_char) -> Code;
    pub fn hind_span_event(client: *mut hind_client, span: hind_span_id, name: *const c_char) -> Code;
    pub fn hind_span_text(client: *mut hind_client, span: hind_span_id, key: *const c_char, value: *const c_char) -> Code;
    pub fn hind_span_int(client: *mut hind_client, span: hind_span_id, key: *const c_char, value: i64) -> Code;
    pub fn hind_span_double(client: *mut hind_client, span: hind_span_id, key: *const c_char, value: f64) -> Code;
    pub fn hind_span_bool(client: *mut hind_client, span: hind_span_id, key: *const c_char, value: c_int) -> Code;
    pub fn hind_read_span(payload: *const c_void, len: usize, record: *mut hind_span_record) -> c_int;
    pub fn hind_hub_open(options: *const hind_hub_options, hub: *mut *mut hind_hub) -> Code;
    pub fn hind_hub_close(hub: *mut hind_hub) -> Code;
    pub fn hind_hub_deliver(hub: *mut hind_hub, bytes: *const c_void, len: usize) -> Code;
    pub fn hind_hub_next(hub: *mut hind_hub, message: *mut hind_message) -> Code;
    pub fn hind_hub_pass(hub: *mut hind_hub) -> Code;
    pub fn hind_hub_take(hub: *mut hind_hub, trace: *mut *mut hind_trace) -> Code;
    pub fn hind_hub_saved(hub: *mut hind_hub, trace: *const [u8; 16]) -> Code;
    pub fn hind_hub_acknowledge(hub: *mut hind_hub, message: *mut hind_message_id) -> Code;
    pub fn hind_trace_get_info(trace: *const hind_trace, info: *mut hind_trace_info) -> Code;
    pub fn hind_trace_get_life(trace: *const hind_trace, at: usize, life: *mut hind_trace_life) -> Code;
    pub fn hind_trace_get_record(trace: *const hind_trace, at: usize, record: *mut hind_record) -> Code;
    pub fn hind_trace_otlp(trace: *const hind_trace, take: extern "C" fn(*mut c_void, *const c_char, usize), closure: *mut c_void) -> Code;
    pub fn hind_trace_free(trace: *mut hind_trace);
}
