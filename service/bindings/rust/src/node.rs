use crate::segment::begun;
use crate::{sys, Context, Error, NodeId, Result, Segment, TraceId};
use std::ffi::CString;
use std::marker::PhantomData;
use std::mem::size_of;
use std::os::raw::c_int;
use std::os::unix::ffi::OsStrExt;
use std::path::Path;
use std::ptr::{self, NonNull};
use std::sync::Mutex;

/// The node of this process.
pub struct Node {
    at: NonNull<sys::hind_node>,
    // the bytes of a message stand until the next one is given
    copying: Mutex<()>,
}

// SAFETY: a node's calls may come from any thread; the one that answers by a pointer is behind the mutex.
unsafe impl Send for Node {}
unsafe impl Sync for Node {}

/// A message of a node, or of a hub for the node `to`.
#[derive(Clone, Debug, PartialEq, Eq)]
pub struct Message {
    pub number: u64,
    pub to: NodeId,
    pub bytes: Vec<u8>,
}

pub(crate) fn empty_message() -> sys::hind_message {
    sys::hind_message { number: 0, to: 0, bytes: ptr::null(), len: 0 }
}

impl Message {
    /// SAFETY: the message's bytes stand.
    pub(crate) unsafe fn of(message: &sys::hind_message) -> Message {
        let bytes = std::slice::from_raw_parts(message.bytes, message.len).to_vec();
        Message { number: message.number, to: message.to, bytes }
    }
}

macro_rules! counts {
    ($(#[$said:meta])* $name:ident of $of:ident: $($field:ident),*) => {
        $(#[$said])*
        #[derive(Clone, Copy, Debug, Default, PartialEq, Eq)]
        #[non_exhaustive]
        pub struct $name {
            $(pub $field: u64),*
        }

        impl $name {
            fn of(from: &sys::$of) -> $name {
                $name { $($field: from.$field),* }
            }
        }
    };
}

counts!(
    /// What a client did since its node was opened, also for threads that had it before. `hindsight.h` says what each number counts.
    ClientCounts of hind_client_counts: points, null_pages, stray_points, full_points, long_points, spent_points, refused_crumbs, refused_triggers, dropped_notes
);

counts!(
    /// What a node did since it was opened. `hindsight.h` says what each number counts.
    NodeCounts of hind_node_counts: passes, clients, used_clients, points, null_pages, stray_points, full_points, long_points, spent_points, refused_crumbs,
        refused_triggers, dropped_notes, messages, hellos, tells, reports, standings, repeats, acknowledged, unacknowledged, asks, full_asks, refused_asks, salvaged, torn,
        salvaging, limited_triggers
);

impl Node {
    /// Opens node `number` by the text of the service's settings. The epoch is above those of its lives before; 0 is the clock's.
    pub fn open(settings: &str, number: NodeId, name: &str, epoch: u64) -> Result<Node> {
        Node::open_with(settings, number, name, epoch, None)
    }

    /// The same, with its buffers in a file, so that they outlive the process.
    pub fn open_with(settings: &str, number: NodeId, name: &str, epoch: u64, pool_file: Option<&Path>) -> Result<Node> {
        let name = CString::new(name).map_err(|_| Error::Invalid)?;
        let pool = pool_file.map(|path| CString::new(path.as_os_str().as_bytes())).transpose().map_err(|_| Error::Invalid)?;
        let options = sys::hind_node_options {
            size: size_of::<sys::hind_node_options>(),
            abi: sys::HIND_ABI,
            node: number,
            epoch,
            settings: settings.as_ptr(),
            settings_len: settings.len(),
            name: name.as_ptr(),
            pool_file: pool.as_ref().map_or(ptr::null(), |path| path.as_ptr()),
            pool_kept: 0,
            spare: 0,
        };
        let mut node = ptr::null_mut();
        // SAFETY: what the options point to stands during the call.
        Error::of(unsafe { sys::hind_node_open(&options, &mut node) })?;
        Ok(Node { at: NonNull::new(node).ok_or(Error::Invalid)?, copying: Mutex::new(()) })
    }

    /// The client of the calling thread.
    pub fn client(&self) -> Result<Client<'_>> {
        let mut client = ptr::null_mut();
        // SAFETY: the node is open as long as it lives.
        Error::of(unsafe { sys::hind_client_get(self.at.as_ptr(), &mut client) })?;
        Ok(Client { at: NonNull::new(client).ok_or(Error::Invalid)?, _of: PhantomData })
    }

    /// Makes one pass: whether a message is to be handed out.
    pub fn pass(&self) -> Result<bool> {
        // SAFETY: as in `client`; so in what follows.
        Ok(Error::of(unsafe { sys::hind_node_pass(self.at.as_ptr()) })? == 0)
    }

    /// The next message that is to be handed out to the hub. It stays the next one until [`Node::sent`].
    pub fn next_message(&self) -> Option<Message> {
        let _copying = self.copying.lock().unwrap_or_else(|poisoned| poisoned.into_inner());
        let mut message = empty_message();
        let code = unsafe { sys::hind_node_next(self.at.as_ptr(), &mut message) };
        // SAFETY: nobody else takes a message meanwhile, so its bytes stand.
        (code == 0).then(|| unsafe { Message::of(&message) })
    }

    /// The message was handed over: whether it was the next one.
    pub fn sent(&self, number: u64) -> bool {
        unsafe { sys::hind_node_sent(self.at.as_ptr(), number) == 0 }
    }

    /// Whoever carries the message keeps it safe: whether it waited.
    pub fn acknowledged(&self, number: u64) -> bool {
        unsafe { sys::hind_node_acknowledged(self.at.as_ptr(), number) == 0 }
    }

    /// Has all that was not acknowledged handed out anew.
    pub fn again(&self) -> Result<()> {
        Error::of(unsafe { sys::hind_node_again(self.at.as_ptr()) }).map(drop)
    }

    /// Takes a message of the hub.
    pub fn deliver(&self, message: &[u8]) -> Result<()> {
        Error::of(unsafe { sys::hind_node_deliver(self.at.as_ptr(), message.as_ptr().cast(), message.len()) }).map(drop)
    }

    /// Says once more who the node is, for a hub that started anew.
    pub fn hello(&self) -> Result<()> {
        Error::of(unsafe { sys::hind_node_hello(self.at.as_ptr()) }).map(drop)
    }

    /// A descriptor that can be read while there is a message. It is the node's.
    pub fn fd(&self) -> Result<c_int> {
        let fd = unsafe { sys::hind_node_fd(self.at.as_ptr()) };
        if fd < 0 {
            Error::of(-14).map(drop)?
        }
        Ok(fd)
    }

    pub fn counts(&self) -> Result<NodeCounts> {
        let mut counts = sys::hind_node_counts { size: size_of::<sys::hind_node_counts>(), ..Default::default() };
        Error::of(unsafe { sys::hind_node_get_counts(self.at.as_ptr(), &mut counts) })?;
        Ok(NodeCounts::of(&counts))
    }
}

impl Drop for Node {
    fn drop(&mut self) {
        // SAFETY: no call is under way, and no client of this crate is left.
        unsafe { sys::hind_node_close(self.at.as_ptr()) };
    }
}

/// The client of a thread, which it does not leave. A thread that asks twice has it twice.
pub struct Client<'n> {
    at: NonNull<sys::hind_client>,
    _of: PhantomData<(&'n Node, *const ())>,
}

impl<'n> Client<'n> {
    pub(crate) fn as_ptr(&self) -> *mut sys::hind_client {
        self.at.as_ptr()
    }

    /// Opens a trace, which the segment that is answered ends where it is dropped.
    pub fn begin(&self, trace: TraceId) -> Result<Segment<'_>> {
        // SAFETY: the client is this thread's as long as it lives; so in what follows.
        Error::of(begun(self.as_ptr(), || unsafe { sys::hind_begin(self.as_ptr(), &trace.0) }))?;
        Ok(Segment::of(self.as_ptr(), trace))
    }

    /// Opens the trace of a request that came, and leaves a crumb to the node that sent it.
    pub fn begin_from(&self, context: &Context) -> Result<Segment<'_>> {
        Error::of(begun(self.as_ptr(), || unsafe { sys::hind_begin_from(self.as_ptr(), &context.as_sys()) }))?;
        Ok(Segment::of(self.as_ptr(), context.trace))
    }

    /// Any trace goes on at, or came from, this node.
    pub fn crumb_of(&self, trace: TraceId, node: NodeId) -> Result<()> {
        Error::of(unsafe { sys::hind_crumb_of(self.as_ptr(), &trace.0, node) }).map(drop)
    }

    /// Claims any trace, and at most 32 laterals.
    pub fn trigger(&self, trigger: u8, lead: TraceId, laterals: &[TraceId]) -> Result<()> {
        Error::of(unsafe { sys::hind_trigger(self.as_ptr(), trigger, &lead.0, laterals.as_ptr().cast(), laterals.len()) }).map(drop)
    }

    /// Hands over what waits for a place: how much still waits.
    pub fn flush(&self) -> Result<u64> {
        let mut waits = 0;
        Error::of(unsafe { sys::hind_flush(self.as_ptr(), &mut waits) })?;
        Ok(waits)
    }

    /// Makes many calls in one, as `docs/FORMATS.md` spells them: how many were done, how many bytes they have, and why it ended there, if it did.
    pub fn write(&self, calls: &[u8]) -> (usize, usize, Result<()>) {
        let (mut done, mut used) = (0, 0);
        let code = unsafe { sys::hind_write(self.as_ptr(), calls.as_ptr().cast(), calls.len(), &mut done, &mut used) };
        (done, used, Error::of(code).map(drop))
    }

    /// The open trace.
    pub fn trace(&self) -> Option<TraceId> {
        let mut trace = TraceId::default();
        let code = unsafe { sys::hind_client_trace(self.as_ptr(), &mut trace.0) };
        (code == 0).then_some(trace)
    }

    pub fn counts(&self) -> Result<ClientCounts> {
        let mut counts = sys::hind_client_counts { size: size_of::<sys::hind_client_counts>(), ..Default::default() };
        Error::of(unsafe { sys::hind_client_get_counts(self.as_ptr(), &mut counts) })?;
        Ok(ClientCounts::of(&counts))
    }
}
