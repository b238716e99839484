use crate::sys;
use std::ffi::CStr;
use std::fmt;

/// What a call answers that did nothing. `include/hindsight.h` says for each call which it answers, and when.
#[derive(Clone, Debug, PartialEq, Eq)]
#[non_exhaustive]
pub enum Error {
    /// An argument is out of its range.
    Invalid,
    /// Memory was refused.
    NoMemory,
    /// The client is inside another call, which a signal handler interrupted.
    Busy,
    /// The node or hub was opened before a fork, in the parent.
    Forked,
    /// The thread has an open trace.
    Open,
    /// No trace is open.
    NoTrace,
    /// A payload or a text is longer than it may be.
    TooLong,
    /// Too much waits: the call may be made again after a pass.
    Full,
    /// All clients of the settings are in use.
    Many,
    /// The settings have no node, trigger id or autotrigger of this number.
    Undeclared,
    /// The settings are refused, in this line, or 0 where all lines together are the reason.
    Settings { line: u32, why: String },
    /// The bytes are no message that is taken here.
    Refused,
    /// The header is of another ABI than the library.
    Abi,
    /// A call of the system failed, with this `errno`.
    System(i32),
    /// The numbers of this trace, or of this client, have come to their end.
    Spent,
    /// The client was given back.
    Closed,
    /// Another process, or another node of this one, has the pool file.
    Taken,
    /// Of a point: no buffer was free, so the record is lost. The request goes on.
    Dry,
    /// An answer that this crate does not know.
    Other(i32),
}

pub type Result<T> = std::result::Result<T, Error>;

impl Error {
    /// An answer of the thread's last call. 0 and above are no errors.
    pub(crate) fn of(code: sys::Code) -> Result<sys::Code> {
        Err(match code {
            0.. => return Ok(code),
            -1 => Error::Invalid,
            -2 => Error::NoMemory,
            -3 => Error::Busy,
            -4 => Error::Forked,
            -5 => Error::Open,
            -6 => Error::NoTrace,
            -7 => Error::TooLong,
            -8 => Error::Full,
            -9 => Error::Many,
            -10 => Error::Undeclared,
            -11 => settings(),
            -12 => Error::Refused,
            -13 => Error::Abi,
            -14 => Error::System(std::io::Error::last_os_error().raw_os_error().unwrap_or(0)),
            -15 => Error::Spent,
            -16 => Error::Closed,
            -17 => Error::Taken,
            -19 => Error::Dry,
            other => Error::Other(other),
        })
    }

    /// The number that C has for it.
    pub fn code(&self) -> i32 {
        match self {
            Error::Invalid => -1,
            Error::NoMemory => -2,
            Error::Busy => -3,
            Error::Forked => -4,
            Error::Open => -5,
            Error::NoTrace => -6,
            Error::TooLong => -7,
            Error::Full => -8,
            Error::Many => -9,
            Error::Undeclared => -10,
            Error::Settings { .. } => -11,
            Error::Refused => -12,
            Error::Abi => -13,
            Error::System(_) => -14,
            Error::Spent => -15,
            Error::Closed => -16,
            Error::Taken => -17,
            Error::Dry => -19,
            Error::Other(code) => *code,
        }
    }
}

fn settings() -> Error {
    let mut line = 0;
    // SAFETY: the text is static.
    let why = unsafe { CStr::from_ptr(sys::hind_settings_error(&mut line)) };
    Error::Settings { line, why: why.to_string_lossy().into_owned() }
}

impl fmt::Display for Error {
    fn fmt(&self, f: &mut fmt::Formatter<'_>) -> fmt::Result {
        match self {
            Error::Settings { line, why } => write!(f, "settings, line {line}: {why}"),
            Error::System(errno) => std::io::Error::from_raw_os_error(*errno).fmt(f),
            // SAFETY: the text is static.
            _ => f.write_str(&unsafe { CStr::from_ptr(sys::hind_strerror(self.code())) }.to_string_lossy()),
        }
    }
}

impl std::error::Error for Error {}
