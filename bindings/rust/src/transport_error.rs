use quic_streams_sys as sys;
use std::error::Error;
use std::fmt;
use std::io;

/// The error code of a CONNECTION_CLOSE frame of type 0x1c (RFC 9000 section 20.1).
#[derive(Clone, Copy, PartialEq, Eq, Hash)]
pub struct TransportErrorCode(u64);

macro_rules! codes {
    ($($name:ident = $number:literal: $text:literal,)*) => {
        impl TransportErrorCode {
            $(#[doc = $text] pub const $name: Self = Self($number);)*

            /// The name of the code in RFC 9000.
            const fn name(self) -> Option<&'static str> {
                match self.0 {
                    $($number => Some(stringify!($name)),)*
                    _ => None,
                }
            }
        }
    };
}

codes! {
    NO_ERROR = 0x0: "The connection is closed without an error.",
    INTERNAL_ERROR = 0x1: "The endpoint cannot go on. This library: a stream has too many disjoint segments buffered.",
    CONNECTION_REFUSED = 0x2: "The server refused the connection.",
    FLOW_CONTROL_ERROR = 0x3: "The peer sent more data than allowed by flow control.",
    STREAM_LIMIT_ERROR = 0x4: "The peer opened more streams than its stream limit.",
    STREAM_STATE_ERROR = 0x5: "A frame arrived for a stream whose state or direction does not allow it.",
    FINAL_SIZE_ERROR = 0x6: "The peer changed the final size of a stream, or sent data beyond it.",
    FRAME_ENCODING_ERROR = 0x7: "A frame is malformed.",
    TRANSPORT_PARAMETER_ERROR = 0x8: "The peer's transport parameters are invalid.",
    CONNECTION_ID_LIMIT_ERROR = 0x9: "The peer issued more connection ids than allowed.",
    PROTOCOL_VIOLATION = 0xa: "The peer violated the protocol in a way that no other code names.",
    INVALID_TOKEN = 0xb: "The token of an Initial packet is invalid.",
    APPLICATION_ERROR = 0xc: "The application closed the connection.",
    CRYPTO_BUFFER_EXCEEDED = 0xd: "The peer sent more CRYPTO data than can be buffered.",
    KEY_UPDATE_ERROR = 0xe: "The peer failed to update keys.",
    AEAD_LIMIT_REACHED = 0xf: "The limit of use of the keys is reached.",
    NO_VIABLE_PATH = 0x10: "The network path cannot carry QUIC.",
}

impl TransportErrorCode {
    /// The code of a TLS alert (CRYPTO_ERROR, 0x100 to 0x1ff).
    #[must_use]
    pub const fn crypto(alert: u8) -> Self {
        Self(0x100 | alert as u64)
    }
}

impl From<TransportErrorCode> for u64 {
    fn from(code: TransportErrorCode) -> Self {
        code.0
    }
}

impl fmt::Debug for TransportErrorCode {
    fn fmt(&self, f: &mut fmt::Formatter<'_>) -> fmt::Result {
        fmt::Display::fmt(self, f)
    }
}

impl fmt::Display for TransportErrorCode {
    fn fmt(&self, f: &mut fmt::Formatter<'_>) -> fmt::Result {
        match self.name() {
            Some(name) => f.write_str(name),
            None => write!(f, "error code {:#x}", self.0),
        }
    }
}

/// Why the connection has to be closed.
#[derive(Clone, Debug, PartialEq, Eq)]
#[non_exhaustive]
pub struct TransportError {
    /// The code for CONNECTION_CLOSE.
    pub code: TransportErrorCode,
    /// A text for people, of at most 80 bytes; may be empty.
    pub reason: String,
}

impl TransportError {
    pub(crate) fn new(code: TransportErrorCode, reason: &str) -> Self {
        let reason = reason.to_owned();
        Self { code, reason }
    }

    /// The error that the library wrote.
    #[cold]
    pub(crate) fn of(error: &sys::qs_error) -> Self {
        let len = usize::try_from(error.reason_len).unwrap_or(usize::MAX);
        let reason = &error.reason[..len.min(error.reason.len())];
        Self::new(
            TransportErrorCode(error.code),
            &String::from_utf8_lossy(reason),
        )
    }
}

impl fmt::Display for TransportError {
    fn fmt(&self, f: &mut fmt::Formatter<'_>) -> fmt::Result {
        self.code.fmt(f)?;
        if self.reason.is_empty() {
            return Ok(());
        }
        write!(f, ": {}", self.reason)
    }
}

impl Error for TransportError {}

impl From<TransportError> for io::Error {
    fn from(error: TransportError) -> Self {
        Self::new(io::ErrorKind::InvalidData, error)
    }
}
