use crate::transport_error::TransportError;
use crate::varint::VarInt;
use std::error::Error;
use std::fmt;
use std::io;

// The cases of an error, with their texts; and the kind of io::Error that each becomes, if it does.
macro_rules! errors {
    ($(#[$meta:meta])* $name:ident { $($(#[$of:meta])* $case:ident $(($field:ty))? => $text:literal $($kind:ident)?,)* }) => {
        $(#[$meta])*
        #[derive(Clone, Debug, PartialEq, Eq)]
        #[non_exhaustive]
        pub enum $name {
            $($(#[$of])* $case $(($field))?,)*
        }

        impl fmt::Display for $name {
            fn fmt(&self, f: &mut fmt::Formatter<'_>) -> fmt::Result {
                match self {
                    $(errors!(@pattern $name $case $(($field))? number) => errors!(@text f $text $(($field))? number),)*
                }
            }
        }

        errors!(@io $name { $($case $(($field))? $($kind)?,)* });
    };
    (@pattern $name:ident $case:ident $number:ident) => { $name::$case };
    (@pattern $name:ident $case:ident ($field:ty) $number:ident) => { $name::$case($number) };
    (@text $f:ident $text:literal $number:ident) => { $f.write_str($text) };
    (@text $f:ident $text:literal ($field:ty) $number:ident) => { write!($f, $text, $number) };
    (@io $name:ident { $($case:ident $(($field:ty))?,)* }) => {};
    (@io $name:ident { $($case:ident $(($field:ty))? $kind:ident,)* }) => {
        impl Error for $name {}

        impl From<$name> for io::Error {
            fn from(error: $name) -> Self {
                let kind = match &error {
                    $(errors!(@pattern $name $case $(($field))? _number) => io::ErrorKind::$kind,)*
                };
                Self::new(kind, error)
            }
        }
    };
}

/// Out of memory. If nothing else is said, nothing changed.
#[derive(Clone, Copy, Debug, PartialEq, Eq)]
pub struct OutOfMemory;

impl fmt::Display for OutOfMemory {
    fn fmt(&self, f: &mut fmt::Formatter<'_>) -> fmt::Result {
        f.write_str("out of memory")
    }
}

impl Error for OutOfMemory {}

impl From<OutOfMemory> for io::Error {
    fn from(error: OutOfMemory) -> Self {
        Self::new(io::ErrorKind::OutOfMemory, error)
    }
}

errors! {
    /// Why an endpoint was not made, or the limits of its peer were not set.
    ConfigError {
        /// A stream limit of a [`Config`](crate::Config) or of [`Limits`](crate::Limits) is above 2^60.
        OutOfRange => "a stream limit is above 2^60" InvalidInput,
        /// Out of memory.
        OutOfMemory => "out of memory" OutOfMemory,
    }
}

errors! {
    /// Why nothing was written.
    WriteError {
        /// A limit of the peer or the send window leaves no room: [`Event::Writable`](crate::Event::Writable) follows,
        /// unless the connection is closing.
        Blocked => "unable to accept further writes" WouldBlock,
        /// The peer sent STOP_SENDING with this code: reset the stream. This is returned also while no limit leaves room.
        Stopped(VarInt) => "sending stopped by peer: error {}" ConnectionReset,
        /// The send side is closed, or the stream was neither opened nor accepted.
        ClosedStream => "closed stream" NotConnected,
        /// Out of memory.
        OutOfMemory => "out of memory" OutOfMemory,
    }
}

errors! {
    /// Why a stream was not finished.
    FinishError {
        /// The peer sent STOP_SENDING with this code.
        Stopped(VarInt) => "sending stopped by peer: error {}" ConnectionReset,
        /// The send side is closed, or the stream was neither opened nor accepted.
        ClosedStream => "closed stream" NotConnected,
        /// Out of memory.
        OutOfMemory => "out of memory" OutOfMemory,
    }
}

errors! {
    /// Why another call on a stream failed.
    StreamError {
        /// This side of the stream is closed, or the stream was neither opened nor accepted.
        ClosedStream => "closed stream" NotConnected,
        /// Out of memory.
        OutOfMemory => "out of memory" OutOfMemory,
    }
}

errors! {
    /// Why nothing was read.
    ReadError {
        /// Nothing is available now: [`Event::Readable`](crate::Event::Readable) follows.
        Blocked => "blocked" WouldBlock,
        /// The peer reset the stream with this code. The receive side is closed.
        Reset(VarInt) => "stream reset by peer: error {}" ConnectionReset,
        /// The receive side is closed, or the stream was neither opened nor accepted.
        ClosedStream => "closed stream" NotConnected,
        /// An ordered read after an unordered one.
        IllegalOrderedRead => "attempted an ordered read following an unordered read" InvalidInput,
        /// Out of memory.
        OutOfMemory => "out of memory" OutOfMemory,
    }
}

errors! {
    /// Why a payload was not reported.
    SettleError {
        /// The payload was reported before, or never written.
        UnknownToken => "no such payload" NotFound,
        /// Out of memory: a part was reported, and the call has to be repeated for the rest.
        OutOfMemory => "out of memory" OutOfMemory,
    }
}

errors! {
    /// Why a datagram was not queued.
    SendDatagramError {
        /// The peer accepts no datagrams, or this endpoint takes none.
        Disabled => "datagrams are off" Unsupported,
        /// The datagram is longer than the path, the peer or the buffer allows.
        TooLarge => "datagram too large" InvalidInput,
        /// Other datagrams leave no room: [`Event::DatagramsUnblocked`](crate::Event::DatagramsUnblocked) follows.
        Blocked => "datagram send blocked" WouldBlock,
        /// Out of memory.
        OutOfMemory => "out of memory" OutOfMemory,
    }
}

errors! {
    /// Why a payload or a frame of the peer was not processed, or not to its end.
    ReceiveError {
        /// The connection has to be closed with this error.
        Transport(TransportError) => "the peer violated the protocol: {}",
        /// Out of memory: call again from this byte of the payload on, or treat the packet as not received.
        OutOfMemory(usize) => "out of memory at byte {} of the payload",
    }
}

impl Error for ReceiveError {
    fn source(&self) -> Option<&(dyn Error + 'static)> {
        match self {
            Self::Transport(error) => Some(error),
            Self::OutOfMemory(_) => Some(&OutOfMemory),
        }
    }
}

impl From<ReceiveError> for io::Error {
    fn from(error: ReceiveError) -> Self {
        let kind = match &error {
            ReceiveError::Transport(_) => io::ErrorKind::InvalidData,
            ReceiveError::OutOfMemory(_) => io::ErrorKind::OutOfMemory,
        };
        Self::new(kind, error)
    }
}

/// A return value that the contract of the call excludes: the library is another one than the crate was built for.
#[cold]
#[track_caller]
pub(crate) fn unexpected(result: impl fmt::Display) -> ! {
    panic!("libquic_streams returned {result}, which this call never returns: is it version 0.1?")
}
