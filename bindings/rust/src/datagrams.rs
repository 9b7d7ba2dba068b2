//! Datagrams (RFC 9221).

use crate::config::number;
use crate::errors::{unexpected, SendDatagramError};
use crate::state::StreamsState;
use quic_streams_sys as sys;
use std::mem::MaybeUninit;

/// Datagrams up to this length are received in one call.
const USUAL: usize = 2048;

impl StreamsState {
    /// Queues a datagram, and copies it. With `drop`, the oldest pending datagrams are dropped until it fits.
    ///
    /// # Errors
    ///
    /// [`SendDatagramError`], and nothing is queued.
    pub fn send_datagram(&mut self, data: &[u8], drop: bool) -> Result<(), SendDatagramError> {
        let (conn, at, len) = (self.handle(), data.as_ptr(), data.len());
        // SAFETY: the handle is this session's, and `at` points to `len` bytes.
        match unsafe { sys::qs_datagram_send(conn, at, len, u32::from(drop)) } {
            sys::QS_OK => Ok(()),
            sys::QS_ERR_DATAGRAMS_OFF => Err(SendDatagramError::Disabled),
            sys::QS_ERR_TOO_LARGE => Err(SendDatagramError::TooLarge),
            sys::QS_ERR_BLOCKED => Err(SendDatagramError::Blocked),
            sys::QS_ERR_NOMEM => Err(SendDatagramError::OutOfMemory),
            result => unexpected(result),
        }
    }

    /// Removes and returns the oldest received datagram, if there is one. The `Vec` has its length as capacity.
    pub fn recv_datagram(&mut self) -> Option<Vec<u8>> {
        let mut room = [MaybeUninit::uninit(); USUAL];
        let len = match self.recv_into(&mut room) {
            Received::None => return None,
            // SAFETY: the library wrote the first `len` bytes of `room`.
            Received::All(len) => return Some(unsafe { initialized(&room[..len]) }.to_vec()),
            Received::Longer(len) => len,
        };
        let mut data = Vec::with_capacity(len);
        match self.recv_into(&mut data.spare_capacity_mut()[..len]) {
            // SAFETY: the library wrote the first `len` bytes.
            Received::All(len) => unsafe { data.set_len(len) },
            _ => unreachable!("the datagram has the length that was returned"),
        }
        Some(data)
    }

    fn recv_into(&mut self, room: &mut [MaybeUninit<u8>]) -> Received {
        let (conn, at, cap) = (self.handle(), room.as_mut_ptr().cast(), room.len());
        let mut count = 0;
        // SAFETY: the handle is this session's, `at` points to `cap` bytes, which are only written, and `count` is a local
        // of its own.
        match unsafe { sys::qs_datagram_recv(conn, at, cap, &mut count) } {
            sys::QS_OK => Received::All(count),
            sys::QS_ERR_TOO_SMALL => Received::Longer(count),
            sys::QS_DONE => Received::None,
            result => unexpected(result),
        }
    }

    /// The length of the longest datagram that the path and the peer accept, or `None` if the peer accepts none.
    #[must_use]
    pub fn max_datagram_size(&self) -> Option<usize> {
        let mut size = 0;
        // SAFETY: the handle is this session's, and `size` is a local of its own.
        match unsafe { sys::qs_datagram_max_size(self.handle(), &mut size) } {
            sys::QS_OK => Some(size),
            sys::QS_ERR_DATAGRAMS_OFF => None,
            result => unexpected(result),
        }
    }

    /// The length of the longest datagram for which the buffer has room without dropping another. The limit of the path and
    /// the peer, [`StreamsState::max_datagram_size`], may be lower.
    #[must_use]
    pub fn datagram_send_buffer_space(&self) -> usize {
        let mut size = 0;
        // SAFETY: the handle is this session's, and `size` is a local of its own.
        match unsafe { sys::qs_datagram_send_space(self.handle(), &mut size) } {
            sys::QS_OK => size,
            result => unexpected(result),
        }
    }

    /// Sets the length of the longest datagram that the path and the peer accept, or `None` if the peer accepts none, and
    /// drops longer ones that are pending.
    pub fn set_max_datagram_size(&mut self, size: Option<usize>) {
        // SAFETY: the handle is this session's.
        match unsafe { sys::qs_datagram_set_max_size(self.handle(), number(size)) } {
            sys::QS_OK => {}
            result => unexpected(result),
        }
    }
}

enum Received {
    None,
    /// A whole datagram of this length.
    All(usize),
    /// The datagram has this length, which is more than there was room for.
    Longer(usize),
}

/// Bytes that were written.
///
/// # Safety
///
/// All of them are initialised.
pub(crate) unsafe fn initialized(bytes: &[MaybeUninit<u8>]) -> &[u8] {
    // SAFETY: the caller says that they are initialised, and `MaybeUninit<u8>` has the layout of `u8`.
    unsafe { &*(bytes as *const [MaybeUninit<u8>] as *const [u8]) }
}
