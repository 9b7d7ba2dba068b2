//! Single frames of the peer, for a host that decodes frames itself.

use crate::errors::{unexpected, ReceiveError};
use crate::id::{Dir, StreamId};
use crate::state::StreamsState;
use crate::transport_error::{TransportError, TransportErrorCode};
use crate::varint::VarInt;
use quic_streams_sys as sys;

/// The result of a call that processes one frame.
#[inline]
fn processed(result: i32, error: &sys::qs_error) -> Result<(), ReceiveError> {
    match result {
        sys::QS_OK => Ok(()),
        result => Err(failed(result, error)),
    }
}

/// Why a frame was not processed.
#[cold]
fn failed(result: i32, error: &sys::qs_error) -> ReceiveError {
    match result {
        sys::QS_ERR_PROTOCOL => ReceiveError::Transport(TransportError::of(error)),
        sys::QS_ERR_ARGUMENT => ReceiveError::Transport(TransportError::new(
            TransportErrorCode::FRAME_ENCODING_ERROR,
            "a number is 2^62 or more",
        )),
        sys::QS_ERR_NOMEM => ReceiveError::OutOfMemory(0),
        result => unexpected(result),
    }
}

/// Frames that the host decoded: one call for each frame, with the fields of RFC 9000 section 19.
///
/// A number of 2^62 or more, which no decoder returns, is a [`ReceiveError::Transport`] with FRAME_ENCODING_ERROR.
/// [`ReceiveError::OutOfMemory`] names byte 0: the frame was not processed, and may be passed in again.
///
/// DATA_BLOCKED and STREAM_DATA_BLOCKED change nothing and have no call. The host rejects STREAM_DATA_BLOCKED for a stream on
/// which only this endpoint sends, with STREAM_STATE_ERROR (section 19.13). [`StreamsState::receive`] rejects it itself.
impl StreamsState {
    /// Processes a STREAM frame (section 19.8).
    ///
    /// `payload_len` is the length of the memory in which the data was received. It is counted so that many small frames
    /// cannot pin much memory; the length of `data` counts if `payload_len` is less.
    ///
    /// # Errors
    ///
    /// As all calls for single frames.
    #[inline]
    pub fn on_stream(
        &mut self,
        id: StreamId,
        offset: u64,
        data: &[u8],
        fin: bool,
        payload_len: usize,
    ) -> Result<(), ReceiveError> {
        let mut error = sys::qs_error::ZERO;
        let (conn, at, len) = (self.handle(), data.as_ptr(), data.len());
        let fin = u32::from(fin);
        // SAFETY: the handle is this session's, `at` points to `len` bytes, and `error` is a local of its own.
        let result = unsafe {
            sys::qs_on_stream(
                conn,
                id.into(),
                offset,
                at,
                len,
                fin,
                payload_len,
                &mut error,
            )
        };
        processed(result, &error)
    }

    /// Processes a RESET_STREAM frame (section 19.4).
    ///
    /// # Errors
    ///
    /// As all calls for single frames.
    pub fn on_reset_stream(
        &mut self,
        id: StreamId,
        error_code: VarInt,
        final_size: VarInt,
    ) -> Result<(), ReceiveError> {
        let mut error = sys::qs_error::ZERO;
        let (conn, code, size) = (self.handle(), error_code.into(), final_size.into());
        // SAFETY: the handle is this session's, and `error` is a local of its own.
        let result = unsafe { sys::qs_on_reset_stream(conn, id.into(), code, size, &mut error) };
        processed(result, &error)
    }

    /// Processes a STOP_SENDING frame (section 19.5). For a stream on which only the peer sends, or for one of this endpoint
    /// that is not open, it is a STREAM_STATE_ERROR.
    ///
    /// # Errors
    ///
    /// As all calls for single frames.
    pub fn on_stop_sending(
        &mut self,
        id: StreamId,
        error_code: VarInt,
    ) -> Result<(), ReceiveError> {
        let mut error = sys::qs_error::ZERO;
        let (conn, code) = (self.handle(), error_code.into());
        // SAFETY: the handle is this session's, and `error` is a local of its own.
        let result = unsafe { sys::qs_on_stop_sending(conn, id.into(), code, &mut error) };
        processed(result, &error)
    }

    /// Processes a MAX_DATA frame (section 19.9).
    ///
    /// # Errors
    ///
    /// As all calls for single frames.
    #[inline]
    pub fn on_max_data(&mut self, limit: VarInt) -> Result<(), ReceiveError> {
        let mut error = sys::qs_error::ZERO;
        // SAFETY: the handle is this session's, and `error` is a local of its own.
        let result = unsafe { sys::qs_on_max_data(self.handle(), limit.into(), &mut error) };
        processed(result, &error)
    }

    /// Processes a MAX_STREAM_DATA frame (section 19.10).
    ///
    /// # Errors
    ///
    /// As all calls for single frames.
    #[inline]
    pub fn on_max_stream_data(&mut self, id: StreamId, limit: u64) -> Result<(), ReceiveError> {
        let mut error = sys::qs_error::ZERO;
        let conn = self.handle();
        // SAFETY: the handle is this session's, and `error` is a local of its own.
        let result = unsafe { sys::qs_on_max_stream_data(conn, id.into(), limit, &mut error) };
        processed(result, &error)
    }

    /// Processes a MAX_STREAMS frame (section 19.11).
    ///
    /// # Errors
    ///
    /// As all calls for single frames.
    pub fn on_max_streams(&mut self, dir: Dir, count: u64) -> Result<(), ReceiveError> {
        let mut error = sys::qs_error::ZERO;
        let conn = self.handle();
        // SAFETY: the handle is this session's, and `error` is a local of its own.
        let result = unsafe { sys::qs_on_max_streams(conn, dir.number(), count, &mut error) };
        processed(result, &error)
    }

    /// Processes a DATAGRAM frame (RFC 9221 section 4).
    ///
    /// # Errors
    ///
    /// As all calls for single frames.
    pub fn on_datagram(&mut self, data: &[u8]) -> Result<(), ReceiveError> {
        let mut error = sys::qs_error::ZERO;
        let (conn, at, len) = (self.handle(), data.as_ptr(), data.len());
        // SAFETY: the handle is this session's, `at` points to `len` bytes, and `error` is a local of its own.
        let result = unsafe { sys::qs_on_datagram(conn, at, len, &mut error) };
        processed(result, &error)
    }
}
