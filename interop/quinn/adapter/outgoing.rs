//! Payloads for packets, and what became of them.

use super::payloads::{self, Payloads};
use super::StreamsState;
use crate::connection::stats::FrameStats;
use quic_streams::{Emit, SettleError, Token};

impl StreamsState {
    /// Whether control frames wait to be sent
    pub fn has_pending(&self) -> bool {
        self.due().control
    }

    /// Whether datagrams wait to be sent
    pub(crate) fn has_datagrams(&self) -> bool {
        self.due().datagrams
    }

    /// Whether data of streams waits to be sent
    pub fn can_send_stream_data(&self) -> bool {
        self.due().streams
    }

    /// Writes control frames
    pub(crate) fn write_control_frames(
        &mut self,
        buf: &mut Vec<u8>,
        sent: &mut Payloads,
        counters: &mut FrameStats,
        max_size: usize,
    ) {
        if self.has_pending() {
            sent.control = self.emit(buf, max_size, Emit::CONTROL, counters);
        }
    }

    /// Writes datagrams; true if it wrote any
    pub(crate) fn write_datagrams(
        &mut self,
        buf: &mut Vec<u8>,
        sent: &mut Payloads,
        counters: &mut FrameStats,
        max_size: usize,
    ) -> bool {
        if self.has_datagrams() {
            sent.datagrams = self.emit(buf, max_size, Emit::DATAGRAMS, counters);
        }
        sent.datagrams.is_some()
    }

    /// Writes data of streams
    pub(crate) fn write_stream_frames(
        &mut self,
        buf: &mut Vec<u8>,
        sent: &mut Payloads,
        counters: &mut FrameStats,
        max_size: usize,
    ) {
        if !self.can_send_stream_data() {
            return;
        }
        let (from, due) = (buf.len(), self.due.get());
        sent.data = self.emit(buf, max_size, Emit::STREAMS, counters);
        self.unsent = self.unsent.saturating_sub(payloads::data_in(&buf[from..]));
        if self.unsent > 0 {
            // More data waits, and nothing changed for other frames: the library need not be asked.
            self.due.set(due);
        }
    }

    /// Appends what is due to a packet that has at most `max_size` bytes.
    fn emit(
        &mut self,
        buf: &mut Vec<u8>,
        max_size: usize,
        what: Emit,
        counters: &mut FrameStats,
    ) -> Option<Token> {
        let room = max_size.checked_sub(buf.len()).filter(|&room| room > 0)?;
        self.due.set(None);
        let payload = match self.endpoint.emit_lent(room, what) {
            Ok(payload) => payload?,
            Err(_) => {
                self.ran_out_of_memory();
                return None;
            }
        };
        payloads::count(payload.bytes, counters);
        buf.extend_from_slice(payload.bytes);
        Some(payload.token)
    }

    /// The packet of some payloads was acknowledged
    pub(crate) fn acked(&mut self, sent: Payloads) {
        for token in sent.tokens() {
            let settled = self.endpoint().acked(token);
            self.settled(settled);
        }
    }

    /// The packet of some payloads was declared lost
    pub(crate) fn lost(&mut self, sent: Payloads) {
        for token in sent.tokens() {
            let settled = self.endpoint().lost(token);
            self.settled(settled);
        }
    }

    /// A token that is not known is that of 0-RTT which was rejected.
    fn settled(&self, result: Result<(), SettleError>) {
        if let Err(SettleError::OutOfMemory) = result {
            self.ran_out_of_memory();
        }
    }

    /// Queues the control frames of a packet in flight once more, for a probe; false if it had none
    pub(crate) fn send_again(&mut self, sent: &mut Payloads) -> bool {
        let Some(token) = sent.control.take() else {
            return false;
        };
        let settled = self.endpoint().lost(token);
        self.settled(settled);
        self.has_pending()
    }
}
