//! The frames of a payload.

use crate::coding::BufExt;
use crate::connection::stats::FrameStats;
use quic_streams::Token;

/// What stands for the frames of a packet until it is acknowledged or lost, in place of quinn-proto's notes of them
#[derive(Clone, Copy, Debug, Default)]
pub(crate) struct Payloads {
    pub(super) control: Option<Token>,
    pub(super) datagrams: Option<Token>,
    pub(super) data: Option<Token>,
}

impl Payloads {
    /// Whether the packet has no frame of the library
    pub(crate) fn is_empty(&self) -> bool {
        self.tokens().next().is_none()
    }

    pub(super) fn tokens(self) -> impl Iterator<Item = Token> {
        [self.control, self.datagrams, self.data]
            .into_iter()
            .flatten()
    }
}

/// Adds the frames of a payload to the counts of a connection. Where the payload has a frame that is not one of streams or
/// datagrams, or is cut, it adds none and returns false.
pub(super) fn count(payload: &[u8], counters: &mut FrameStats) -> bool {
    // Most packets of a download have one STREAM frame without a length.
    if let Some(0x08 | 0x09 | 0x0c | 0x0d) = payload.first() {
        counters.stream += 1;
        return true;
    }
    let mut sum = *counters;
    let mut rest = payload;
    while let Some((&frame_type, fields)) = rest.split_first() {
        let Some(next) = count_one(frame_type, fields, &mut sum) else {
            return false;
        };
        rest = next;
    }
    *counters = sum;
    true
}

/// Counts one frame (RFC 9000 section 19), and returns what follows it.
fn count_one<'a>(frame_type: u8, fields: &'a [u8], sum: &mut FrameStats) -> Option<&'a [u8]> {
    let mut fields = fields;
    let (counter, next) = match frame_type {
        0x04 => (&mut sum.reset_stream, skip(fields, 3)?),
        0x05 => (&mut sum.stop_sending, skip(fields, 2)?),
        0x08..=0x0f => (&mut sum.stream, data_of(frame_type, fields)?.1),
        0x10 => (&mut sum.max_data, skip(fields, 1)?),
        0x11 => (&mut sum.max_stream_data, skip(fields, 2)?),
        0x12 => (&mut sum.max_streams_bidi, skip(fields, 1)?),
        0x13 => (&mut sum.max_streams_uni, skip(fields, 1)?),
        0x14 => (&mut sum.data_blocked, skip(fields, 1)?),
        0x15 => (&mut sum.stream_data_blocked, skip(fields, 2)?),
        0x30 => (&mut sum.datagram, &[][..]),
        0x31 => (&mut sum.datagram, with_length(&mut fields)?.1),
        _ => return None,
    };
    *counter += 1;
    Some(next)
}

/// The number of bytes of stream data in a payload of STREAM frames.
pub(super) fn data_in(mut payload: &[u8]) -> u64 {
    let mut length = 0;
    while let Some((&frame_type, rest)) = payload.split_first() {
        let Some((data, next)) = data_of(frame_type, rest) else {
            break;
        };
        length += data.len() as u64;
        payload = next;
    }
    length
}

/// The data of a STREAM frame, and what follows it. Without a length it reaches to the end.
fn data_of(frame_type: u8, mut rest: &[u8]) -> Option<(&[u8], &[u8])> {
    rest = skip(rest, 1 + usize::from(frame_type >> 2 & 1))?;
    match frame_type & 2 {
        0 => Some((rest, &[])),
        _ => with_length(&mut rest),
    }
}

fn with_length<'a>(rest: &mut &'a [u8]) -> Option<(&'a [u8], &'a [u8])> {
    let length = usize::try_from(rest.get_var().ok()?).ok()?;
    (length <= rest.len()).then(|| rest.split_at(length))
}

/// What follows some variable-length integers.
fn skip(mut rest: &[u8], integers: usize) -> Option<&[u8]> {
    for _ in 0..integers {
        let length = 1 << (rest.first()? >> 6);
        rest = rest.get(length..)?;
    }
    Some(rest)
}

#[cfg(test)]
mod tests {
    use super::*;

    /// A RESET_STREAM, two STREAM frames, a MAX_STREAMS and a DATAGRAM frame without a length.
    const PAYLOAD: &[u8] = b"\x04\x04\x07\x40\x64\x0e\x00\x01\x02hi\x0a\x04\x01x\x12\x05\x30rest";

    #[test]
    fn frames_are_counted_by_type() {
        let mut counters = FrameStats::default();
        assert!(count(PAYLOAD, &mut counters));
        assert_eq!((counters.reset_stream, counters.stream), (1, 2));
        assert_eq!((counters.max_streams_bidi, counters.datagram), (1, 1));
        assert!(count(b"\x09\x00rest", &mut counters));
        assert_eq!((counters.stream, counters.acks), (3, 0));
    }

    #[test]
    fn other_frames_and_cut_ones_are_left_to_the_host() {
        let is_counted = |payload: &[u8]| {
            let mut counters = FrameStats::default();
            let counted = count(payload, &mut counters);
            assert!(counted || counters.stream + counters.reset_stream == 0);
            counted
        };
        assert!(!is_counted(b"\x01")); // PING
        assert!(!is_counted(b"\x0a\x04\x01x\x00")); // PADDING behind a STREAM frame
        assert!(!is_counted(b"\x40\x0a\x04\x01x")); // a type that is not in its shortest form
        for length in [1, 4, 6, 8, 10, 12, 14, 16] {
            assert!(!is_counted(&PAYLOAD[..length]), "{length}");
        }
    }

    #[test]
    fn data_is_measured() {
        assert_eq!(data_in(b"\x0e\x00\x01\x02hi\x08\x04to the end"), 2 + 10);
        assert_eq!(data_in(b""), 0);
    }
}
