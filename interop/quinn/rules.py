"""What is replaced in the installed files of quinn-proto 0.9.2, beside its folder of streams, and why.

A rule finds its pattern exactly so many times as it says, or the layout is refused.
"""
import pathlib
import re
from dataclasses import dataclass

# Files that go: what they hold is in the library.
GONE = ['src/connection/streams', 'src/connection/send_buffer.rs', 'src/connection/datagrams.rs']


@dataclass
class Rule:
    name: str
    file: str
    why: str
    find: str
    put: str
    times: int = 1

    def apply(self, text):
        text, count = re.subn(self.find, self.put, text, flags=re.S | re.M)
        if count != self.times:
            raise SystemExit(f'rule {self.name}: {count} places in {self.file}, {self.times} expected')
        return text


CONNECTION, SPACES = 'src/connection/mod.rs', 'src/connection/spaces.rs'
DATA = r'self\.spaces\[SpaceId::Data\]'

RULES = [
    Rule('dependency', 'Cargo.toml', 'the adapter calls the crate for Rust of this repository',
         r'^\[dependencies\.bytes\]', '[dependencies.quic-streams]\npath = "@BINDINGS@"\n\n[dependencies.bytes]'),
    Rule('send-buffer', CONNECTION, 'what was written is kept in the library', r'^mod send_buffer;\n\n', ''),
    Rule('names', CONNECTION, 'the library takes slices: there is no source of chunks',
         r'\bByteSlice, BytesArray, BytesSource, ', ''),
    Rule('public-names', 'src/lib.rs', 'the same, in what the crate shows', r'\bBytesSource, ', ''),
    Rule('datagrams', CONNECTION, 'datagrams are in the library',
         r'^mod datagrams;\nuse datagrams::DatagramState;\npub use datagrams::', 'pub use streams::'),
    Rule('datagram-field', CONNECTION, 'the same', r'    /// State of the unreliable datagram extension\n    datagrams: DatagramState,\n', ''),
    Rule('new', CONNECTION, 'the library takes the limits of streams and of datagrams',
         r'StreamsState::new\(.*?\),\s+datagrams: DatagramState::default\(\),', 'StreamsState::new(side, &config),'),
    Rule('poll', CONNECTION, 'an event may be one of datagrams',
         r'(if let Some\(event\) = self\.streams\.poll\(\) \{\s+return Some\()Event::Stream\(event\)\)', r'\1event)'),
    Rule('memory', CONNECTION, 'a call of the library may run out of memory',
         r'(pub fn poll_transmit\(.*?assert!\(max_datagrams != 0\);\n)', r'\1        self.close_if_out_of_memory(now);\n'),
    Rule('handles', CONNECTION, 'what the handles of a stream queue is queued in the library',
         rf'\n +pending: &mut {DATA}\.pending,', '', 2),
    Rule('receive-window', CONNECTION, 'the library queues MAX_DATA itself where the window grows',
         r'if (self\.streams\.set_receive_window\(receive_window\)) \{.*?\n        \}', r'\1;'),
    Rule('acknowledged', CONNECTION, 'a payload of the library is reported by its token, not by its frames',
         r'if let Some\(retransmits\) = info\.retransmits\.get\(\) \{.*?received_ack_of\(frame\);\n +\}',
         'self.streams.acked(info.stream_frames);'),
    Rule('lost', CONNECTION, 'the same of a loss',
         r'for frame in info\.stream_frames \{\s+self\.streams\.retransmit\(frame\);\s+\}',
         'self.streams.lost(info.stream_frames);'),
    Rule('retry', CONNECTION, 'control frames of an early packet are sent again by a report of its payload',
         r'(for \(_, info\) in zero_rtt \{\n)', r'\1self.streams.lost(info.stream_frames);\n'),
    Rule('rejected', CONNECTION, 'the set of pending frames that is made anew is that of the packets with streams',
         rf'({DATA}\.pending = )Retransmits::default\(\)', r'\1Retransmits::with_streams()'),
    Rule('data-space', CONNECTION, 'the library knows no packet number spaces: streams are of the last alone',
         r'(PacketSpace::new\(now\), )PacketSpace::new\(now\)\]',
         r'\1PacketSpace { pending: Retransmits::with_streams(), ..PacketSpace::new(now) }]'),
    Rule('payload', CONNECTION, 'the library takes a payload whole that has frames of streams and datagrams alone',
         r'(let mut ack_eliciting = false;\n)(        for frame in frame::Iter::new\(payload\) \{)',
         r'\1        let is_taken = self.streams.received_payload(&payload, &mut self.stats.frame_rx)?;\n'
         r'        ack_eliciting |= is_taken;\n        is_probing_packet &= !is_taken;\n'
         r'        let payload = if is_taken { Bytes::new() } else { payload };\n\2'),
    Rule('received-datagram', CONNECTION, 'the library tells the event itself',
         r'if self\s+\.datagrams\s+\.received\(datagram, &self\.config\.datagram_receive_buffer_size\)\?\s+\{.*?\n {20}\}',
         'self.streams.received_datagram(datagram)?;'),
    Rule('received', CONNECTION, 'the library queues MAX_DATA itself, and copies the data, so that it holds no memory of a packet',
         rf'if (self\.streams\.received)\(frame, payload_len\)\?\.should_transmit\(\) \{{.*?true;\n +\}}', r'\1(frame)?;'),
    Rule('received-reset', CONNECTION, 'the library queues MAX_DATA itself',
         r'if (self\.streams\.received_reset\(frame\)\?)\.should_transmit\(\) \{.*?true;\n +\}', r'\1;'),
    Rule('received-stop', CONNECTION, 'a call of the library can be refused, if only out of memory',
         r'(self\.streams\.received_stop_sending)\(id, error_code\);', r'\1(frame::StopSending { id, error_code })?;'),
    Rule('received-max-data', CONNECTION, 'the same', r'(self\.streams\.received_max_data\(bytes\));', r'\1?;'),
    Rule('max-streams', CONNECTION, 'the library queues MAX_STREAMS itself',
         rf'let pending = &mut {DATA}\.pending;\s+for dir in Dir::iter\(\) \{{\s+if self\.streams\.take_max_streams_dirty.*?\n        \}}\n',
         ''),
    Rule('write-control', CONNECTION, 'what is pending is in the library; a token stands for what was written',
         r'(self\.streams\.write_control_frames\(\s+buf,)\s+&mut space\.pending,\s+&mut sent\.retransmits,',
         r'\1 &mut sent.stream_frames,'),
    Rule('write-datagrams', CONNECTION, 'a token stands for what was written',
         r'while (buf\.len\(\) \+ Datagram::SIZE_BOUND < max_size && space_id == SpaceId::Data \{).*?\n        \}\n',
         r'if \1\n            let (notes, counters) = (&mut sent.stream_frames, &mut self.stats.frame_tx);\n'
         r'            sent.non_retransmits |= self.streams.write_datagrams(buf, notes, counters, max_size);\n        }\n'),
    Rule('write-streams', CONNECTION, 'the same',
         r'sent\.stream_frames = (self\.streams\.write_stream_frames\()buf, max_size\);\s+self\.stats\.frame_tx\.stream [^;]*;',
         r'let (notes, counters) = (&mut sent.stream_frames, &mut self.stats.frame_tx);\n'
         r'            \1buf, notes, counters, max_size);'),
    Rule('waiting-datagrams', CONNECTION, 'the library is asked what waits',
         r'!self\.datagrams\.outgoing\.is_empty\(\)', 'self.streams.has_datagrams()'),
    Rule('notes', CONNECTION, 'what a packet carries of streams and datagrams is three tokens',
         r'stream_frames: StreamMetaVec,', 'stream_frames: streams::Payloads,'),
    Rule('sent-packet', SPACES, 'the same, of a packet in flight',
         r'stream_frames: frame::StreamMetaVec,', 'stream_frames: super::streams::Payloads,'),
    Rule('pending', SPACES, 'frames of streams that wait are in the library; here is whether they are of this space',
         r'(pub struct Retransmits \{\n).*?(    pub\(crate\) crypto:)', r'\1    pub(crate) streams: bool,\n\2'),
    Rule('pending-empty', SPACES, 'the library is asked what waits',
         r'    (pub fn is_empty\(&self, streams: &StreamsState\) -> bool \{\n)        !self\.max_data.*?(&& self\.crypto\.is_empty\(\))',
         r'    pub(crate) fn with_streams() -> Self { Self { streams: true, ..Self::default() } }\n\n'
         r'    \1        !(self.streams && streams.has_pending()) \2'),
    Rule('pending-joined', SPACES, 'a loss of frames of streams is reported to the library',
         r'        self\.max_data \|= rhs\.max_data;.*?(        for crypto in rhs\.crypto)', r'\1'),
    Rule('probe-mutable', SPACES, "that report changes the library's endpoint",
         r'(fn maybe_queue_probe\(&mut self, streams: &)(StreamsState\))', r'\1mut \2'),
    Rule('probe-call', CONNECTION, 'the same, where it is called',
         r'maybe_queue_probe\(&self\.streams\)', 'maybe_queue_probe(&mut self.streams)'),
    Rule('probe', SPACES, 'frames of streams of the oldest packet are sent again by a report of its payload',
         r'if !packet\.retransmits\.is_empty\(streams\) \{',
         'if streams.send_again(&mut packet.stream_frames) | !packet.retransmits.is_empty(streams) {'),
]


def apply(files, bindings):
    """Applies the rules to the files of the package."""
    files = dict(files)
    for rule in RULES:
        path = pathlib.Path(rule.file)
        text = rule.apply(files[path].decode('utf-8'))
        files[path] = text.replace('@BINDINGS@', bindings).encode('utf-8')
    return files
