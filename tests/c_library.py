"""The C library by ctypes: the names, numbers and structs of `include/quic_streams.h`, and a handle with a call for each of its functions.

Each call returns the library's return value, alone or first, and behind it what the library wrote. Out-parameters begin with a number that
no call of these tests returns, so one that was not written is seen."""
import ctypes
import os

ROOT = os.path.dirname(os.path.dirname(os.path.abspath(__file__)))
FOLDER = os.environ.get("QUIC_STREAMS_LIB_DIR") or os.path.join(ROOT, "build", "lib")
SHARED = os.path.join(FOLDER, "libquic_streams.so")

OK, DONE, END, OTHER_FRAME = range(4)
NO_STREAM, BLOCKED, STOPPED, RESET, ORDER, PROTOCOL, MALFORMED, TOKEN, DATAGRAMS_OFF, TOO_LARGE, TOO_SMALL = range(-5, -16, -1)
NONE = 2**64 - 1
CONFIG_WORDS, LIMIT_WORDS, EVENT_WORDS, PAYLOAD_WORDS, DUE_WORDS, INFO_WORDS = 9, 7, 5, 3, 3, 15
# What an out-parameter is before the call, and what a buffer is filled with
UNWRITTEN = 0x7A7A7A7A7A7A7A7A
FILL = 0x7A
GREATEST_SLICES = 64

U64, I32, SIZE = ctypes.c_uint64, ctypes.c_int32, ctypes.c_size_t
BYTES = ctypes.POINTER(ctypes.c_uint8)


class Handle(ctypes.Structure):
    _fields_ = [("live", U64), ("at", ctypes.c_void_p)]


class Buffer(ctypes.Structure):
    _fields_ = [("live", U64), ("at", ctypes.c_void_p), ("data", BYTES), ("len", SIZE)]


class Slice(ctypes.Structure):
    _fields_ = [("memory", BYTES), ("start", SIZE), ("len", SIZE)]


class Error(ctypes.Structure):
    _fields_ = [("code", U64), ("reason_len", U64), ("reason", ctypes.c_uint8 * 80)]


def bytes_in(data):
    """Bytes as an argument of a call."""
    return (ctypes.c_uint8 * len(data)).from_buffer_copy(data) if data else None


def words_in(numbers):
    return (U64 * len(numbers))(*numbers)


def words_out(count):
    return words_in([UNWRITTEN] * count)


def room(size):
    return (ctypes.c_uint8 * size)(*[FILL] * size)


class Library:
    """The library that is loaded. Each function takes arguments of the types of the header."""

    HANDLE = ctypes.POINTER(Handle)
    OUT, OUT_SIZE, IN_BUFFER, OUT_ERROR = ctypes.POINTER(U64), ctypes.POINTER(SIZE), ctypes.POINTER(Buffer), ctypes.POINTER(Error)
    READ = (HANDLE, U64, BYTES, SIZE, OUT_SIZE, OUT, OUT)
    PARTS = (HANDLE, ctypes.c_uint32, ctypes.c_uint32)
    TYPES = {
        "qs_conn_open_words": (HANDLE, OUT, SIZE),
        "qs_conn_close": (HANDLE,),
        "qs_set_peer_limits_words": (HANDLE, OUT, SIZE),
        "qs_zero_rtt_rejected": (HANDLE,),
        "qs_retransmit_all_for_0rtt": (HANDLE,),
        "qs_stream_open": (HANDLE, ctypes.c_uint32, OUT),
        "qs_stream_accept": (HANDLE, ctypes.c_uint32, OUT),
        "qs_stream_write": (HANDLE, U64, BYTES, SIZE, OUT_SIZE, OUT),
        "qs_stream_write_fin": (HANDLE, U64, BYTES, SIZE, ctypes.c_uint32, OUT_SIZE, OUT),
        "qs_stream_send_room": (HANDLE, U64, OUT),
        "qs_stream_set_user": (HANDLE, U64, U64),
        "qs_stream_user": (HANDLE, U64, OUT),
        "qs_stream_finish": (HANDLE, U64, OUT),
        "qs_stream_reset": (HANDLE, U64, U64),
        "qs_stream_stop": (HANDLE, U64, U64),
        "qs_stream_set_priority": (HANDLE, U64, I32),
        "qs_stream_priority": (HANDLE, U64, ctypes.POINTER(I32)),
        "qs_stream_stopped": (HANDLE, U64, OUT),
        "qs_stream_received_reset": (HANDLE, U64, OUT),
        "qs_stream_read": READ,
        "qs_stream_read_unordered": READ,
        "qs_stream_read_many": READ,
        "qs_stream_read_lent": (HANDLE, U64, ctypes.POINTER(Slice), SIZE, OUT_SIZE, OUT, OUT),
        "qs_set_send_window": (HANDLE, U64),
        "qs_set_receive_window": (HANDLE, U64),
        "qs_set_max_concurrent": (HANDLE, ctypes.c_uint32, U64),
        "qs_poll_words": (HANDLE, OUT, SIZE),
        "qs_get_info_words": (HANDLE, OUT, SIZE),
        "qs_get_stats_words": (HANDLE, OUT, SIZE),
        "qs_get_due_words": (HANDLE, OUT, SIZE),
        "qs_buffer_reserve": (IN_BUFFER, SIZE),
        "qs_receive": (HANDLE, BYTES, SIZE, OUT_SIZE, OUT_ERROR),
        "qs_receive_buffer": (HANDLE, IN_BUFFER, SIZE, OUT_SIZE, OUT_ERROR),
        "qs_on_stream": (HANDLE, U64, U64, BYTES, SIZE, ctypes.c_uint32, SIZE, OUT_ERROR),
        "qs_on_reset_stream": (HANDLE, U64, U64, U64, OUT_ERROR),
        "qs_on_stop_sending": (HANDLE, U64, U64, OUT_ERROR),
        "qs_on_max_data": (HANDLE, U64, OUT_ERROR),
        "qs_on_max_stream_data": (HANDLE, U64, U64, OUT_ERROR),
        "qs_on_max_streams": (HANDLE, ctypes.c_uint32, U64, OUT_ERROR),
        "qs_on_datagram": (HANDLE, BYTES, SIZE, OUT_ERROR),
        "qs_emit_words": (*PARTS, BYTES, SIZE, OUT, SIZE),
        "qs_emit_lent_words": (*PARTS, SIZE, ctypes.POINTER(BYTES), OUT, SIZE),
        "qs_emit_buffer_words": (*PARTS, SIZE, IN_BUFFER, OUT, SIZE),
        "qs_acked": (HANDLE, U64),
        "qs_lost": (HANDLE, U64),
        "qs_datagram_send": (HANDLE, BYTES, SIZE, ctypes.c_uint32),
        "qs_datagram_recv": (HANDLE, BYTES, SIZE, OUT_SIZE),
        "qs_datagram_max_size": (HANDLE, OUT_SIZE),
        "qs_datagram_send_space": (HANDLE, OUT_SIZE),
        "qs_datagram_set_max_size": (HANDLE, U64),
    }

    def __init__(self):
        loaded = ctypes.CDLL(SHARED)
        for name, types in self.TYPES.items():
            function = getattr(loaded, name)
            function.argtypes, function.restype = types, I32
            setattr(self, name, function)
        self.frees = {}
        for name, type in (("qs_conn_free", self.HANDLE), ("qs_buffer_free", self.IN_BUFFER)):
            self.frees[name] = getattr(loaded, name)
            self.frees[name].argtypes, self.frees[name].restype = (type,), None


class Connection:
    """A handle of a session, with a buffer for payloads."""

    def __init__(self, library):
        self.library = library
        self.handle, self.buffer = Handle(), Buffer()

    def free(self):
        self.library.frees["qs_buffer_free"](self.buffer)
        self.library.frees["qs_conn_free"](self.handle)

    def call(self, name, *arguments):
        """A call that writes nothing."""
        return getattr(self.library, f"qs_{name}")(self.handle, *arguments)

    def call_out(self, name, *arguments, out=U64):
        """A call whose last argument is a number that it writes."""
        written = out(UNWRITTEN)
        return self.call(name, *arguments, written), written.value

    def words(self, name, count):
        words = words_out(count)
        return self.call(f"{name}_words", words, count), list(words)

    def configure(self, name, numbers):
        return self.call(f"{name}_words", words_in(numbers), len(numbers))

    def write(self, id, data):
        written, code = SIZE(UNWRITTEN), U64(UNWRITTEN)
        return self.call("stream_write", id, bytes_in(data), len(data), written, code), written.value, code.value

    def write_fin(self, id, data, fin):
        """A write that may finish its stream: the count is 0 before it, as the header's qs_stream_writev has it."""
        written, code = SIZE(0), U64(UNWRITTEN)
        return self.call("stream_write_fin", id, bytes_in(data), len(data), int(fin), written, code), written.value, code.value

    def read(self, how, id, most):
        """A read by the call of this name: its return value, the bytes, their count, offset and code."""
        data, count, offset, code = room(most), SIZE(UNWRITTEN), U64(UNWRITTEN), U64(UNWRITTEN)
        result = self.call(f"stream_{how}", id, data, most, count, offset, code)
        return result, bytes(data), count.value, offset.value, code.value

    def read_lent(self, id, most):
        """A read of slices: its return value, the bytes of each, their count, offset and code."""
        slices, count, offset, code = (Slice * max(most, 1))(), SIZE(UNWRITTEN), U64(UNWRITTEN), U64(UNWRITTEN)
        result = self.call("stream_read_lent", id, slices, most, count, offset, code)
        given = slices[: count.value] if count.value <= most else []
        pieces = [ctypes.string_at(ctypes.addressof(it.memory.contents) + it.start, it.len) for it in given]
        return result, pieces, count.value, offset.value, code.value

    # -- payloads: each returns the return value, the bytes, and the numbers of qs_payload

    def emit(self, parts, fair, most):
        data, words = room(most), words_out(PAYLOAD_WORDS)
        result = self.call("emit_words", parts, fair, data, most, words, PAYLOAD_WORDS)
        return result, bytes(data), list(words)

    def emit_lent(self, parts, fair, most):
        data, words = BYTES(), words_out(PAYLOAD_WORDS)
        result = self.call("emit_lent_words", parts, fair, most, data, words, PAYLOAD_WORDS)
        return result, ctypes.string_at(data, words[0]) if result == OK else b"", list(words)

    def emit_buffer(self, parts, fair, most):
        words = words_out(PAYLOAD_WORDS)
        self.reserve(1)
        result = self.call("emit_buffer_words", parts, fair, most, self.buffer, words, PAYLOAD_WORDS)
        return result, ctypes.string_at(self.buffer.data, self.buffer.len) if result == OK else b"", list(words)

    def reserve(self, size):
        result = self.library.qs_buffer_reserve(self.buffer, size)
        if result != OK or self.buffer.len < size:
            raise AssertionError(f"a buffer of {self.buffer.len} bytes, after {result}")

    def receive(self, data, start):
        """A payload from an offset on: the return value, where it stopped, and the code of an error."""
        at, error = SIZE(start), Error(UNWRITTEN)
        result = self.call("receive", bytes_in(data), len(data), at, error)
        return result, at.value, error.code

    def fill_buffer(self, data):
        """Puts a payload into the buffer, without memory to spare."""
        self.library.frees["qs_buffer_free"](self.buffer)
        self.reserve(max(len(data), 1))
        ctypes.memmove(self.buffer.data, data, len(data))

    def receive_buffer(self, size, start):
        at, error = SIZE(start), Error(UNWRITTEN)
        result = self.call("receive_buffer", self.buffer, size, at, error)
        return result, at.value, error.code

    def receive_frame(self, name, *fields):
        """A frame with its fields."""
        return self.call(f"on_{name}", *fields, Error(UNWRITTEN))

    def receive_datagram(self, most):
        data, count = room(most), SIZE(UNWRITTEN)
        result = self.call("datagram_recv", data, most, count)
        return result, bytes(data), count.value
