/* An echo server over UDP on the loopback, and a client with 100 streams.
 *
 *   echo server|client PORT [LOSS [SEED]]
 *
 * The client writes 40,000 bytes on each stream and checks what comes back. It
 * resets every tenth stream halfway, and stops the echo of every tenth other.
 * The server allows 20 streams at a time. It reads no more of a stream until it
 * has written back what it read, so a slow reader slows its writer down.
 * Each event of a stream brings the address of what the program keeps of it,
 * which QS_EVENT_CLOSED frees. The client is done when all its streams are
 * over. Each drops LOSS of a hundred packets, whose form is in packets.h.
 * Nothing is encrypted. */
#include "packets.h"

enum { STREAMS = 100, AT_A_TIME = 20, LENGTH = 40000, CHUNK = 4096 };
enum { WINDOW = 1 << 16, STREAM_WINDOW = 1 << 14 };
enum { CANCELLED = 7, UNWANTED = 9 }; /* application error codes */
typedef struct stream {
  struct stream *next, **link; /* in the list of the streams */
  uint64_t id;
  uint64_t sent, received; /* client: bytes written, and checked */
  uint8_t chunk[CHUNK];    /* server: bytes read and not written back */
  size_t at, len;
  int has_fin, is_done;
} stream;
typedef struct {
  host host;
  stream *streams; /* those that are not over */
  unsigned opened, echoed, resets, stops, blocked;
  int is_server;
} endpoint;

/* Keeps a stream that was opened or accepted. */
static stream *keep(endpoint *e, uint64_t id) {
  stream *s = calloc(1, sizeof *s);
  if (!s)
    die("stream", QS_ERR_NOMEM);
  s->id = id;
  s->next = e->streams;
  s->link = &e->streams;
  if (s->next)
    s->next->link = &s->next;
  e->streams = s;
  want("user", qs_stream_set_user(&e->host.conn, id, (uintptr_t)s));
  return s;
}

static void forget(stream *s) {
  *s->link = s->next;
  if (s->next)
    s->next->link = s->link;
  free(s);
}

static uint8_t byte_of(uint64_t id, uint64_t at) {
  return (uint8_t)(id * 31 + at * 7 + (at >> 8));
}

/* Client: writes until the stream is blocked; QS_EVENT_WRITABLE goes on. */
static void write_more(endpoint *e, stream *s) {
  const uint64_t id = s->id;
  const uint64_t target = qs_id_index(id) % 10 == 3 ? LENGTH / 2 : LENGTH;
  uint8_t data[CHUNK];
  uint64_t code;
  size_t len, written;
  while (s->sent < target) {
    for (len = 0; len < CHUNK && s->sent + len < target; len++)
      data[len] = byte_of(id, s->sent + len);
    const int32_t result =
        qs_stream_write(&e->host.conn, id, data, len, &written, &code);
    if (result == QS_ERR_BLOCKED || result == QS_ERR_STOPPED)
      return;
    want("write", result);
    s->sent += written;
  }
  if (!s->has_fin)
    want("finish", target < LENGTH
                       ? qs_stream_reset(&e->host.conn, id, CANCELLED)
                       : qs_stream_finish(&e->host.conn, id, &code));
  s->has_fin = 1;
}

static void open_streams(endpoint *e) {
  uint64_t id;
  while (e->opened < STREAMS &&
         want("open", qs_stream_open(&e->host.conn, QS_BIDI, &id)) == QS_OK) {
    e->opened++;
    write_more(e, keep(e, id));
  }
}

/* Client: checks what came back, in the memory of the library. */
static void check_echo(endpoint *e, stream *s) {
  const uint64_t id = s->id;
  qs_slice slices[16];
  for (int32_t result = QS_OK; result == QS_OK && !s->is_done;) {
    size_t count = 0;
    uint64_t offset, code;
    result = qs_stream_read_lent(&e->host.conn, id, slices, 16, &count, &offset,
                                 &code);
    want("read", result == QS_ERR_RESET ? QS_END : result);
    s->is_done = result == QS_END || result == QS_ERR_RESET;
    for (size_t i = 0; i < count; i++)
      for (size_t at = 0; at < slices[i].len; at++)
        if (qs_slice_data(&slices[i])[at] != byte_of(id, s->received++))
          die("other bytes came back", QS_ERR_PROTOCOL);
    e->resets += result == QS_ERR_RESET;
    e->echoed += result == QS_END && s->received == LENGTH;
    if (qs_id_index(id) % 10 == 7 && s->received > 0 && !s->is_done) {
      s->is_done = 1; /* the server stops reading, which counts it */
      want("stop", qs_stream_stop(&e->host.conn, id, UNWANTED));
    }
  }
}

/* Server: writes back what was read, and reads on when all is written. */
static void echo(endpoint *e, stream *s) {
  const uint64_t id = s->id;
  uint64_t code, offset;
  while (!s->is_done) {
    size_t written;
    const qs_piece rest = {s->chunk + s->at, s->len - s->at};
    int32_t result = qs_stream_writev(&e->host.conn, id, &rest, 1,
                                      (uint32_t)s->has_fin, &written, &code);
    s->at += written;
    e->blocked += result == QS_ERR_BLOCKED;
    if (result == QS_ERR_BLOCKED || result == QS_ERR_STOPPED)
      return; /* nothing is read meanwhile */
    want("write", result);
    e->echoed += (unsigned)s->has_fin;
    if ((s->is_done = s->has_fin))
      return;
    s->at = s->len = 0;
    result = qs_stream_read_many(&e->host.conn, id, s->chunk, CHUNK, &s->len,
                                 &offset, &code);
    if (result == QS_ERR_RESET) {
      s->is_done = 1;
      e->resets++;
      want("reset", qs_stream_reset(&e->host.conn, id, code));
    } else if (want("read", result) == QS_DONE && s->len == 0)
      return;
    s->has_fin = result == QS_END;
  }
}

/* The peer wants no more of a stream: a server then reads no more of it. A side
 * that ended before is QS_ERR_NO_STREAM: a peer may both reset and stop. */
static void on_stopped(endpoint *e, stream *s, uint64_t code) {
  int32_t result = qs_stream_reset(&e->host.conn, s->id, code);
  if (result != QS_ERR_NO_STREAM)
    want("reset", result);
  if (e->is_server && !s->is_done) {
    result = qs_stream_stop(&e->host.conn, s->id, code);
    if (result != QS_ERR_NO_STREAM)
      want("stop", result);
  }
  e->stops += !s->is_done || !e->is_server;
  s->is_done = 1;
}

/* Server: accepts streams as they are opened, so that each later event of one
 * finds it kept. */
static void accept_streams(endpoint *e, uint32_t dir) {
  uint64_t id;
  while (want("accept", qs_stream_accept(&e->host.conn, dir, &id)) == QS_OK)
    echo(e, keep(e, id));
}

static void handle_events(endpoint *e) {
  qs_event event;
  while (want("poll", qs_poll(&e->host.conn, &event)) == QS_OK) {
    stream *s = (stream *)(uintptr_t)event.user;
    if (event.kind == QS_EVENT_OPENED)
      accept_streams(e, (uint32_t)event.dir);
    else if (event.kind == QS_EVENT_READABLE)
      (e->is_server ? echo : check_echo)(e, s);
    else if (event.kind == QS_EVENT_WRITABLE)
      (e->is_server ? echo : write_more)(e, s);
    else if (event.kind == QS_EVENT_STOPPED)
      on_stopped(e, s, event.app_code);
    else if (event.kind == QS_EVENT_AVAILABLE)
      open_streams(e);
    else if (event.kind == QS_EVENT_CLOSED)
      forget(s);
  }
}

static void open_endpoint(endpoint *e, uint16_t port) {
  const uint32_t side = e->is_server ? QS_SERVER : QS_CLIENT;
  const qs_config config = {.side = side,
                            .max_remote_bidi = AT_A_TIME,
                            .send_window = WINDOW,
                            .receive_window = WINDOW,
                            .stream_window = STREAM_WINDOW,
                            .datagram_receive = QS_NONE,
                            .track_streams = 1};
  /* The peer runs the same program: its limits are known. */
  const qs_peer_limits limits = {
      .initial_max_data = WINDOW,
      .initial_max_streams_bidi = AT_A_TIME,
      .initial_max_stream_data_bidi_local = STREAM_WINDOW,
      .initial_max_stream_data_bidi_remote = STREAM_WINDOW,
      .max_datagram = QS_NONE};
  open_host(&e->host, &config, &limits, port);
}

int main(int argc, char **argv) {
  static endpoint e; /* all zero bytes: the handle is closed */
  if (argc < 3)
    return fputs("usage: echo server|client PORT [LOSS [SEED]]\n", stderr), 2;
  e.is_server = argv[1][0] == 's';
  e.host.loss = argc > 3 ? (unsigned)strtoul(argv[3], NULL, 10) : 0;
  e.host.seed = argc > 4 ? strtoull(argv[4], NULL, 10) : 1;
  open_endpoint(&e, (uint16_t)strtoul(argv[2], NULL, 10));
  if (!e.is_server)
    open_streams(&e);
  while (!e.host.is_closed &&
         (e.is_server || e.opened < STREAMS || e.streams)) {
    receive_packets(&e.host);
    handle_events(&e);
    send_pending(&e.host);
  }
  close_host(&e.host, !e.is_server);
  while (e.streams) /* a server may miss the last acknowledgements */
    forget(e.streams);
  printf("%u streams echoed, %u reset, %u stopped; blocked %u times\n",
         e.echoed, e.resets, e.stops, e.blocked);
  return e.echoed == 80 && e.resets == 10 && e.stops == 10 ? 0 : 1;
}
